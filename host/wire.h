/*
 * PDUs over a stream socket on the loopback, each behind its length in two bytes, little-endian. Every wait has an end.
 */
#ifndef WIRE_H
#define WIRE_H

#include <stddef.h>
#include <stdint.h>

/* The most bytes that a length tells: a buffer of so many takes whatever comes. */
#define WIRE_MAX 65535

/* How long a call waits, in milliseconds. */
#define WIRE_PATIENCE 5000

/* What a read came to. */
enum wire_got {
    WIRE_PDU,    /* a PDU, of any length */
    WIRE_ENDED,  /* the peer is gone, or the link is: also in the middle of a PDU */
    WIRE_SILENT, /* nothing more came in time */
};

/* A port: digits, 0 to 65,535. Answers 0 where the text is none. */
int wire_port(const char *text, uint16_t *port);

/* Listens on 127.0.0.1, on a port that the system chooses where it is 0, and says which. Answers a socket, or -1 with errno. */
int wire_listen(uint16_t port, uint16_t *chosen);

/* Takes the next connection. Answers a socket, or -1. */
int wire_accept(int listener);

/* Connects to a port of 127.0.0.1, again and again until somebody listens. Answers a socket, or -1. */
int wire_connect(uint16_t port);

enum wire_got wire_receive(int fd, uint8_t pdu[WIRE_MAX], size_t *len);

/* Sends a PDU. Answers whether all of it went: where not, the link is broken. */
int wire_send(int fd, const uint8_t *pdu, size_t len);

#endif
