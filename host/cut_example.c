/*
 * A host program to start from: cuts one message and writes its PDUs.
 *
 *     cut_example NUMBER [FILE]
 *
 * The message is FILE, or else what stands on standard input. Each PDU goes to standard output after its length in two bytes,
 * little-endian, which is what the walker program reads.
 */
#include <errno.h>
#include <stdio.h>
#include <stdlib.h>

#include "immuskade.h"

/* A channel number: digits, below 2^32. */
static int read_number(const char *text, uint32_t *number)
{
    char *end;
    errno = 0;
    unsigned long long value = strtoull(text, &end, 10);
    if (*text < '0' || *text > '9' || *end != '\0' || errno != 0 || value > UINT32_MAX)
        return 0;
    *number = (uint32_t)value;
    return 1;
}

/* Sends one PDU. A panel sends it on its static channel instead. */
static void send_pdu(const uint8_t *pdu, size_t len)
{
    putchar((int)(len % 256));
    putchar((int)(len / 256));
    fwrite(pdu, 1, len, stdout);
}

/* Cuts the message block by block. Answers 0, or the refusal. */
static uint32_t send_message(uint32_t number, const uint8_t *message, size_t message_len)
{
    uint8_t out[DVC_PDU_MAX];
    size_t offset = 0;
    do {
        uint32_t answer = dvc_cut(number, message, message_len, offset, out, sizeof out);
        if (dvc_refused(answer))
            return answer;
        send_pdu(out, dvc_pdu_len(answer));
        offset = dvc_next_offset(answer);
    } while (offset < message_len);
    return 0;
}

int main(int argc, char **argv)
{
    /* One byte more than a message has, so that a longer one is seen, and refused. */
    static uint8_t message[DVC_MESSAGE_MAX + 1];
    uint32_t number;

    if (argc < 2 || argc > 3 || !read_number(argv[1], &number)) {
        fprintf(stderr, "usage: cut_example NUMBER [FILE]\n");
        return 2;
    }
    FILE *in = argc == 3 ? fopen(argv[2], "rb") : stdin;
    if (in == NULL) {
        perror(argv[2]);
        return 2;
    }
    size_t message_len = fread(message, 1, sizeof message, in);
    if (ferror(in)) {
        perror("cut_example: reading the message");
        return 2;
    }
    uint32_t refusal = send_message(number, message, message_len);
    if (refusal != 0) {
        fprintf(stderr, "cut_example: refused: %u\n", (unsigned)refusal);
        return 1;
    }
    return fflush(stdout) == 0 ? 0 : 2;
}
