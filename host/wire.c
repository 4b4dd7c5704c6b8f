#define _POSIX_C_SOURCE 200809L
#include "wire.h"

#include <arpa/inet.h>
#include <errno.h>
#include <netinet/in.h>
#include <poll.h>
#include <stdlib.h>
#include <sys/socket.h>
#include <time.h>
#include <unistd.h>

int wire_port(const char *text, uint16_t *port)
{
    char *end;
    errno = 0;
    unsigned long value = strtoul(text, &end, 10);
    if (*text < '0' || *text > '9' || *end != '\0' || errno != 0 || value > UINT16_MAX)
        return 0;
    *port = (uint16_t)value;
    return 1;
}

/* ---- waiting */

static long long now(void)
{
    struct timespec t;
    clock_gettime(CLOCK_MONOTONIC, &t);
    return (long long)t.tv_sec * 1000 + t.tv_nsec / 1000000;
}

/* Waits until the socket can be read or written. Answers 0 where the time is over first. */
static int wait_until(int fd, short events, long long deadline)
{
    for (;;) {
        long long left = deadline - now();
        if (left <= 0)
            return 0;
        struct pollfd one = {.fd = fd, .events = events};
        int ready = poll(&one, 1, (int)left);
        if (ready > 0)
            return 1;
        if (ready < 0 && errno != EINTR)
            return 0;
    }
}

/* ---- connections */

static struct sockaddr_in loopback(uint16_t port)
{
    struct sockaddr_in at = {.sin_family = AF_INET, .sin_port = htons(port)};
    at.sin_addr.s_addr = htonl(INADDR_LOOPBACK);
    return at;
}

/* Closes a socket that is of no use. Answers -1, and keeps errno. */
static int give_up(int fd)
{
    int why = errno;
    close(fd);
    errno = why;
    return -1;
}

int wire_listen(uint16_t port, uint16_t *chosen)
{
    struct sockaddr_in at = loopback(port);
    socklen_t len = sizeof at;
    int fd = socket(AF_INET, SOCK_STREAM, 0), yes = 1;
    if (fd < 0)
        return -1;
    if (setsockopt(fd, SOL_SOCKET, SO_REUSEADDR, &yes, sizeof yes) != 0 || bind(fd, (struct sockaddr *)&at, sizeof at) != 0 ||
        listen(fd, 1) != 0 || getsockname(fd, (struct sockaddr *)&at, &len) != 0)
        return give_up(fd);
    *chosen = ntohs(at.sin_port);
    return fd;
}

int wire_accept(int listener)
{
    if (!wait_until(listener, POLLIN, now() + WIRE_PATIENCE)) {
        errno = ETIMEDOUT;
        return -1;
    }
    return accept(listener, NULL, NULL);
}

int wire_connect(uint16_t port)
{
    const struct timespec pause = {.tv_nsec = 50 * 1000000};
    struct sockaddr_in at = loopback(port);
    long long deadline = now() + WIRE_PATIENCE;
    for (;;) {
        int fd = socket(AF_INET, SOCK_STREAM, 0);
        if (fd < 0)
            return -1;
        if (connect(fd, (struct sockaddr *)&at, sizeof at) == 0)
            return fd;
        give_up(fd);
        if (now() >= deadline)
            return -1;
        nanosleep(&pause, NULL);
    }
}

/* ---- PDUs */

/* Reads so many bytes, in whatever pieces they come. */
static enum wire_got fill(int fd, uint8_t *to, size_t len, long long deadline)
{
    while (len > 0) {
        if (!wait_until(fd, POLLIN, deadline))
            return WIRE_SILENT;
        ssize_t got = recv(fd, to, len, MSG_DONTWAIT);
        if (got == 0)
            return WIRE_ENDED;
        if (got < 0) {
            if (errno == EINTR || errno == EAGAIN)
                continue;
            return WIRE_ENDED;
        }
        to += got;
        len -= (size_t)got;
    }
    return WIRE_PDU;
}

enum wire_got wire_receive(int fd, uint8_t pdu[WIRE_MAX], size_t *len)
{
    long long deadline = now() + WIRE_PATIENCE;
    uint8_t two[2];
    enum wire_got got = fill(fd, two, sizeof two, deadline);
    if (got != WIRE_PDU)
        return got;
    *len = (size_t)two[0] | (size_t)two[1] << 8;
    return fill(fd, pdu, *len, deadline);
}

/* Writes so many bytes, in whatever pieces they go. */
static int drain(int fd, const uint8_t *from, size_t len, long long deadline)
{
    while (len > 0) {
        if (!wait_until(fd, POLLOUT, deadline))
            return 0;
        ssize_t sent = send(fd, from, len, MSG_DONTWAIT | MSG_NOSIGNAL);
        if (sent < 0) {
            if (errno == EINTR || errno == EAGAIN)
                continue;
            return 0;
        }
        from += sent;
        len -= (size_t)sent;
    }
    return 1;
}

int wire_send(int fd, const uint8_t *pdu, size_t len)
{
    long long deadline = now() + WIRE_PATIENCE;
    uint8_t two[2] = {(uint8_t)(len & 255), (uint8_t)(len >> 8)};
    if (len > WIRE_MAX)
        return 0;
    return drain(fd, two, sizeof two, deadline) && drain(fd, pdu, len, deadline);
}
