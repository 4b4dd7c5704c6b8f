/*
 * A shore desk: waits for a panel on the loopback, opens its channel PUMP and sends it commands.
 *
 *     desk PORT COMMAND..      on port PORT of 127.0.0.1, or one that the system chooses where PORT is 0
 *
 * The first line of standard output says which port. Then there is a line for each command that the panel has acknowledged, in
 * their order: the next one is sent only then. A command goes as a message: its place from 1, a space, its text; the panel
 * answers with the place. When all are acknowledged the channel is closed.
 *
 * When the link drops, the desk waits for the panel to come back, starts anew on the same state and store, and sends the first
 * command again that was not acknowledged. Whether the panel had it already can't be known here; the panel knows it by its place.
 */
#include <stdio.h>
#include <string.h>
#include <unistd.h>

#include "immuskade.h"
#include "wire.h"

enum { DROPS_MAX = 8, VERSION = 2 };

struct desk {
    uint8_t state[DVC_STATE], store[DVC_STORE], reply[DVC_REPLY_MIN], out[DVC_PDU_MAX];
    uint8_t pdu[WIRE_MAX];
    char **commands;
    size_t count, acknowledged;
    int closing; /* all commands are acknowledged, and a Close was sent */
};

/* How a connection goes on, or ended. */
enum next { GOES_ON, DONE, DROPPED, FAILED };

static enum next failed(const char *what, uint64_t answer)
{
    fprintf(stderr, "desk: %s: answer %u with number %u\n", what, dvc_word(answer), (unsigned)dvc_number(answer));
    return FAILED;
}

static enum next send_pdu(int fd, const uint8_t *pdu, size_t len)
{
    return wire_send(fd, pdu, len) ? GOES_ON : DROPPED;
}

/* The message of a command, and its length; or -1 where it is longer than a message may be. */
static int message_of(const struct desk *d, size_t command, char message[DVC_MESSAGE_MAX + 1])
{
    int len = snprintf(message, DVC_MESSAGE_MAX + 1, "%zu %s", command + 1, d->commands[command]);
    return len > DVC_MESSAGE_MAX ? -1 : len;
}

/* Sends the first command that is not acknowledged, cut into PDUs. */
static enum next send_command(struct desk *d, int fd, uint32_t number)
{
    char message[DVC_MESSAGE_MAX + 1];
    int len = message_of(d, d->acknowledged, message);
    size_t offset = 0;
    if (len < 0)
        return FAILED;
    do {
        uint32_t piece = dvc_cut(number, (const uint8_t *)message, (size_t)len, offset, d->out, sizeof d->out);
        if (dvc_refused(piece)) {
            fprintf(stderr, "desk: the command can't be cut: refusal %u\n", (unsigned)piece);
            return FAILED;
        }
        if (send_pdu(fd, d->out, dvc_pdu_len(piece)) != GOES_ON)
            return DROPPED;
        offset = dvc_next_offset(piece);
    } while (offset < (size_t)len);
    return GOES_ON;
}

static enum next close_channel(struct desk *d, int fd, uint32_t number)
{
    uint64_t answer = dvc_shore_local_close(d->state, sizeof d->state, d->store, sizeof d->store, number, d->reply, sizeof d->reply);
    if (dvc_word(answer) != DVC_CLOSED)
        return failed("closing", answer);
    d->closing = 1;
    return send_pdu(fd, d->reply, dvc_sent(answer));
}

/* A message of the panel is the place of the command that it has. */
static enum next take_message(struct desk *d, int fd, uint64_t answer)
{
    char place[24];
    int len = snprintf(place, sizeof place, "%zu", d->acknowledged + 1);
    if (d->acknowledged == d->count || dvc_message_len(answer) != (size_t)len ||
        memcmp(place, dvc_message(answer, d->store), (size_t)len) != 0)
        return failed("a message that acknowledges nothing", answer);
    d->acknowledged++;
    printf("command %zu acknowledged\n", d->acknowledged);
    if (d->acknowledged < d->count)
        return send_command(d, fd, dvc_channel(answer));
    return close_channel(d, fd, dvc_channel(answer));
}

static enum next open_channel(struct desk *d, int fd)
{
    uint64_t answer = dvc_shore_open(d->state, sizeof d->state, (const uint8_t *)"PUMP", 4, 0, d->out, sizeof d->out);
    if (dvc_word(answer) != DVC_AWAITED)
        return failed("opening PUMP", answer);
    return send_pdu(fd, d->out, dvc_sent(answer));
}

/* What the host does for an answer. */
static enum next act(struct desk *d, int fd, uint64_t answer)
{
    switch (dvc_word(answer)) {
    case DVC_READY:
        return open_channel(d, fd);
    case DVC_OPENED:
        return send_command(d, fd, dvc_channel(answer));
    case DVC_HELD:
        return GOES_ON;
    case DVC_MESSAGE:
        return take_message(d, fd, answer);
    case DVC_IGNORED: /* the panel's Close, for ours */
        return d->closing ? DONE : GOES_ON;
    default:
        return failed("the panel's PDU", answer);
    }
}

static enum next begin(struct desk *d, int fd)
{
    d->closing = 0;
    if (dvc_shore_start(d->state, sizeof d->state, d->store, sizeof d->store) != 0)
        return FAILED;
    uint64_t answer = dvc_shore_request(d->state, sizeof d->state, VERSION, 0, 0, 0, 0, d->out, sizeof d->out);
    if (dvc_word(answer) != DVC_ASKED)
        return failed("the request", answer);
    return send_pdu(fd, d->out, dvc_sent(answer));
}

/* One connection, from Start to its end. */
static enum next serve(struct desk *d, int fd)
{
    enum next next = begin(d, fd);
    while (next == GOES_ON) {
        size_t len;
        enum wire_got got = wire_receive(fd, d->pdu, &len);
        if (got == WIRE_SILENT)
            fputs("desk: the panel is silent\n", stderr);
        if (got != WIRE_PDU)
            return got == WIRE_ENDED ? DROPPED : FAILED;
        next = act(d, fd,
                   dvc_shore_receive(d->state, sizeof d->state, d->store, sizeof d->store, d->pdu, len, d->reply, sizeof d->reply));
    }
    return next;
}

/* Connections until all is done. Answers the exit status. */
static int run(struct desk *d, int listener)
{
    for (int drops = 0; drops <= DROPS_MAX; drops++) {
        int fd = wire_accept(listener);
        if (fd < 0) {
            perror("desk: no panel");
            return 1;
        }
        enum next end = serve(d, fd);
        if (close(fd) != 0)
            perror("desk: closing the link");
        if (end != DROPPED)
            return end == DONE ? 0 : 1;
        fprintf(stderr, "desk: the link dropped, with %zu of %zu commands acknowledged\n", d->acknowledged, d->count);
    }
    fputs("desk: the link dropped too often\n", stderr);
    return 1;
}

int main(int argc, char **argv)
{
    static struct desk desk;
    uint16_t port;
    if (argc < 3 || !wire_port(argv[1], &port)) {
        fputs("usage: desk PORT COMMAND..\n", stderr);
        return 2;
    }
    desk.commands = argv + 2;
    desk.count = (size_t)argc - 2;
    for (size_t i = 0; i < desk.count; i++) {
        char message[DVC_MESSAGE_MAX + 1];
        if (message_of(&desk, i, message) < 0) {
            fprintf(stderr, "desk: command %zu is too long for a message\n", i + 1);
            return 2;
        }
    }
    int listener = wire_listen(port, &port);
    if (listener < 0) {
        perror("desk: listening");
        return 1;
    }
    setvbuf(stdout, NULL, _IOLBF, 0);
    printf("desk on 127.0.0.1:%u\n", (unsigned)port);
    int status = run(&desk, listener);
    if (close(listener) != 0 || fflush(stdout) != 0 || ferror(stdout)) {
        perror("desk");
        return 1;
    }
    return status;
}
