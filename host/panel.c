/*
 * A panel: connects to a desk on the loopback, listens for the channel PUMP and prints each command once.
 *
 *     panel PORT      the desk's port on 127.0.0.1
 *
 * A line for each command: how many messages its channel has brought since it was opened, and the command's text. A command is
 * a message: its place from 1, a space, its text; the panel answers with the place. A place that it has had is answered again
 * and not carried out: the desk sends a command again whose answer was lost on the way.
 *
 * When the link drops, the panel connects again and starts anew on the same state and store. It ends when the desk has closed
 * the channel and then the link.
 */
#include <ctype.h>
#include <stdio.h>
#include <string.h>
#include <unistd.h>

#include "immuskade.h"
#include "wire.h"

enum { DROPS_MAX = 8 };

struct panel {
    uint8_t state[DVC_STATE], store[DVC_STORE], reply[DVC_REPLY_MIN], out[DVC_PDU_MAX];
    uint8_t pdu[WIRE_MAX];
    size_t carried_out; /* the place of the last command that was */
    int closed;         /* the desk has closed the channel */
};

/* How a connection goes on, or ended. */
enum next { GOES_ON, DONE, DROPPED, FAILED };

static enum next failed(const char *what, uint64_t answer)
{
    fprintf(stderr, "panel: %s: answer %u with number %u\n", what, dvc_word(answer), (unsigned)dvc_number(answer));
    return FAILED;
}

/* Sends a message that fits one PDU: the place of a command. */
static enum next acknowledge(struct panel *p, int fd, uint32_t number, size_t place)
{
    char message[24];
    int len = snprintf(message, sizeof message, "%zu", place);
    uint32_t piece = len < 0 ? DVC_OVER_LIMIT : dvc_cut(number, (const uint8_t *)message, (size_t)len, 0, p->out, sizeof p->out);
    if (dvc_refused(piece))
        return FAILED;
    return wire_send(fd, p->out, dvc_pdu_len(piece)) ? GOES_ON : DROPPED;
}

/* Prints a command on one line, whatever its bytes are. */
static void carry_out(uint32_t count, const uint8_t *text, size_t len)
{
    printf("%lu ", (unsigned long)count);
    for (size_t i = 0; i < len; i++)
        if (text[i] < 128 && isprint(text[i]))
            putchar(text[i]);
        else
            printf("\\x%02x", text[i]);
    putchar('\n');
}

/* Reads the place that a command begins with. Answers how many bytes it and the space behind it have, or 0. */
static size_t read_place(const uint8_t *message, size_t len, size_t *place)
{
    size_t at = 0;
    *place = 0;
    for (; at < len && at < 9 && message[at] >= '0' && message[at] <= '9'; at++)
        *place = 10 * *place + (size_t)(message[at] - '0');
    return at > 0 && at < len && message[at] == ' ' ? at + 1 : 0;
}

static enum next take_message(struct panel *p, int fd, uint64_t answer)
{
    const uint8_t *message = dvc_message(answer, p->store);
    size_t len = dvc_message_len(answer), place, head = read_place(message, len, &place);
    uint64_t count = dvc_count(p->state, sizeof p->state, dvc_channel(answer));
    if (head == 0 || place > p->carried_out + 1)
        return failed("a message that is no next command", answer);
    if (dvc_is_refused(count))
        return failed("the count", count);
    if (place > p->carried_out) {
        carry_out(dvc_messages(count), message + head, len - head);
        p->carried_out = place;
    } else {
        fprintf(stderr, "panel: command %zu came again, and is not carried out again\n", place);
    }
    return acknowledge(p, fd, dvc_channel(answer), place);
}

/* What the host does for an answer, when the reply is sent. */
static enum next act(struct panel *p, int fd, uint64_t answer)
{
    switch (dvc_word(answer)) {
    case DVC_READY:
    case DVC_OPENED:
    case DVC_DECLINED:
    case DVC_HELD:
    case DVC_IGNORED:
        return GOES_ON;
    case DVC_MESSAGE:
        return take_message(p, fd, answer);
    case DVC_CLOSED:
        p->closed = 1;
        return GOES_ON;
    default:
        return failed("the desk's PDU", answer);
    }
}

static enum next take_pdu(struct panel *p, int fd, size_t len)
{
    static const uint8_t list[] = "PUMP"; /* with its zero: one name */
    uint64_t answer = dvc_receive(p->state, sizeof p->state, p->store, sizeof p->store, list, sizeof list, p->pdu, len, p->reply,
                                  sizeof p->reply);
    if (dvc_sent(answer) > 0 && !wire_send(fd, p->reply, dvc_sent(answer)))
        return DROPPED;
    return act(p, fd, answer);
}

/* The link is gone: after a close of the channel that is the end, and else a drop. */
static enum next ended(const struct panel *p)
{
    uint64_t totals = dvc_totals(p->state, sizeof p->state);
    if (p->closed && dvc_open_channels(totals) == 0)
        return DONE;
    fprintf(stderr, "panel: the link dropped, with %lu channels open and %lu bytes still to come\n",
            (unsigned long)dvc_open_channels(totals), (unsigned long)dvc_awaited_bytes(totals));
    return DROPPED;
}

/* One connection, from Start to its end. */
static enum next serve(struct panel *p, int fd)
{
    enum next next = GOES_ON;
    p->closed = 0;
    if (dvc_start(p->state, sizeof p->state, p->store, sizeof p->store) != 0)
        return FAILED;
    while (next == GOES_ON) {
        size_t len;
        enum wire_got got = wire_receive(fd, p->pdu, &len);
        if (got == WIRE_SILENT)
            fputs("panel: the desk is silent\n", stderr);
        if (got != WIRE_PDU)
            return got == WIRE_ENDED ? ended(p) : FAILED;
        next = take_pdu(p, fd, len);
    }
    return next == DROPPED ? ended(p) : next;
}

/* Connections until the desk is done. Answers the exit status. */
static int run(struct panel *p, uint16_t port)
{
    for (int drops = 0; drops <= DROPS_MAX; drops++) {
        int fd = wire_connect(port);
        if (fd < 0) {
            perror("panel: no desk");
            return 1;
        }
        enum next end = serve(p, fd);
        if (close(fd) != 0)
            perror("panel: closing the link");
        if (end != DROPPED)
            return end == DONE ? 0 : 1;
    }
    fputs("panel: the link dropped too often\n", stderr);
    return 1;
}

int main(int argc, char **argv)
{
    static struct panel panel;
    uint16_t port;
    if (argc != 2 || !wire_port(argv[1], &port) || port == 0) {
        fputs("usage: panel PORT\n", stderr);
        return 2;
    }
    int status = run(&panel, port);
    if (fflush(stdout) != 0 || ferror(stdout)) {
        perror("panel");
        return 1;
    }
    return status;
}
