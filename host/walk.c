/*
 * The programs that walk, as a host in C over the archive: each prints what the proved program of that name prints.
 *
 *     walk walker|messages|moves|lamp|desk|link|sender
 *
 * Records come from standard input and lines go to standard output, as docs/PROGRAMS.md has them. The one listener is PUMP.
 */
#include <inttypes.h>
#include <stdio.h>
#include <string.h>

#include "immuskade.h"

enum { RECORD_MAX = 65535, REQUEST = 65533, OPEN = 65534, CLOSE = 65535 };

static const uint8_t list[] = "PUMP"; /* with its zero: one name */

/* What the host of an end lends. */
struct end {
    const char *name;
    uint8_t state[DVC_STATE], store[DVC_STORE], reply[DVC_REPLY_MIN], out[DVC_PDU_MAX];
};

static struct end panel = {.name = "panel"}, shore = {.name = "shore"};

static uint8_t record[RECORD_MAX];

/* ---- records */

static uint32_t little(const uint8_t *at, size_t width)
{
    uint32_t value = 0;
    for (size_t i = width; i-- > 0;)
        value = value << 8 | at[i];
    return value;
}

/* What a read came to: the bytes asked for, nothing at all, or a part of them. */
enum got { WHOLE, NOTHING, PART };

static enum got take(uint8_t *to, size_t len)
{
    size_t got = fread(to, 1, len, stdin);
    return got == len ? WHOLE : got == 0 ? NOTHING : PART;
}

/* The two bytes that a record begins with. */
static enum got take_length(size_t *len)
{
    uint8_t two[2];
    enum got got = take(two, sizeof two);
    if (got == WHOLE)
        *len = little(two, 2);
    return got;
}

/* ---- lines */

static const char *word_of(uint64_t answer)
{
    static const char *const words[] = {
        [DVC_ASKED] = "asked",       [DVC_READY] = "ready", [DVC_REFUSED] = "refused", [DVC_AWAITED] = "awaited", [DVC_OPENED] = "opened",
        [DVC_DECLINED] = "declined", [DVC_HELD] = "held",   [DVC_MESSAGE] = "message", [DVC_CLOSED] = "closed",   [DVC_IGNORED] = "ignored",
    };
    unsigned word = dvc_word(answer);
    return word < sizeof words / sizeof *words && words[word] ? words[word] : "?";
}

static void answer_line(uint64_t place, uint64_t answer)
{
    printf("%" PRIu64 " %s ", place, word_of(answer));
    if (dvc_has_channel(answer))
        printf("%" PRIu32, dvc_channel(answer));
    else
        putchar('-');
    printf(" %" PRIu32 " %zu\n", dvc_number(answer), dvc_sent(answer));
}

static void message_line(const struct end *e, uint64_t place, uint64_t answer)
{
    const uint8_t *message = dvc_message(answer, e->store);
    size_t len = dvc_message_len(answer);
    printf("%" PRIu64 " %" PRIu32 " ", place, dvc_channel(answer));
    for (size_t i = 0; i < len; i++)
        printf("%02x", message[i]);
    puts(len == 0 ? "-" : "");
}

static void totals_line(uint64_t place)
{
    uint64_t totals = dvc_totals(panel.state, sizeof panel.state);
    printf("%" PRIu64 " %" PRIu32 " %" PRIu32 "\n", place, dvc_open_channels(totals), dvc_awaited_bytes(totals));
}

/* ---- the client end */

static uint64_t receive(const uint8_t *pdu, size_t len)
{
    return dvc_receive(panel.state, sizeof panel.state, panel.store, sizeof panel.store, list, sizeof list, pdu, len, panel.reply,
                       sizeof panel.reply);
}

static uint64_t local_close(uint32_t number)
{
    return dvc_local_close(panel.state, sizeof panel.state, panel.store, sizeof panel.store, number, panel.reply, sizeof panel.reply);
}

/* A PDU, or a local close where the record begins with 0, which no command has. */
static uint64_t move(size_t len)
{
    if (len == 0 || record[0] != 0)
        return receive(record, len);
    return local_close(little(record + 1, len < 5 ? len - 1 : 4));
}

struct job {
    const char *name, *header;
    int moves, messages, totals;
};

static void line(const struct job *job, uint64_t place, uint64_t answer)
{
    if (job->totals)
        totals_line(place);
    else if (!job->messages)
        answer_line(place, answer);
    else if (dvc_word(answer) == DVC_MESSAGE)
        message_line(&panel, place, answer);
}

static void walk_panel(const struct job *job)
{
    size_t len;
    enum got got;

    fputs(job->header, stdout);
    for (uint64_t place = 0; (got = take_length(&len)) != NOTHING; place++) {
        if (got == PART || (len > 0 && take(record, len) != WHOLE)) {
            if (!job->messages)
                printf("%" PRIu64 " cut\n", place);
            return;
        }
        line(job, place, job->moves ? move(len) : receive(record, len));
    }
}

/* ---- the shore end */

static uint64_t shore_receive(const uint8_t *pdu, size_t len)
{
    return dvc_shore_receive(shore.state, sizeof shore.state, shore.store, sizeof shore.store, pdu, len, shore.reply, sizeof shore.reply);
}

/* The host's request: version and four charges. Answers 0 where the record is cut short. */
static uint64_t request(void)
{
    if (take(record, 10) != WHOLE)
        return 0;
    uint16_t values[5];
    for (size_t i = 0; i < 5; i++)
        values[i] = (uint16_t)little(record + 2 * i, 2);
    return dvc_shore_request(shore.state, sizeof shore.state, values[0], values[1], values[2], values[3], values[4], shore.out,
                             sizeof shore.out);
}

/* The host's local open: class, the name's length, the name. */
static uint64_t open_channel(void)
{
    uint8_t head[3];
    if (take(head, sizeof head) != WHOLE)
        return 0;
    size_t len = little(head + 1, 2);
    if (len > 0 && take(record, len) != WHOLE)
        return 0;
    return dvc_shore_open(shore.state, sizeof shore.state, record, len, head[0], shore.out, sizeof shore.out);
}

static uint64_t close_channel(void)
{
    if (take(record, 4) != WHOLE)
        return 0;
    return dvc_shore_local_close(shore.state, sizeof shore.state, shore.store, sizeof shore.store, little(record, 4), shore.reply,
                                 sizeof shore.reply);
}

/* What a record of the host comes to, or 0, which no answer is, where it is cut short. */
static uint64_t host_event(size_t len)
{
    return len == REQUEST ? request() : len == OPEN ? open_channel() : close_channel();
}

/* The same of any record of the desk's. */
static uint64_t event(size_t len)
{
    if (len >= REQUEST)
        return host_event(len);
    if (len > 0 && take(record, len) != WHOLE)
        return 0;
    return shore_receive(record, len);
}

static void walk_desk(void)
{
    size_t len;
    enum got got;

    puts("event answer channel number sent");
    for (uint64_t place = 0; (got = take_length(&len)) != NOTHING; place++) {
        uint64_t answer = got == PART ? 0 : event(len);
        if (answer == 0) {
            printf("%" PRIu64 " cut\n", place);
            return;
        }
        answer_line(place, answer);
    }
}

/* ---- both ends in one process: what one sends the other receives at once */

/* What a record came to. */
enum came { TAKEN, CUT, BAD };

static void end_line(const struct end *e, uint64_t place, uint64_t answer)
{
    printf("%s ", e->name);
    answer_line(place, answer);
    if (dvc_word(answer) == DVC_MESSAGE)
        message_line(e, place, answer);
}

static void to_shore(uint64_t place, const uint8_t *pdu, size_t len)
{
    end_line(&shore, place, shore_receive(pdu, len));
}

static void to_panel(uint64_t place, const uint8_t *pdu, size_t len)
{
    uint64_t answer = receive(pdu, len);
    end_line(&panel, place, answer);
    if (dvc_sent(answer) > 0)
        to_shore(place, panel.reply, dvc_sent(answer));
}

/* 0: a record of the shore's host. */
static enum came link_host(uint64_t place)
{
    size_t len;
    if (take_length(&len) != WHOLE)
        return CUT;
    if (len < REQUEST)
        return BAD;
    uint64_t answer = host_event(len);
    if (answer == 0)
        return CUT;
    end_line(&shore, place, answer);
    if (dvc_sent(answer) > 0)
        to_panel(place, len == CLOSE ? shore.reply : shore.out, dvc_sent(answer));
    return TAKEN;
}

/* 1: a local close at the panel. */
static enum came link_close(uint64_t place)
{
    if (take(record, 4) != WHOLE)
        return CUT;
    uint64_t answer = local_close(little(record, 4));
    end_line(&panel, place, answer);
    if (dvc_sent(answer) > 0)
        to_shore(place, panel.reply, dvc_sent(answer));
    return TAKEN;
}

/* Sends so many PDUs of a message. */
static void send_message(struct end *from, uint64_t place, uint32_t number, size_t len, unsigned pdus)
{
    size_t offset = 0;
    for (unsigned i = 0; i < pdus && (i == 0 || offset < len); i++) {
        uint32_t piece = dvc_cut(number, record, len, offset, from->out, sizeof from->out);
        if (dvc_refused(piece)) {
            printf("%s %" PRIu64 " refused %" PRIu32 " %" PRIu32 " 0\n", from->name, place, number, piece);
            return;
        }
        (from == &shore ? to_panel : to_shore)(place, from->out, dvc_pdu_len(piece));
        offset = dvc_next_offset(piece);
    }
}

/* 2 or 3: a message of a host, and how many of its PDUs are sent. */
static enum came link_message(struct end *from, uint64_t place)
{
    uint8_t head[6], pdus;
    if (take(head, sizeof head) != WHOLE)
        return CUT;
    size_t len = little(head + 4, 2);
    if ((len > 0 && take(record, len) != WHOLE) || take(&pdus, 1) != WHOLE)
        return CUT;
    send_message(from, place, little(head, 4), len, pdus);
    return TAKEN;
}

/* 4: the link drops, and both ends start. */
static enum came link_drop(uint64_t place)
{
    dvc_start(panel.state, sizeof panel.state, panel.store, sizeof panel.store);
    dvc_shore_start(shore.state, sizeof shore.state, shore.store, sizeof shore.store);
    printf("%" PRIu64 " dropped\n", place);
    return TAKEN;
}

static enum came link_record(uint8_t lead, uint64_t place)
{
    switch (lead) {
    case 0:
        return link_host(place);
    case 1:
        return link_close(place);
    case 2:
        return link_message(&shore, place);
    case 3:
        return link_message(&panel, place);
    case 4:
        return link_drop(place);
    default:
        return BAD;
    }
}

static void walk_link(void)
{
    uint8_t lead;
    puts("end event answer channel number sent");
    for (uint64_t place = 0; take(&lead, 1) == WHOLE; place++) {
        enum came came = link_record(lead, place);
        if (came != TAKEN) {
            printf("%" PRIu64 " %s\n", place, came == BAD ? "bad" : "cut");
            return;
        }
    }
}

/* ---- the sender's judge: PDUs received on one channel, open and idle */

static uint8_t expected[RECORD_MAX];

/* The end is made ready, and the channel opened. */
static void open_for(uint32_t number)
{
    static const uint8_t capabilities[] = {0x50, 0, 1, 0};
    uint8_t create[10] = {0x12, 0, 0, 0, 0, 'P', 'U', 'M', 'P', 0};
    for (size_t i = 0; i < 4; i++)
        create[1 + i] = (uint8_t)(number >> 8 * i);
    receive(capabilities, sizeof capabilities);
    receive(create, sizeof create);
}

/* The reason for which a PDU that was answered so is at fault by itself, or none. */
static const char *fault(uint32_t number, size_t len, uint64_t answer)
{
    int refused = dvc_word(answer) == DVC_REFUSED;
    if (refused && dvc_number(answer) >= 2 && dvc_number(answer) <= 5)
        return "reading";
    if (len == 0 || (record[0] >> 4 != 2 && record[0] >> 4 != 3))
        return "kind";
    if (dvc_channel(answer) != number)
        return "channel";
    return refused ? "steps" : NULL;
}

static int same(uint64_t answer, size_t len)
{
    return dvc_message_len(answer) == len && (len == 0 || memcmp(dvc_message(answer, panel.store), expected, len) == 0);
}

static void walk_sender(void)
{
    uint8_t head[6];
    size_t message_len, len;
    enum got got;
    const char *why = NULL;                  /* of the first PDU at fault */
    uint64_t at = 0;                         /* its place, or that of the next PDU */
    enum { GOING, RIGHT, OTHER } up = GOING; /* what the PDU before handed up */

    if (take(head, sizeof head) != WHOLE || ((message_len = little(head + 4, 2)) > 0 && take(expected, message_len) != WHOLE)) {
        puts("cut");
        return;
    }
    uint32_t number = little(head, 4);
    open_for(number);
    while ((got = take_length(&len)) != NOTHING) {
        if (got == PART || (len > 0 && take(record, len) != WHOLE)) {
            puts("cut");
            return;
        }
        if (why)
            continue;
        if (up != GOING) {
            why = "before";
            at--;
            continue;
        }
        uint64_t answer = receive(record, len);
        why = fault(number, len, answer);
        if (why)
            continue;
        at++;
        if (dvc_word(answer) == DVC_MESSAGE)
            up = same(answer, message_len) ? RIGHT : OTHER;
    }
    if (why)
        printf("no %" PRIu64 " %s\n", at, why);
    else
        puts(up == GOING ? "no early" : up == RIGHT ? "yes" : "no bytes");
}

/* ---- the program */

/* Runs the job of that name, both ends started. Answers 0 where there is none. */
static int run(const char *name)
{
    static const struct job jobs[] = {
        {"walker", "pdu answer channel number reply\n", 0, 0, 0},
        {"moves", "pdu answer channel number reply\n", 1, 0, 0},
        {"lamp", "pdu channels awaited\n", 1, 0, 1},
        {"messages", "", 0, 1, 0},
    };
    if (strcmp(name, "desk") == 0) {
        walk_desk();
        return 1;
    }
    if (strcmp(name, "link") == 0) {
        walk_link();
        return 1;
    }
    if (strcmp(name, "sender") == 0) {
        walk_sender();
        return 1;
    }
    for (size_t i = 0; i < sizeof jobs / sizeof *jobs; i++)
        if (strcmp(name, jobs[i].name) == 0) {
            walk_panel(&jobs[i]);
            return 1;
        }
    return 0;
}

int main(int argc, char **argv)
{
    if (dvc_start(panel.state, sizeof panel.state, panel.store, sizeof panel.store) != 0 ||
        dvc_shore_start(shore.state, sizeof shore.state, shore.store, sizeof shore.store) != 0) {
        fputs("walk: an end can't be started\n", stderr);
        return 1;
    }
    if (argc != 2 || !run(argv[1])) {
        fputs("usage: walk walker|messages|moves|lamp|desk|link|sender\n", stderr);
        return 2;
    }
    if (ferror(stdin) || fflush(stdout) != 0 || ferror(stdout)) {
        fputs("walk: input or output failed\n", stderr);
        return 1;
    }
    return 0;
}
