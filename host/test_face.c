/*
 * Hands states of every kind to every call that takes one, and compares with what the header says, judged plainly in C.
 *
 *   - every value in every byte of busy states of both ends: channels idle, joining, spoiled and awaited, with counts;
 *   - every length from 0 to 260, of busy states and of zeros;
 *   - random bytes, random records behind a good head, and random sound tables, some with one thing made wrong;
 *   - stores, replies and buffers for a PDU that are too short or too long, for the Starts too;
 *   - every call on the other end's state.
 *
 * A call is refused with 1 exactly where the state is none of that end's, its table is unsound or a buffer is not of its size, and
 * then no byte of any buffer changed. Any other refusal leaves the store, the reply and out, and of the state all but the
 * stage of the one channel that it spoils and the total of bytes to come. What any call leaves is a state that the next takes.
 *
 * Every buffer ends where memory that can't be touched begins, and what stands before it is compared too.
 */
#define _DEFAULT_SOURCE
#include <stdio.h>
#include <stdlib.h>
#include <string.h>
#include <sys/mman.h>
#include <unistd.h>

#include "immuskade.h"

enum { PARTS = 16, ROW = 12, HEAD = 192, CHANNELS = 196, AWAITED = 200, CLIENT = 'C', SHORE = 'S', LENGTHS = 261 };

static unsigned long calls, refused, taken, wrong, met[2][19];

/* ---- buffers */

/* Memory of `room` bytes that ends before what can't be touched, and a copy of what it has before a call. */
struct area {
    size_t room;
    uint8_t *from, *before;
};

static struct area state = {.room = 512}, store = {.room = DVC_STORE + 4096}, reply = {.room = 64}, out = {.room = 2048},
                   bytes = {.room = 4096}, list = {.room = 1024};

static void make_area(struct area *a)
{
    size_t page = (size_t)sysconf(_SC_PAGESIZE), size = (a->room + page - 1) / page * page;
    uint8_t *map = mmap(NULL, size + page, PROT_READ | PROT_WRITE, MAP_PRIVATE | MAP_ANONYMOUS, -1, 0);
    a->before = malloc(a->room);
    if (map == MAP_FAILED || a->before == NULL || mprotect(map + size, page, PROT_NONE) != 0) {
        perror("test_face");
        exit(2);
    }
    a->from = map + size - a->room;
    for (size_t i = 0; i < a->room; i++)
        a->from[i] = a->before[i] = (uint8_t)(i * 2654435761u >> 11);
}

/* The buffer of so many bytes: the last ones of its area. */
static uint8_t *buffer(const struct area *a, size_t len)
{
    return a->from + a->room - len;
}

/* Lays bytes into a buffer of their length, as what it has before the call. */
static const uint8_t *lay(struct area *a, const uint8_t *from, size_t len)
{
    if (len > 0) {
        memcpy(buffer(a, len), from, len);
        memcpy(a->before + a->room - len, from, len);
    }
    return buffer(a, len);
}

static void restore(struct area *a)
{
    memcpy(a->from, a->before, a->room);
}

/* Whether bytes are the same: 64 at a time, and not under the sanitizers, which would watch every one of a whole store. */
__attribute__((no_sanitize("address", "undefined"))) static int same(const uint8_t *a, const uint8_t *b, size_t len)
{
    typedef uint64_t lane __attribute__((vector_size(16), aligned(1), may_alias));
    lane differing = {0, 0};
    uint64_t rest = 0;
    for (; len >= 4 * sizeof(lane); a += 4 * sizeof(lane), b += 4 * sizeof(lane), len -= 4 * sizeof(lane)) {
        const lane *x = (const lane *)a, *y = (const lane *)b;
        differing |= ((x[0] ^ y[0]) | (x[1] ^ y[1])) | ((x[2] ^ y[2]) | (x[3] ^ y[3]));
    }
    for (; len > 0; a++, b++, len--)
        rest |= (uint64_t)(*a ^ *b);
    return (rest | differing[0] | differing[1]) == 0;
}

static int untouched(const struct area *a)
{
    return same(a->from, a->before, a->room);
}

/* Whether at most the first `sent` bytes of the buffer were written. */
static int written(const struct area *a, size_t len, size_t sent)
{
    size_t front = a->room - len;
    return sent <= len && same(a->from, a->before, front) && same(a->from + front + sent, a->before + front + sent, len - sent);
}

/* Whether at most one part of the store was written. */
static int one_part(size_t len)
{
    size_t front = store.room - len;
    int parts = !same(store.from, store.before, front) ? 2 : 0;
    for (size_t at = front; at < store.room; at += DVC_PART)
        parts += !same(store.from + at, store.before + at, DVC_PART);
    return parts <= 1;
}

/* ---- a state, judged plainly */

/* Four bytes, the lowest first: as the one processor has them that the archive is for. */
static uint32_t word(const uint8_t *s, size_t at)
{
    uint32_t value;
    memcpy(&value, s + at, sizeof value);
    return value;
}

static void put_word(uint8_t *s, size_t at, uint32_t value)
{
    for (size_t i = 0; i < 4; i++)
        s[at + i] = (uint8_t)(value >> 8 * i);
}

/* A record's first word: bit 0 taken, bits 1 and 2 the class, bits 3 to 30 the stage, bit 31 awaited. */
static int is_taken(uint32_t rest)
{
    return rest & 1;
}

static int is_awaited(uint32_t rest)
{
    return rest >> 31;
}

/* The stage: 0 idle, 1 spoiled, else 4,096 times the bytes wanted and the bytes held. */
static uint32_t stage(uint32_t rest)
{
    return rest >> 3 & 0xFFFFFFF;
}

static int good_stage(uint32_t code)
{
    uint32_t wanted = code >> 12, held = code & 4095;
    return code < 2 || (code >= 4096 && held < wanted && wanted <= DVC_MESSAGE_MAX);
}

/* The bytes still to come of an open channel. */
static uint32_t to_come(uint32_t rest)
{
    uint32_t code = stage(rest);
    return is_taken(rest) && !is_awaited(rest) && code >= 4096 ? (code >> 12) - (code & 4095) : 0;
}

static int good_head(uint32_t head, uint32_t mark)
{
    return head >> 24 == mark && (head & 255) <= 2 && (mark == SHORE || (head >> 8 & 0xFFFF) == 0);
}

/* Whether the bytes are a state of the end with this mark, with a sound table. */
static int is_state(const uint8_t *s, size_t len, uint32_t mark)
{
    uint32_t open = 0, awaited = 0;
    if (len != DVC_STATE || !good_head(word(s, HEAD), mark))
        return 0;
    for (size_t k = 0; k < PARTS; k++) {
        uint32_t rest = word(s, ROW * k);
        if (!good_stage(stage(rest)) || (is_awaited(rest) && mark == CLIENT) || (is_taken(rest) && s[HEAD] == 0))
            return 0;
        for (size_t j = 0; j < k && is_taken(rest); j++)
            if (is_taken(word(s, ROW * j)) && word(s, ROW * j + 4) == word(s, ROW * k + 4))
                return 0;
        open += is_taken(rest) && !is_awaited(rest);
        awaited += to_come(rest);
    }
    return open == word(s, CHANNELS) && awaited == word(s, AWAITED);
}

/* Whether the last twelve bytes are those of a state of either end. */
static int is_headed(const uint8_t *s, size_t len)
{
    return len == DVC_STATE && (good_head(word(s, HEAD), CLIENT) || good_head(word(s, HEAD), SHORE)) && word(s, CHANNELS) <= PARTS &&
           word(s, AWAITED) <= DVC_STORE;
}

/* ---- calls */

enum entry { RECEIVE, LOCAL_CLOSE, SHORE_RECEIVE, SHORE_CLOSE, REQUEST, OPEN, TOTALS, COUNT };

/* A call: the PDU or the name; the channel's number, the version or the class; the list. */
struct call {
    enum entry entry;
    const char *bytes;
    size_t len;
    uint32_t number;
    const char *list;
    size_t list_len;
};

struct sizes {
    size_t store, reply, out;
};

static const struct sizes right = {DVC_STORE, DVC_REPLY_MIN, DVC_PDU_MAX};

#define BYTES(text) text, sizeof text - 1
#define PUMP BYTES("PUMP\0")
#define HEARD(text) {RECEIVE, BYTES(text), 0, PUMP}
#define SHORE_HEARD(text) {SHORE_RECEIVE, BYTES(text), 0, "", 0}
#define ASKS(entry, number) {entry, "", 0, number, "", 0}

static uint64_t make(const struct call *c, size_t state_len, const struct sizes *z)
{
    uint8_t *s = buffer(&state, state_len), *t = buffer(&store, z->store), *r = buffer(&reply, z->reply), *o = buffer(&out, z->out);
    const uint8_t *b = lay(&bytes, (const uint8_t *)c->bytes, c->len), *l = lay(&list, (const uint8_t *)c->list, c->list_len);
    uint16_t version = (uint16_t)c->number, charge = version > 1 ? 258 : 0;
    calls++;
    switch (c->entry) {
    case RECEIVE:
        return dvc_receive(s, state_len, t, z->store, l, c->list_len, b, c->len, r, z->reply);
    case LOCAL_CLOSE:
        return dvc_local_close(s, state_len, t, z->store, c->number, r, z->reply);
    case SHORE_RECEIVE:
        return dvc_shore_receive(s, state_len, t, z->store, b, c->len, r, z->reply);
    case SHORE_CLOSE:
        return dvc_shore_local_close(s, state_len, t, z->store, c->number, r, z->reply);
    case REQUEST:
        return dvc_shore_request(s, state_len, version, charge, charge, charge, charge, o, z->out);
    case OPEN:
        return dvc_shore_open(s, state_len, b, c->len, (uint8_t)c->number, o, z->out);
    case TOTALS:
        return dvc_totals(s, state_len);
    default:
        return dvc_count(s, state_len, c->number);
    }
}

static int lent_store(enum entry entry)
{
    return entry <= SHORE_CLOSE;
}

static int lent_out(enum entry entry)
{
    return entry == REQUEST || entry == OPEN;
}

static int of_shore(enum entry entry)
{
    return entry >= SHORE_RECEIVE && entry <= OPEN;
}

/* What bytes are. */
struct judged {
    int client, shore, headed;
};

static struct judged judge(const uint8_t *s, size_t len)
{
    return (struct judged){is_state(s, len, CLIENT), is_state(s, len, SHORE), is_headed(s, len)};
}

/* Whether the call must be taken: anything but refusal 1. */
static int lawful(const struct call *c, struct judged j, const struct sizes *z)
{
    if (c->entry == TOTALS)
        return j.headed;
    if (c->entry == COUNT)
        return j.client || j.shore;
    if (lent_store(c->entry) && (z->store != DVC_STORE || z->reply < DVC_REPLY_MIN))
        return 0;
    if (lent_out(c->entry) && z->out < DVC_PDU_MAX)
        return 0;
    return of_shore(c->entry) ? j.shore : j.client;
}

/* ---- what a call leaves */

static void expect(int holds, const char *what, const struct call *c, size_t len, uint64_t answer)
{
    if (!holds && wrong++ < 20)
        fprintf(stderr, "test_face: %s: call %d with %zu bytes and number %lu, state of %zu, answer %016llx\n", what, (int)c->entry, c->len,
                (unsigned long)c->number, len, (unsigned long long)answer);
}

/* The number that a block of data carries whole, compressed or not: the one that a garbled block spoils. */
static int carries(const struct call *c, uint32_t *number)
{
    const uint8_t *pdu = (const uint8_t *)c->bytes;
    unsigned cmd = c->len ? pdu[0] >> 4 : 0, code = c->len ? pdu[0] & 3 : 3;
    size_t width = (size_t)1 << code;
    if ((cmd != 2 && cmd != 3 && cmd != 6 && cmd != 7) || code == 3 || c->len < 1 + width)
        return 0;
    *number = 0;
    for (size_t i = width; i-- > 0;)
        *number = *number << 8 | pdu[1 + i];
    return 1;
}

static int may_spoil(uint32_t refusal)
{
    return (refusal >= 2 && refusal <= 5) || (refusal >= 10 && refusal <= 12);
}

/* What a refusal may leave: the state with the stage of the open channel of that number spoiled, and what it awaited taken off. */
static int spoiled_only(const struct call *c, uint32_t refusal)
{
    uint8_t expected[DVC_STATE];
    const uint8_t *before = state.before + state.room - DVC_STATE;
    uint32_t number;
    memcpy(expected, before, DVC_STATE);
    if (!lent_store(c->entry) || !may_spoil(refusal) || !carries(c, &number))
        return 0;
    for (size_t k = 0; k < PARTS; k++) {
        uint32_t rest = word(before, ROW * k);
        if (is_taken(rest) && !is_awaited(rest) && word(before, ROW * k + 4) == number) {
            put_word(expected, ROW * k, (rest & 7) | 1 << 3);
            put_word(expected, AWAITED, word(before, AWAITED) - to_come(rest));
        }
    }
    return memcmp(expected, buffer(&state, DVC_STATE), DVC_STATE) == 0 && written(&state, DVC_STATE, DVC_STATE);
}

/* The bits of an answer that hang together: no place but a message's, nothing sent by a refusal, no channel where there is none. */
static int well_formed(const struct call *c, uint64_t answer)
{
    unsigned w = dvc_word(answer), raw = (unsigned)(answer >> 60), place = (unsigned)(answer >> 45) & 15;
    int known = w <= DVC_COUNTED || w >= DVC_REFUSED;
    int client_only = !of_shore(c->entry) && (w == DVC_ASKED || w == DVC_AWAITED);
    int counts = (w == DVC_COUNTED) == (c->entry >= TOTALS && w != DVC_REFUSED);
    int refuses = w != DVC_REFUSED || (dvc_sent(answer) == 0 && dvc_number(answer) >= 1 && dvc_number(answer) <= 16);
    int has_channel = dvc_has_channel(answer) == (raw >= 8) && (raw >= 8 || w == DVC_COUNTED || dvc_channel(answer) == 0);
    return w != 0 && known && !client_only && counts && refuses && has_channel && (w == DVC_MESSAGE || place == 0);
}

/* What dvc_totals and dvc_count must say of a state that they take. */
static int told(const struct call *c, const uint8_t *s, uint64_t answer)
{
    if (c->entry == TOTALS)
        return dvc_open_channels(answer) == word(s, CHANNELS) && dvc_awaited_bytes(answer) == word(s, AWAITED);
    for (size_t k = 0; k < PARTS; k++) {
        uint32_t rest = word(s, ROW * k);
        if (is_taken(rest) && !is_awaited(rest) && word(s, ROW * k + 4) == c->number)
            return !dvc_is_refused(answer) && dvc_messages(answer) == word(s, ROW * k + 8);
    }
    return dvc_is_refused(answer) && dvc_number(answer) == DVC_NOT_OPEN && dvc_channel(answer) == c->number;
}

static int is_bad_call(uint64_t answer)
{
    return dvc_is_refused(answer) && dvc_number(answer) == DVC_BAD_CALL;
}

static void after_refusal(const struct call *c, size_t len, uint64_t answer)
{
    expect(!lent_store(c->entry) || untouched(&store), "a refusal wrote to the store", c, len, answer);
    expect(!lent_store(c->entry) || untouched(&reply), "a refusal wrote to the reply", c, len, answer);
    expect(!lent_out(c->entry) || untouched(&out), "a refusal wrote to out", c, len, answer);
    expect(untouched(&state) || (!is_bad_call(answer) && spoiled_only(c, dvc_number(answer))), "a refusal wrote to the state", c, len, answer);
}

static void after_work(const struct call *c, size_t len, const struct sizes *z, uint64_t answer)
{
    expect(c->entry < TOTALS || untouched(&state), "a state that is only read was written", c, len, answer);
    if (lent_store(c->entry)) {
        expect(one_part(z->store), "more than one part of the store was written", c, len, answer);
        expect(written(&reply, z->reply, dvc_sent(answer)), "more than what is sent was written", c, len, answer);
    }
    if (lent_out(c->entry))
        expect(written(&out, z->out, dvc_sent(answer)), "more than what is sent was written", c, len, answer);
}

/* The same call on what the first one left: it is taken, and leaves a state. Then the buffers are as before the first. */
static void try_again(const struct call *c, size_t len, const struct sizes *z, uint64_t first)
{
    uint64_t again = make(c, len, z);
    expect(!is_bad_call(again), "what a call left is refused", c, len, again);
    if (c->entry >= TOTALS)
        return;
    expect(is_state(buffer(&state, len), len, of_shore(c->entry) ? SHORE : CLIENT), "what a call left is no state", c, len, again);
    if (lent_store(c->entry) && !(dvc_is_refused(first) && dvc_is_refused(again)))
        restore(&store);
    restore(&reply);
    restore(&out);
}

/* One call on these bytes, and the same again on what it leaves. Answers what the first one did. */
static uint64_t try_call(const struct call *c, const uint8_t *from, size_t len, struct judged j, const struct sizes *z)
{
    lay(&state, from, len);
    uint64_t answer = make(c, len, z);
    int bad = is_bad_call(answer);
    expect(bad == !lawful(c, j, z), "refusal 1 at the wrong time", c, len, answer);
    expect(well_formed(c, answer), "an answer that can't be", c, len, answer);
    if (dvc_is_refused(answer)) {
        met[of_shore(c->entry)][dvc_number(answer)]++;
        after_refusal(c, len, answer);
    } else {
        after_work(c, len, z, answer);
    }
    if (bad) {
        refused++;
        return answer;
    }
    taken++;
    expect(c->entry < TOTALS || told(c, from, answer), "another total or count", c, len, answer);
    try_again(c, len, z, answer);
    return answer;
}

/* ---- the calls that each state meets */

/* Channels 5 and 256 are open at the panel, 1 and up at the shore. */
static const struct call few[] = {
    HEARD("\x30\x05" "abc"), HEARD("\x10\x07PUMP\0"), HEARD("\x40\x05"), ASKS(LOCAL_CLOSE, 256),
    SHORE_HEARD("\x30\x01" "abc"), SHORE_HEARD("\x10\x03\0\0\0\0"), ASKS(SHORE_CLOSE, 1), ASKS(REQUEST, 2),
    {OPEN, BYTES("PUMP"), 1, "", 0}, ASKS(TOTALS, 0), ASKS(COUNT, 5),
};

/* One of each end, for states that need no more. */
static const struct call one_each[] = {HEARD("\x30\x05" "abc"), SHORE_HEARD("\x30\x01" "abc"), ASKS(COUNT, 5)};

static char longest[1601], long_name[1598];

static const struct call many[] = {
    HEARD("\x50\0\x02\0\0\0\0\0\0\0\0\0"), HEARD("\x50\0\x01\0"), HEARD("\x10\x05PUMP\0"), HEARD("\x10\x09" "FAN\0"),
    HEARD("\x10\x09PUMP\0"), HEARD("\x10\x09PUMP"), HEARD(""), HEARD("\x80\x05"), HEARD("\x33\x05"), HEARD("\x20\x05"),
    HEARD("\x20\x05\x03" "ab"), HEARD("\x20\x05\x03" "abc"), HEARD("\x20\x05\x01" "abc"), HEARD("\x24\x05\x00\x10" "ab"),
    HEARD("\x24\x05\x01\x10" "ab"), HEARD("\x30\x05"), HEARD("\x30\x06" "ab"), HEARD("\x30\x07" "ab"), HEARD("\x30\x08" "ab"),
    HEARD("\x31\x00\x01" "0123456789"), HEARD("\x32\x00\x00\x01\x00" "0123456789"), HEARD("\x60\x06" "ab"),
    HEARD("\x71\x00\x01" "ab"), HEARD("\x40\x09"), HEARD("\x41\x00\x01"), HEARD("\x42\x00\x00\x01\x00"),
    {RECEIVE, longest, sizeof longest, 0, PUMP}, {RECEIVE, BYTES("\x10\x09PUMP\0"), 0, BYTES("PUMP")},
    {RECEIVE, BYTES("\x10\x09PUMP\0"), 0, BYTES("\0")}, {RECEIVE, BYTES("\x10\x09PUMP\0"), 0, longest, DVC_LIST_MAX + 1},
    {RECEIVE, BYTES("\x10\x09PUMP\0"), 0, "", 0}, ASKS(LOCAL_CLOSE, 5), ASKS(LOCAL_CLOSE, 6), ASKS(LOCAL_CLOSE, 7),
    ASKS(LOCAL_CLOSE, 65536), ASKS(LOCAL_CLOSE, 9), SHORE_HEARD("\x50\0\x02\0"), SHORE_HEARD("\x50\0\x09\0"), SHORE_HEARD(""),
    SHORE_HEARD("\x80\x01"), SHORE_HEARD("\x10\x01\0\0\0\0"), SHORE_HEARD("\x10\x04\0\0\0\0"),
    SHORE_HEARD("\x10\x04\xff\xff\xff\xff"), SHORE_HEARD("\x10\x99\0\0\0\0"), SHORE_HEARD("\x20\x01\x03" "ab"),
    SHORE_HEARD("\x20\x02\x03" "ab"), SHORE_HEARD("\x24\x01\x01\x10" "ab"), SHORE_HEARD("\x30\x01"),
    SHORE_HEARD("\x30\x02" "0123456789"), SHORE_HEARD("\x30\x03" "ab"), SHORE_HEARD("\x30\x04" "ab"),
    SHORE_HEARD("\x60\x02" "ab"), SHORE_HEARD("\x40\x01"), SHORE_HEARD("\x40\x02"), SHORE_HEARD("\x40\x04"),
    {SHORE_RECEIVE, longest, sizeof longest, 0, "", 0}, ASKS(SHORE_CLOSE, 2), ASKS(SHORE_CLOSE, 3), ASKS(SHORE_CLOSE, 4),
    ASKS(REQUEST, 0), ASKS(REQUEST, 1), ASKS(REQUEST, 3), {OPEN, BYTES("PUMP"), 0, "", 0}, {OPEN, BYTES("PUMP"), 255, "", 0},
    {OPEN, BYTES("PU\0MP"), 0, "", 0}, {OPEN, "", 0, 0, "", 0}, {OPEN, long_name, sizeof long_name, 0, "", 0},
    {OPEN, long_name, sizeof long_name - 1, 0, "", 0}, ASKS(TOTALS, 0), ASKS(COUNT, 1), ASKS(COUNT, 2), ASKS(COUNT, 3),
    ASKS(COUNT, 5), ASKS(COUNT, 6), ASKS(COUNT, 256), ASKS(COUNT, 4294967295u),
};

static void meet(const struct call *c, size_t n, const uint8_t *from, size_t len)
{
    struct judged j = judge(from, len);
    for (size_t i = 0; i < n; i++)
        try_call(&c[i], from, len, j, &right);
}

#define MEET(calls, from, len) meet(calls, sizeof calls / sizeof *calls, from, len)

/* ---- busy states, each made by calls */

struct made {
    uint8_t bytes[DVC_STATE];
};

static uint8_t work_store[DVC_STORE];

static void give(uint8_t *s, const char *pdu, size_t len)
{
    uint8_t r[DVC_REPLY_MIN];
    dvc_receive(s, DVC_STATE, work_store, DVC_STORE, (const uint8_t *)"PUMP", 5, (const uint8_t *)pdu, len, r, sizeof r);
}

static void give_shore(uint8_t *s, const char *pdu, size_t len)
{
    uint8_t r[DVC_REPLY_MIN];
    dvc_shore_receive(s, DVC_STATE, work_store, DVC_STORE, (const uint8_t *)pdu, len, r, sizeof r);
}

/* Client: 5 joining, with a count; 6 spoiled; 7 idle; 256 joining; 65,536 idle, with a count. */
static void busy_panel(uint8_t *s)
{
    give(s, BYTES("\x50\0\x02\0\0\0\0\0\0\0\0\0"));
    give(s, BYTES("\x14\x05PUMP\0"));
    give(s, BYTES("\x18\x06PUMP\0"));
    give(s, BYTES("\x10\x07PUMP\0"));
    give(s, BYTES("\x1d\x00\x01PUMP\0"));
    give(s, BYTES("\x12\x00\x00\x01\x00PUMP\0"));
    for (int i = 0; i < 300; i++)
        give(s, BYTES("\x30\x05" "abc"));
    give(s, BYTES("\x32\x00\x00\x01\x00" "abc"));
    give(s, BYTES("\x24\x05\x00\x10" "ab"));
    give(s, BYTES("\x20\x06\x05" "abcdef"));
    give(s, BYTES("\x25\x00\x01\xe8\x03" "a"));
}

/* Client: all sixteen open, some joining. */
static void full_panel(uint8_t *s)
{
    give(s, BYTES("\x50\0\x01\0"));
    for (int n = 0; n < PARTS; n++) {
        char create[] = "\x10_PUMP", first[] = "\x20_\x09" "ab";
        create[1] = first[1] = (char)n;
        give(s, create, sizeof create);
        if (n % 3 == 0)
            give(s, first, sizeof first - 1);
    }
}

static void ask_shore(uint8_t *s, uint16_t version)
{
    uint8_t o[DVC_PDU_MAX];
    dvc_shore_request(s, DVC_STATE, version, 0, 0, 0, 0, o, sizeof o);
}

static void open_shore(uint8_t *s, int channels)
{
    uint8_t o[DVC_PDU_MAX];
    for (int i = 0; i < channels; i++)
        dvc_shore_open(s, DVC_STATE, (const uint8_t *)"PUMP", 4, 2, o, sizeof o);
}

/* Shore: 1 idle, with a count; 2 joining; 3 spoiled; 4 and 5 awaited. */
static void busy_shore(uint8_t *s)
{
    ask_shore(s, 3);
    give_shore(s, BYTES("\x50\0\x02\0"));
    open_shore(s, 5);
    give_shore(s, BYTES("\x10\x01\0\0\0\0"));
    give_shore(s, BYTES("\x10\x02\0\0\0\0"));
    give_shore(s, BYTES("\x10\x03\0\0\0\0"));
    give_shore(s, BYTES("\x30\x01" "abc"));
    give_shore(s, BYTES("\x24\x02\xe8\x03" "abc"));
    give_shore(s, BYTES("\x20\x03\x01" "abc"));
}

/* Shore: all sixteen numbers open or awaited. */
static void full_shore(uint8_t *s)
{
    ask_shore(s, 1);
    give_shore(s, BYTES("\x50\0\x01\0"));
    open_shore(s, PARTS);
    give_shore(s, BYTES("\x10\x01\0\0\0\0"));
    give_shore(s, BYTES("\x10\x10\0\0\0\0"));
    give_shore(s, BYTES("\x20\x10\x05" "abc"));
}

/* Shore: asked, and not ready. */
static void asked_shore(uint8_t *s)
{
    ask_shore(s, 3);
}

static void nothing(uint8_t *s)
{
    (void)s;
}

enum { BUSY_PANEL, BUSY_SHORE, FULL_PANEL, FULL_SHORE, ASKED_SHORE, NEW_PANEL, NEW_SHORE, KINDS };

static struct made kinds[KINDS];

static void make_kinds(void)
{
    static const struct {
        int shore;
        void (*make)(uint8_t *);
    } makers[KINDS] = {
        [BUSY_PANEL] = {0, busy_panel},   [BUSY_SHORE] = {1, busy_shore}, [FULL_PANEL] = {0, full_panel}, [FULL_SHORE] = {1, full_shore},
        [ASKED_SHORE] = {1, asked_shore}, [NEW_PANEL] = {0, nothing},     [NEW_SHORE] = {1, nothing},
    };
    for (size_t i = 0; i < KINDS; i++) {
        uint8_t *s = kinds[i].bytes;
        uint32_t begun = (makers[i].shore ? dvc_shore_start : dvc_start)(s, DVC_STATE, work_store, DVC_STORE);
        makers[i].make(s);
        if (begun != 0 || !is_state(s, DVC_STATE, makers[i].shore ? SHORE : CLIENT)) {
            fprintf(stderr, "test_face: state %zu was not made\n", i);
            wrong++;
        }
    }
}

/* ---- the tests */

static void every_value(void)
{
    uint8_t s[DVC_STATE];
    for (size_t i = BUSY_PANEL; i <= FULL_SHORE; i++)
        for (size_t at = 0; at < DVC_STATE; at++)
            for (unsigned value = 0; value < 256; value++) {
                memcpy(s, kinds[i].bytes, DVC_STATE);
                s[at] = (uint8_t)value;
                if (i <= BUSY_SHORE)
                    MEET(few, s, DVC_STATE);
                else
                    MEET(one_each, s, DVC_STATE);
            }
}

static void every_length(void)
{
    static uint8_t s[LENGTHS], zeros[LENGTHS];
    for (size_t i = 0; i < KINDS; i++) {
        memcpy(s, kinds[i].bytes, DVC_STATE);
        for (size_t len = 0; len < LENGTHS; len++)
            MEET(many, s, len);
    }
    for (size_t len = 0; len < LENGTHS; len++)
        MEET(many, zeros, len);
}

static uint32_t seed = 1;

static uint32_t next_random(void)
{
    seed ^= seed << 13;
    seed ^= seed >> 17;
    seed ^= seed << 5;
    return seed;
}

static void random_bytes(uint8_t *s)
{
    for (size_t i = 0; i < DVC_STATE; i++)
        s[i] = (uint8_t)(next_random() >> 9);
}

/* The word of a record that may stand in a sound table. */
static uint32_t random_rest(int shore)
{
    uint32_t r = next_random(), class = r >> 4 & 3, kind = r >> 8 & 7;
    if (kind < 2)
        return 0;
    if (shore && kind == 2)
        return 1 | class << 1 | 1u << 31;
    if (kind == 3)
        return 1 | class << 1 | 1 << 3;
    if (kind > 4)
        return 1 | class << 1;
    uint32_t wanted = 1 + next_random() % DVC_MESSAGE_MAX;
    return 1 | class << 1 | (wanted << 12 | next_random() % wanted) << 3;
}

/* A sound table, of numbers that are near each other, or the same mark apart. */
static void random_table(uint8_t *s, int shore)
{
    uint32_t open = 0, awaited = 0, step = next_random() & 1 ? 1 : 64;
    memset(s, 0, DVC_STATE);
    for (size_t k = 0; k < PARTS; k++) {
        uint32_t rest = random_rest(shore);
        put_word(s, ROW * k, rest);
        put_word(s, ROW * k + 4, 1 + step * (uint32_t)k);
        put_word(s, ROW * k + 8, rest ? next_random() % 3 - 1 : 0);
        open += is_taken(rest) && !is_awaited(rest);
        awaited += to_come(rest);
    }
    put_word(s, HEAD, (uint32_t)(shore ? SHORE : CLIENT) << 24 | (shore ? 2u << 8 : 0) | (1 + (next_random() & 1)));
    put_word(s, CHANNELS, open);
    put_word(s, AWAITED, awaited);
}

/* One thing made wrong, or at least other: a number twice, a bit of a record, a total, the level, the mark. */
static void disturb(uint8_t *s)
{
    uint32_t r = next_random();
    size_t k = r % PARTS;
    switch (r >> 8 & 7) {
    case 0:
        put_word(s, ROW * k + 4, word(s, ROW * ((k + 5) % PARTS) + 4));
        break;
    case 1:
    case 2:
        put_word(s, ROW * k, word(s, ROW * k) ^ 1u << (r >> 12 & 31));
        break;
    case 3:
        put_word(s, CHANNELS, word(s, CHANNELS) + 1);
        break;
    case 4:
        put_word(s, AWAITED, word(s, AWAITED) ^ 1u << (r >> 12 & 31));
        break;
    case 5:
        s[HEAD] = (uint8_t)(r >> 12 & 3);
        break;
    case 6:
        s[HEAD + 1 + (r >> 12) % 3] = (uint8_t)(r >> 16);
        break;
    default:
        break;
    }
}

static void random_states(void)
{
    uint8_t s[DVC_STATE];
    for (int i = 0; i < 2000; i++) {
        random_bytes(s);
        MEET(few, s, DVC_STATE);
        memcpy(s + HEAD, kinds[i % KINDS].bytes + HEAD, DVC_STATE - HEAD);
        MEET(few, s, DVC_STATE);
        random_table(s, i & 1);
        MEET(many, s, DVC_STATE);
        disturb(s);
        MEET(few, s, DVC_STATE);
    }
}

/* Buffers that are not of their size, and some that are longer and may be. */
static void every_size(void)
{
    static const size_t stores[] = {0, 1, DVC_PART, DVC_STORE - 1, DVC_STORE, DVC_STORE + 1, DVC_STORE + 4096};
    static const size_t outs[] = {0, 1, 9, 1599, 1600, 1601, 2048};
    for (size_t i = 0; i < KINDS; i++)
        for (size_t c = 0; c < sizeof many / sizeof *many; c++) {
            struct sizes z = right;
            struct judged j = judge(kinds[i].bytes, DVC_STATE);
            for (z.reply = 0; z.reply < 20; z.reply++)
                try_call(&many[c], kinds[i].bytes, DVC_STATE, j, &z);
            z = right;
            for (size_t k = 0; k < sizeof stores / sizeof *stores; k++) {
                z.store = stores[k];
                try_call(&many[c], kinds[i].bytes, DVC_STATE, j, &z);
            }
            z = right;
            for (size_t k = 0; k < sizeof outs / sizeof *outs; k++) {
                z.out = outs[k];
                try_call(&many[c], kinds[i].bytes, DVC_STATE, j, &z);
            }
        }
}

/* A Start makes a state of any bytes of its size and zeroes the store; with another size of either it writes nothing. */
static void start(int shore, size_t state_len, size_t store_len, const uint8_t *from)
{
    const struct call none = ASKS(COUNT, 0);
    lay(&state, from, state_len < DVC_STATE ? state_len : DVC_STATE);
    uint8_t *s = buffer(&state, state_len), *t = buffer(&store, store_len);
    memcpy(state.before, state.from, state.room);
    uint32_t answer = (shore ? dvc_shore_start : dvc_start)(s, state_len, t, store_len);
    calls++;
    if (state_len != DVC_STATE || store_len != DVC_STORE) {
        expect(answer == 1 && untouched(&state) && untouched(&store), "a Start of a wrong size", &none, state_len, answer);
        refused++;
        return;
    }
    uint8_t empty[DVC_STATE] = {0};
    static const uint8_t zeros[DVC_STORE];
    empty[HEAD + 3] = shore ? SHORE : CLIENT;
    expect(answer == 0 && memcmp(s, empty, DVC_STATE) == 0 && same(t, zeros, DVC_STORE), "a Start left something", &none, state_len, answer);
    expect(written(&state, DVC_STATE, DVC_STATE) && written(&store, DVC_STORE, DVC_STORE), "a Start wrote too much", &none, state_len, answer);
    taken++;
    restore(&store);
}

static void every_start(void)
{
    static const size_t stores[] = {0, 1, DVC_PART, DVC_STORE - 1, DVC_STORE, DVC_STORE + 1};
    uint8_t s[DVC_STATE];
    for (int shore = 0; shore < 2; shore++) {
        for (size_t len = 0; len < LENGTHS; len++)
            for (size_t k = 0; k < sizeof stores / sizeof *stores; k++)
                start(shore, len, stores[k], kinds[len % KINDS].bytes);
        for (int i = 0; i < 100; i++) {
            random_bytes(s);
            start(shore, DVC_STATE, DVC_STORE, s);
        }
    }
}

/* A count stays at its most. */
static void last_count(void)
{
    const struct call data = HEARD("\x30\x07" "abc"), count = ASKS(COUNT, 7);
    uint8_t s[DVC_STATE];
    memcpy(s, kinds[BUSY_PANEL].bytes, DVC_STATE);
    put_word(s, ROW * 2 + 8, 4294967295u);
    expect(dvc_word(try_call(&data, s, DVC_STATE, judge(s, DVC_STATE), &right)) == DVC_MESSAGE, "no message", &data, DVC_STATE, 0);
    memcpy(s, buffer(&state, DVC_STATE), DVC_STATE);
    uint64_t answer = try_call(&count, s, DVC_STATE, judge(s, DVC_STATE), &right);
    expect(dvc_messages(answer) == 4294967295u, "the last count moved", &count, DVC_STATE, answer);
}

static void all_met(void)
{
    static const int client[] = {1, 2, 3, 4, 5, 6, 7, 8, 9, 10, 11, 12, 13}, shore[] = {1, 2, 3, 4, 5, 7, 8, 10, 11, 12, 13, 15, 16};
    for (size_t i = 0; i < 13; i++)
        if (met[0][client[i]] == 0 || met[1][shore[i]] == 0) {
            fprintf(stderr, "test_face: refusal %d or %d was never met\n", client[i], shore[i]);
            wrong++;
        }
}

int main(void)
{
    struct area *const areas[] = {&state, &store, &reply, &out, &bytes, &list};
    for (size_t i = 0; i < sizeof areas / sizeof *areas; i++)
        make_area(areas[i]);
    memset(longest, '0', sizeof longest);
    memset(long_name, 'P', sizeof long_name);
    make_kinds();
    every_value();
    every_length();
    random_states();
    every_size();
    every_start();
    last_count();
    all_met();
    printf("test_face: %lu calls, %lu states refused, %lu taken, %lu wrong\n", calls, refused, taken, wrong);
    return wrong != 0;
}
