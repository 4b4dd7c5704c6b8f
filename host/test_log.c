/*
 * The link log's calls on a flash in memory that loses power.
 *
 *   - PDUs and closes of all sizes are appended. At each append power is lost before the first block is put, between any two and
 *     after the last; the log is taken up again, and power is lost once more at every point of that. Then the flash has, byte for
 *     byte, what it had before the append, or all of it where every block was put; more is appended, and what reads back is what
 *     was appended before the loss and then what was appended after it;
 *   - between two appends the host stops, and takes the log up from its last block;
 *   - a log with damage is taken back to the end of its last record, and reads as before;
 *   - blocks of logs with damage are read with numbers that no call gave, many of them near to one that a call gave;
 *   - appends about the end of 65,536 blocks: a record that doesn't fit is 21, and nothing is written;
 *   - bad calls: a short room, a number that is no log's or no reading's, another block than it should be. -1, and nothing is
 *     written. What is near to them and no bad call: a bad block, put blocks that an empty log doesn't have, and the like.
 *
 * Every answer, and every byte that a call leaves, is compared with plain C's (bench/plain_log.c); with -DPLAIN_LOG plain C
 * stands in for the library. Every buffer ends where memory that can't be touched begins.
 */
#define _DEFAULT_SOURCE
#include <stdbool.h>
#include <stdio.h>
#include <stdlib.h>
#include <string.h>
#include <sys/mman.h>
#include <unistd.h>

#include "immuskade.h"
#include "plain_log.h"

enum {
    BLOCK = DVC_LOG_BLOCK,
    ROOM = DVC_LOG_ROOM,
    BLOCKS_MAX = DVC_LOG_BLOCKS_MAX,
    PAYLOAD = 504,
    PDU_MAX = 1601,
    LONGEST = 5000, /* of the PDUs that are appended */
    SMALL = 8,      /* a run ends with so many blocks or a few more */
    FLASH = 32,
    RUNS = 1000,
    ENOUGH = 1000
};

static unsigned long appends, losses, stops, damaged, reads, full, refused, wrong;

static void expect(bool good, const char *what)
{
    if (!good && wrong++ < 20)
        fprintf(stderr, "test_log: %s: not as it should be (append %lu, loss %lu)\n", what, appends, losses);
}

/* ---- buffers, random numbers, checks */

/* Memory of so many bytes that ends before a page that can't be touched. */
static uint8_t *fenced(size_t size)
{
    size_t page = (size_t)sysconf(_SC_PAGESIZE), whole = (size + page - 1) / page * page;
    uint8_t *memory = mmap(NULL, whole + page, PROT_READ | PROT_WRITE, MAP_PRIVATE | MAP_ANONYMOUS, -1, 0);
    if (memory == MAP_FAILED || mprotect(memory + whole, page, PROT_NONE) != 0) {
        perror("test_log");
        exit(2);
    }
    return memory + whole - size;
}

static uint8_t *room, *reading, *the_block, *the_pdu; /* the writer's room, the reader's, one block, one PDU of up to LONGEST */

static uint32_t some(uint32_t below)
{
    static uint64_t state = 1;
    state = state * 6364136223846793005u + 1442695040888963407u;
    return (uint32_t)((state >> 33) % below);
}

static uint64_t some_bits(void)
{
    return (uint64_t)some(1u << 22) << 42 | (uint64_t)some(1u << 21) << 21 | some(1u << 21);
}

/* What is left in memory when power is lost. */
static void scramble(uint8_t *bytes, size_t n)
{
    for (size_t i = 0; i < n; i++)
        bytes[i] = (uint8_t)some(256);
}

static void set(uint8_t *at, uint32_t value)
{
    at[0] = (uint8_t)value;
    at[1] = (uint8_t)(value >> 8);
}

/* Makes a block's check right. */
static void seal(uint8_t *block)
{
    uint32_t sum = 0;
    set(block + 6, 0);
    for (size_t i = 0; i < BLOCK; i += 2) {
        sum += block[i] + 256u * block[i + 1];
        sum = sum < 65536 ? sum : sum - 65535;
    }
    set(block + 6, 65535 - sum);
}

/* ---- records */

struct record {
    bool is_close;
    uint32_t number; /* of a close */
    size_t length;   /* of a PDU, whose bytes are at the end of the_pdu */
};

static const uint8_t *pdu_of(const struct record *r)
{
    return the_pdu + LONGEST - r->length;
}

/* A record that begins at this place of the log's bytes: of any size, many so that it ends about a block's end. */
static struct record some_record(size_t begin)
{
    static const size_t lengths[] = {0, 1, 2, 3, 502, 1006, 1600, 1601, 1602, 1603, LONGEST};
    struct record r = {some(8) == 0, some(65536) * 65536 + some(65536), 0};
    switch (some(4)) {
    case 0:
        r.length = lengths[some(sizeof lengths / sizeof *lengths)];
        break;
    case 1:
        r.length = some(PDU_MAX + 1);
        break;
    case 2:
        r.length = some(60);
        break;
    default:
        r.length = (2 * PAYLOAD - 2 - begin % PAYLOAD + some(5) - 2) % PAYLOAD + PAYLOAD * some(3);
    }
    scramble(the_pdu + LONGEST - r.length, r.length);
    return r;
}

/* ---- the flash, and what it must have */

struct flash {
    uint32_t blocks;
    uint8_t bytes[FLASH][BLOCK];
};

/* The flash, and the bytes of the records that reading it must give: each PDU cut to 1,601 bytes, behind its length. */
static struct moment {
    struct flash flash;
    size_t size;
    uint8_t records[FLASH * PAYLOAD];
} now;

static void want_bytes(const uint8_t *bytes, size_t n)
{
    memcpy(now.records + now.size, bytes, n);
    now.size += n;
}

static void want(const struct record *r)
{
    size_t length = r->length < PDU_MAX ? r->length : PDU_MAX;
    uint32_t n = r->number;
    if (r->is_close) {
        want_bytes((uint8_t[]){255, 255, (uint8_t)n, (uint8_t)(n >> 8), (uint8_t)(n >> 16), (uint8_t)(n >> 24)}, 6);
    } else {
        want_bytes((uint8_t[]){(uint8_t)length, (uint8_t)(length >> 8)}, 2);
        want_bytes(pdu_of(r), length);
    }
}

static unsigned power; /* how often a block can still be put, or the file made shorter, before it is lost */

static bool put(uint32_t number, const uint8_t *block)
{
    if (power == 0)
        return false;
    power--;
    if (number > now.flash.blocks || number >= FLASH) {
        fprintf(stderr, "test_log: block %lu is put to a log of %lu\n", (unsigned long)number, (unsigned long)now.flash.blocks);
        exit(1);
    }
    memcpy(now.flash.bytes[number], block, BLOCK);
    if (number == now.flash.blocks)
        now.flash.blocks++;
    return true;
}

static bool shorten(uint32_t blocks)
{
    if (power == 0)
        return false;
    power--;
    now.flash.blocks = blocks;
    return true;
}

/* ---- the calls, each beside plain C's */

static int64_t append(int64_t log, const struct record *r)
{
    uint8_t twin[ROOM];
    int64_t next, plain;
    memcpy(twin, room, ROOM);
    if (r->is_close) {
        next = dvc_log_close((uint64_t)log, room, ROOM, r->number);
        plain = plain_log_close((uint64_t)log, twin, ROOM, r->number);
    } else {
        next = dvc_log_append((uint64_t)log, room, ROOM, pdu_of(r), r->length);
        plain = plain_log_append((uint64_t)log, twin, ROOM, pdu_of(r), r->length);
    }
    expect(next == plain && memcmp(room, twin, ROOM) == 0, "append");
    appends++;
    return next;
}

/* Puts the blocks that an append has touched, in rising order. */
static void put_all(int64_t log)
{
    uint32_t first = DVC_LOG_BLOCKS(log) - DVC_LOG_PUT(log);
    for (uint32_t k = 0; k < DVC_LOG_PUT(log); k++)
        if (!put(first + k, room + BLOCK * k))
            return;
}

/* After a stop between two appends. */
static int64_t take_up(void)
{
    uint32_t blocks = now.flash.blocks;
    int64_t log;
    scramble(room, ROOM);
    if (blocks > 0)
        memcpy(room, now.flash.bytes[blocks - 1], BLOCK);
    memcpy(the_block, room, BLOCK);
    log = dvc_log_take_up(blocks, the_block, BLOCK);
    expect(log == plain_log_take_up(blocks, room, BLOCK) && log == (blocks > 0 ? 8 * (int64_t)blocks + 1 : 0), "take up");
    return log;
}

/* One block, which is the_block's last `len` bytes. */
static int64_t read_block(uint64_t read, uint32_t number, uint32_t blocks, size_t len)
{
    uint8_t twin[ROOM];
    const uint8_t *block = the_block + BLOCK - len;
    int64_t next, plain;
    memcpy(twin, reading, ROOM);
    next = dvc_log_read(read, number, blocks, block, len, reading, ROOM);
    plain = plain_log_read(read, number, blocks, block, len, twin, ROOM);
    expect(next == plain && memcmp(reading, twin, ROOM) == 0, "read");
    reads++;
    return next;
}

/* The whole log: what reading it came to, and where they are asked for the bytes of the records that it gives. */
static int64_t read_all(uint8_t *given, size_t *size)
{
    int64_t read = 0;
    scramble(reading, ROOM);
    for (uint32_t n = 0; n < now.flash.blocks; n++) {
        memcpy(the_block, now.flash.bytes[n], BLOCK);
        read = read_block((uint64_t)read, n, now.flash.blocks, BLOCK);
        if (given != NULL) {
            memcpy(given + *size, reading, DVC_LOG_WHOLE(read));
            *size += DVC_LOG_WHOLE(read);
        }
    }
    return read;
}

/* After a loss of power. Another may come: then there is no log yet, and it is to be called again. */
static int64_t take_back(void)
{
    uint8_t twin[ROOM];
    int64_t read = read_all(NULL, NULL), log;
    uint32_t blocks = DVC_LOG_END_BLOCKS(read);
    if (blocks < now.flash.blocks && !shorten(blocks))
        return 0;
    scramble(room, ROOM);
    if (blocks > 0)
        memcpy(room, now.flash.bytes[blocks - 1], BLOCK);
    memcpy(twin, room, ROOM);
    log = dvc_log_take_back((uint64_t)read, room, ROOM);
    expect(log == plain_log_take_back((uint64_t)read, twin, ROOM) && memcmp(room, twin, ROOM) == 0, "take back");
    expect(log == (blocks > 0 ? 8 * (int64_t)blocks + 1 : 0), "the log that is taken back");
    if (blocks > 0)
        put(blocks - 1, room);
    return log;
}

static void expect_records(const char *what)
{
    static uint8_t given[FLASH * PAYLOAD];
    size_t size = 0;
    read_all(given, &size);
    expect(size == now.size && memcmp(given, now.records, size) == 0, what);
}

/* ---- losses of power, and stops */

static int64_t append_and_put(int64_t log)
{
    struct record r = some_record(now.size);
    want(&r);
    log = append(log, &r);
    power = ENOUGH;
    put_all(log);
    return log;
}

/* An append: what was there before it, what is there after it, and what it left in the room. */
static struct moment before, after;
static uint8_t filled[ROOM];

/* Power is lost after `whole` blocks of the append `log`, and in taking up after `again` steps. The log taken up again. */
static int64_t lose(int64_t log, unsigned whole, unsigned again)
{
    const struct moment *left = whole < DVC_LOG_PUT(log) ? &before : &after;
    now = *left;
    now.flash = before.flash;
    memcpy(room, filled, ROOM);
    power = whole;
    put_all(log);
    losses++;

    power = again;
    take_back();
    power = ENOUGH;
    log = take_back();
    expect(now.flash.blocks == left->flash.blocks, "the length after a loss of power");
    expect(memcmp(now.flash.bytes, left->flash.bytes, BLOCK * (size_t)left->flash.blocks) == 0, "the flash after a loss of power");
    return log;
}

/* One append, with every loss. Then the run goes on: as if nothing had been, after a stop, or after a loss. */
static int64_t try_append(int64_t log)
{
    before = now;
    log = append_and_put(log);
    after = now;
    memcpy(filled, room, ROOM);
    for (unsigned whole = 0; whole <= DVC_LOG_PUT(log); whole++)
        for (unsigned again = 0; again <= 2; again++) {
            append_and_put(append_and_put(lose(log, whole, again)));
            expect_records("what reads back after a loss of power");
        }
    now = after;
    memcpy(room, filled, ROOM);
    switch (some(3)) {
    case 0:
        return log;
    case 1:
        stops++;
        return take_up();
    default:
        return lose(log, some(DVC_LOG_PUT(log) + 1), some(3));
    }
}

/* A log of a few blocks, and the records that it must have. */
static int64_t write_log(int64_t step(int64_t log))
{
    uint32_t blocks = some(SMALL + 1);
    int64_t log;
    now.flash.blocks = 0;
    now.size = 0;
    for (log = take_up(); now.flash.blocks < blocks;)
        log = step(log);
    expect_records("what reads back");
    return log;
}

/* Changes some blocks; the checks of some are made right again. */
static void hurt(void)
{
    for (unsigned k = some(5); k > 0 && now.flash.blocks > 0; k--) {
        uint8_t *block = now.flash.bytes[some(now.flash.blocks)];
        uint32_t used = some(PAYLOAD + 1), place = block[4] + 256u * block[5];
        switch (some(4)) {
        case 0: /* less is used */
            set(block + 2, used);
            memset(block + 8 + used, 0, PAYLOAD - used);
            break;
        case 1: /* a length that no record has */
            if (place <= PAYLOAD - 2)
                set(block + 8 + place, some(2) ? PDU_MAX + 1 : 65534);
            break;
        default:
            block[some(some(2) ? BLOCK : 8)] ^= (uint8_t)(1 + some(255));
        }
        if (some(2))
            seal(block);
    }
}

/* Taken back, a log with damage gives what it gave before, and then what is appended. */
static void damage(void)
{
    write_log(append_and_put);
    hurt();
    now.size = 0;
    read_all(now.records, &now.size);
    power = ENOUGH;
    int64_t log = take_back();
    expect_records("a log with damage that is taken back");
    append_and_put(append_and_put(log));
    expect_records("what is appended to a log with damage");
    damaged++;
}

/* A number that no call gave, or one that a call gave with some of its parts changed. */
static uint64_t some_reading(uint64_t read)
{
    static const uint64_t parts[] = {0xFFF, 0x7FF << 12, 1 << 23, (uint64_t)0x1FFFF << 24, (uint64_t)0x1FF << 41};
    uint64_t whole = some(some(2) ? 8 : ROOM + 2), behind = some(some(2) ? 4 : PDU_MAX + 4), within = some(4) > 0;
    switch (some(4)) {
    case 0:
        return some_bits() >> some(20);
    case 1: /* as many bytes as the room has, or one more */
        return (ROOM - behind + some(2)) | behind << 12 | within << 23;
    case 2:
        return (read & ~(uint64_t)0xFFFFFF) | whole | behind << 12 | within << 23;
    default:
        for (unsigned k = some(3); k > 0; k--)
            read ^= parts[some(5)] & some_bits();
        return read;
    }
}

/* How many blocks a log may be said to have of which a block of this number is read. */
static uint32_t some_blocks(uint32_t number)
{
    switch (some(8)) {
    case 0:
        return number + 1;
    case 1:
        return some(number + 1);
    case 2:
        return (uint32_t)some_bits();
    default:
        return now.flash.blocks;
    }
}

/* The blocks of a log with damage, read with numbers that no call gave, from a room with any bytes or with records in it. */
static void nonsense(void)
{
    uint64_t read = 0;
    int64_t next;
    write_log(append_and_put);
    hurt();
    scramble(reading, ROOM);
    for (uint32_t n = 0; n < now.flash.blocks; n++) {
        read = some_reading(read);
        if (some(2) && DVC_LOG_WHOLE(read) < ROOM) {
            size_t rest = ROOM - DVC_LOG_WHOLE(read);
            memcpy(reading + DVC_LOG_WHOLE(read), now.records, now.size < rest ? now.size : rest);
        }
        if (some(4) == 0)
            set(reading + some(ROOM - 1), some(2) ? PDU_MAX + 1 : some(2000));
        memcpy(the_block, now.flash.bytes[n], BLOCK);
        next = read_block(read, some(8) ? n : n ^ 1u << some(32), some_blocks(n), some(16) ? BLOCK : some(BLOCK));
        read = next < 0 ? 0 : (uint64_t)next;
    }
}

/* ---- calls on a room and a block that are made for them */

static void make_block(uint8_t *block, uint32_t number, uint32_t used, uint32_t place)
{
    for (size_t i = 0; i < BLOCK; i++)
        block[i] = i < 8 + used ? (uint8_t)(i * 7) : 0;
    set(block, number);
    set(block + 2, used);
    set(block + 4, place);
    seal(block);
}

/* A room that has so many blocks of a log in front, the last one used so far. The log's number. */
static int64_t make_room(uint32_t blocks, uint32_t touched, uint32_t used)
{
    scramble(room, ROOM);
    make_block(room + BLOCK * (touched - 1), blocks - 1, used, 0);
    return 8 * (int64_t)blocks + touched;
}

static uint8_t was[ROOM];

static void keep(void)
{
    memcpy(was, room, ROOM);
}

/* Appends where so many bytes are left in 65,536 blocks. */
static void append_at_end(uint32_t blocks, uint32_t touched, uint32_t used, const struct record *r, size_t size)
{
    uint32_t more = BLOCKS_MAX - blocks;
    size_t left = PAYLOAD * more + PAYLOAD - used;
    int64_t log = make_room(blocks, touched, used), next;
    keep();
    next = append(log, r);
    if (size > left) {
        expect(next == -21 && memcmp(room, was, ROOM) == 0, "a record that doesn't fit");
        full++;
    } else {
        expect(next > 0, "a record that fits");
        expect(size < left || next == 8 * (int64_t)BLOCKS_MAX + more + (used < PAYLOAD), "a record that just fits");
    }
}

static void limits(void)
{
    for (uint32_t blocks = BLOCKS_MAX - 4; blocks <= BLOCKS_MAX; blocks++)
        for (uint32_t used = 1; used <= PAYLOAD; used++) {
            size_t left = PAYLOAD * (BLOCKS_MAX - blocks) + PAYLOAD - used;
            uint32_t touched = 1 + some(5);
            for (size_t size = left > 5 ? left - 3 : 2; size <= left + 3 && size <= 2 + PDU_MAX; size++)
                append_at_end(blocks, touched, used, &(struct record){false, 0, size - 2}, size);
            append_at_end(blocks, touched, used, &(struct record){true, 5, 0}, 6);
            append_at_end(blocks, touched, used, &(struct record){false, 0, LONGEST}, 2 + PDU_MAX);
        }
}

static void expect_bad(int64_t answer, int64_t plain, const char *what)
{
    expect(answer == -1 && plain == -1 && memcmp(room, was, ROOM) == 0, what);
    refused++;
}

/* A bad call of the library's, and of plain C's. */
#define BAD(NAME, ...) (keep(), expect_bad(dvc_log_##NAME(__VA_ARGS__), plain_log_##NAME(__VA_ARGS__), "a bad call of " #NAME))

static void bad_append(int64_t log)
{
    BAD(append, (uint64_t)log, room, ROOM, the_pdu, 20);
    BAD(append, (uint64_t)log, room, ROOM, the_pdu, LONGEST);
    BAD(close, (uint64_t)log, room, ROOM, 5);
}

static void bad_numbers(void)
{
    int64_t log = make_room(9, 2, 100);
    const int64_t none[] = {-1, -21, -log, INT64_MIN, INT64_MAX, 8 * 9, 8 * 9 + 6, 8 * 9 + 7, log + 8, log - 8};
    for (size_t i = 0; i < sizeof none / sizeof *none; i++)
        bad_append(none[i]);
    /* The block's number has two bytes, and these have the same. */
    for (unsigned bit = 19; bit < 64; bit++)
        bad_append(log ^ (int64_t)((uint64_t)1 << bit));
    bad_append(make_room(BLOCKS_MAX + 1, 1, 100));
    /* The record doesn't fit either. */
    make_room(BLOCKS_MAX, 1, PAYLOAD);
    for (unsigned touched = 0; touched < 8; touched++)
        if (touched != 1)
            bad_append(8 * (int64_t)BLOCKS_MAX + touched);
    for (uint32_t used = PAYLOAD + 1; used < 65536; used += used) {
        make_room(9, 2, 100);
        set(room + BLOCK + 2, used);
        bad_append(log);
    }
    for (unsigned bit = 0; bit < 16; bit++) {
        make_room(9, 2, 100);
        set(room + BLOCK, 8 ^ 1u << bit);
        bad_append(log);
    }
}

/* Numbers that no call gives, and that are taken. */
static void odd_numbers(void)
{
    const struct record pdu = {false, 0, 900}, close = {true, 5, 0};
    for (uint32_t touched = 1; touched <= 5; touched++)
        for (uint32_t blocks = 1; blocks <= 5; blocks++) {
            int64_t log = 8 * (int64_t)blocks;
            expect(append(make_room(blocks, touched, 100), &close) == log + 1, "more blocks put than there are");
            expect(append(make_room(blocks, touched, 100), &pdu) == log + 8 + 2, "more blocks put than there are");
        }
    for (int64_t log = 0; log < 8; log++) {
        scramble(room, ROOM);
        expect(append(log, &close) == 9, "an empty log");
        scramble(room, ROOM);
        expect(append(log, &pdu) == 18, "an empty log");
    }
}

/* A reading's number: of what it came to, and the end of the last whole record. */
static uint64_t reading_of(uint64_t whole, uint64_t behind, uint64_t within, uint64_t blocks, uint64_t used)
{
    return whole | behind << 12 | within << 23 | blocks << 24 | used << 41;
}

static void short_rooms(void)
{
    static const size_t lengths[] = {0, 1, 8, 511, 512, 1024, ROOM - 1};
    const uint64_t read = reading_of(0, 0, 1, 9, 100), empty = reading_of(0, 0, 1, 0, 100);
    make_block(the_block, 0, 100, 0);
    for (size_t i = 0; i < sizeof lengths / sizeof *lengths; i++) {
        size_t n = lengths[i];
        uint8_t *part = room + ROOM - n;
        uint64_t log = (uint64_t)make_room(9, 1, 100);
        memmove(part, room, n < BLOCK ? n : BLOCK);
        BAD(append, 0, part, n, the_pdu, 0);
        BAD(append, log, part, n, the_pdu, 20);
        BAD(close, 0, part, n, 5);
        BAD(close, log, part, n, 5);
        BAD(read, 0, 0, 1, the_block, BLOCK, part, n);
        BAD(read, read, 0, 1, the_block, BLOCK - 1, part, n);
        BAD(take_back, read, part, n);
        keep();
        expect(dvc_log_take_back(empty, part, n) == 0 && memcmp(room, was, ROOM) == 0, "take back to no record");
    }
}

static void bad_blocks(void)
{
    make_block(the_block, 0, 0, 65535);
    expect(dvc_log_take_up(1, the_block, BLOCK) == 9, "take up a block of which nothing is used");
    set(the_block + 6, 65535); /* in place of 0: that the sum over all comes to 65,535 is not enough */
    BAD(take_up, 1, the_block, BLOCK);
    expect(dvc_log_take_up(0, the_block, BLOCK) == 0 && dvc_log_take_up(0, the_block + BLOCK, 0) == 0, "take up an empty log");
    make_block(the_block, BLOCKS_MAX - 1, PAYLOAD, 65535);
    expect(dvc_log_take_up(BLOCKS_MAX, the_block, BLOCK) == 8 * (int64_t)BLOCKS_MAX + 1, "take up a log of 65,536 blocks");
    make_block(the_block, 8, 100, 99);
    expect(dvc_log_take_up(9, the_block, BLOCK) == 73, "take up a log of 9 blocks");
    BAD(take_up, 8, the_block, BLOCK);
    BAD(take_up, 10, the_block, BLOCK);
    BAD(take_up, BLOCKS_MAX + 9, the_block, BLOCK);
    for (size_t n = 0; n < BLOCK; n += 73)
        BAD(take_up, 9, the_block + BLOCK - n, n);
    for (size_t at = 0; at < BLOCK; at++) {
        make_block(the_block, 8, 100, 99);
        the_block[at] ^= (uint8_t)(1 + some(255));
        BAD(take_up, 9, the_block, BLOCK);
        if (at >= 8 + 100) { /* an unused byte, and the check is right */
            seal(the_block);
            BAD(take_up, 9, the_block, BLOCK);
        }
    }
    for (unsigned bit = 0; bit < 16; bit++) {
        make_block(the_block, 8 ^ 1u << bit, 100, 99);
        BAD(take_up, 9, the_block, BLOCK);
    }
    for (uint32_t place = 100; place < 65535; place += place) {
        make_block(the_block, 8, 100, place);
        BAD(take_up, 9, the_block, BLOCK);
    }
    for (uint32_t used = PAYLOAD + 1; used < 65536; used += used) {
        make_block(the_block, 8, used, 99);
        BAD(take_up, 9, the_block, BLOCK);
    }
}

/* Reads the_block, with any bytes in the room, and comes to `next`. Where that has no bytes the room stays. */
static void expect_read(uint64_t read, uint32_t number, uint32_t blocks, size_t len, uint64_t next, const char *what)
{
    scramble(reading, ROOM);
    memcpy(was, reading, ROOM);
    expect(read_block(read, number, blocks, len) == (int64_t)next, what);
    expect(DVC_LOG_WHOLE(next) + DVC_LOG_BEHIND(next) > 0 || memcmp(reading, was, ROOM) == 0, what);
}

static void odd_reads(void)
{
    const uint64_t read = reading_of(3, 7, 1, 5, 77), none = reading_of(0, 0, 0, 5, 77), far = reading_of(0, 0, 0, 0x1FFFF, 0x1FF);
    make_block(the_block, 8, PAYLOAD, 65535);
    for (size_t n = 0; n < BLOCK; n += 73)
        expect_read(read, 8, 20, n, none, "a block of another length");
    expect_read(read, 7, 20, BLOCK, none, "a block of another number");
    expect_read(read, BLOCKS_MAX + 8, 2 * BLOCKS_MAX, BLOCK, none, "a block of another number");
    expect_read(read & ~((uint64_t)1 << 23), 8, 20, BLOCK, none, "a block in which no record begins");
    expect_read(far, 8, 20, BLOCK, far, "a block in which no record begins");
    expect_read(0, 8, 20, BLOCK, 0, "a block in which no record begins");

    /* A close that ends with the block, which is full: how many blocks the log has is all one. */
    make_block(the_block, 8, PAYLOAD, PAYLOAD - 6);
    memcpy(the_block + BLOCK - 6, (uint8_t[]){255, 255, 5, 0, 0, 0}, 6);
    seal(the_block);
    for (uint32_t blocks = 0; blocks < 20; blocks++)
        expect_read(far, 8, blocks, BLOCK, reading_of(6, 0, 1, 9, PAYLOAD), "a close");
    /* Behind it a length that no record has, and then one that a record has. */
    set(the_block + 4, PAYLOAD - 10);
    memcpy(the_block + BLOCK - 10, (uint8_t[]){255, 255, 5, 0, 0, 0, 66, 6, 0, 0}, 10);
    seal(the_block);
    expect_read(read & ~((uint64_t)1 << 23), 8, 20, BLOCK, reading_of(6, 4, 0, 9, PAYLOAD - 4), "a length that no record has");
    set(the_block + BLOCK - 4, PDU_MAX);
    seal(the_block);
    expect_read(read & ~((uint64_t)1 << 23), 8, 20, BLOCK, reading_of(6, 4, 1, 9, PAYLOAD - 4), "a PDU of 1,601 bytes that begins");
}

static void bad_reads(void)
{
    const uint64_t read = reading_of(0, 0, 1, 9, 100), most = reading_of(ROOM - PDU_MAX - 1, PDU_MAX + 1, 1, 9, 100);
    scramble(room, ROOM);
    make_block(the_block, 0, PAYLOAD, 0);
    for (uint32_t number = 0; number < 2; number++) { /* with 1 it is a bad block */
        BAD(read, (uint64_t)-1, number, 2, the_block, BLOCK, room, ROOM);
        for (unsigned bit = 50; bit < 64; bit++)
            BAD(read, read | (uint64_t)1 << bit, number, 2, the_block, BLOCK, room, ROOM);
        for (uint64_t whole = ROOM + 1; whole < 4096; whole += 73)
            BAD(read, read | whole, number, 2, the_block, BLOCK, room, ROOM);
        BAD(read, most + 1, number, 2, the_block, BLOCK, room, ROOM);
        for (uint64_t behind = PDU_MAX + 2; behind < 2048; behind++) {
            BAD(read, read | behind << 12, number, 2, the_block, BLOCK, room, ROOM);
            BAD(read, (read | behind << 12) & ~((uint64_t)1 << 23), number, 2, the_block, BLOCK, room, ROOM);
        }
        for (uint64_t behind = 1; behind <= PDU_MAX + 1; behind += 32)
            BAD(read, read | (ROOM + 1 - behind) | behind << 12, number, 2, the_block, BLOCK, room, ROOM);
        expect(read_block(most, number, 2, BLOCK) >= 0, "as many bytes behind as there can be");
        expect(read_block(read | ROOM, number, 2, BLOCK) >= 0, "as many bytes of whole records as there can be");
    }

    make_room(9, 1, 100);
    BAD(take_back, (uint64_t)-1, room, ROOM);
    BAD(take_back, (uint64_t)1 << 50, room, ROOM);
    for (unsigned bit = 50; bit < 64; bit++)
        BAD(take_back, read | (uint64_t)1 << bit, room, ROOM);
    BAD(take_back, reading_of(0, 0, 1, 8, 100), room, ROOM);
    BAD(take_back, reading_of(0, 0, 1, 10, 100), room, ROOM);
    BAD(take_back, reading_of(0, 0, 1, BLOCKS_MAX + 9, 100), room, ROOM);
    BAD(take_back, reading_of(0, 0, 1, 9, 101), room, ROOM);
    BAD(take_back, reading_of(0, 0, 1, 9, 511), room, ROOM);
    for (uint32_t used = PAYLOAD + 1; used < 65536; used += used) {
        set(room + 2, used);
        BAD(take_back, read, room, ROOM);
    }
}

/* Blocks that are cut; what else a reading's number says is all one. */
static void cuts(void)
{
    uint8_t cut[BLOCK];
    for (uint32_t used = 0; used <= PAYLOAD; used += 1 + some(9))
        for (uint32_t kept = 0; kept <= used; kept += 1 + some(40)) {
            uint32_t place = some(3) == 0 ? 65535 : some(2) ? some(used + 1) : kept;
            make_room(9, 1, 100);
            make_block(room, 8, used, place);
            make_block(cut, 8, kept, place < kept ? place : 65535);
            keep();
            uint64_t rest = some_bits() & 0xFFFFFF;
            expect(dvc_log_take_back(rest | reading_of(0, 0, 0, 9, kept), room, ROOM) == 73, "a block that is cut");
            expect(memcmp(room, cut, BLOCK) == 0 && memcmp(room + BLOCK, was + BLOCK, ROOM - BLOCK) == 0, "a block that is cut");
        }
}

int main(void)
{
    room = fenced(ROOM);
    reading = fenced(ROOM);
    the_block = fenced(BLOCK);
    the_pdu = fenced(LONGEST);
    for (int run = 0; run < RUNS; run++) {
        write_log(try_append);
        for (int k = 0; k < 5; k++) {
            damage();
            nonsense();
        }
    }
    limits();
    bad_numbers();
    odd_numbers();
    short_rooms();
    bad_blocks();
    odd_reads();
    bad_reads();
    cuts();
    printf("test_log: %lu appends, %lu losses of power, %lu stops, %lu logs with damage, %lu blocks read, "
           "%lu records that don't fit, %lu bad calls, %lu wrong\n",
           appends, losses, stops, damaged, reads, full, refused, wrong);
    return wrong != 0;
}
