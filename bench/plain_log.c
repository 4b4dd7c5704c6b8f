/*
 * The link log in plain C: what the proved calls of immuskade.h are measured against and compared with. It was written from the
 * rules alone and shares nothing with the library.
 *
 * A block: its number, how much of the payload is used, where the first record begins in it (or NONE), the check, the payload.
 * A record: a length of two bytes and the PDU, or SHUT and a number of four. All of them low byte first.
 */
#include "plain_log.h"

#include <stdbool.h>
#include <string.h>

enum {
    BLOCK = 512,
    ROOM = 5 * BLOCK, /* the block being filled, and four more: what one record can touch */
    BLOCKS_MAX = 65536,
    NUMBER = 0, /* where a block's fields stand */
    USED = 2,
    PLACE = 4,
    CHECK = 6,
    PAYLOAD = 8,
    PAYLOAD_MAX = BLOCK - PAYLOAD,
    NONE = 65535,
    LENGTH = 2, /* the bytes of a record's length */
    PDU_MAX = 1601,
    SHUT = 65535,
    SHUT_SIZE = 6,
    BAD_CALL = -1,
    FULL = -21
};

static uint32_t get(const uint8_t *at)
{
    return (uint32_t)at[0] | (uint32_t)at[1] << 8;
}

static void set(uint8_t *at, uint32_t value)
{
    at[0] = (uint8_t)value;
    at[1] = (uint8_t)(value >> 8);
}

/* RFC 1071: the words are summed, the carries brought round at the end, and the sum's complement taken. The check counts as 0. */
static uint32_t check_of(const uint8_t *block)
{
    uint32_t sum = 0;

    for (size_t i = 0; i < BLOCK; i += 2)
        sum += get(block + i);
    sum -= get(block + CHECK);
    while (sum >> 16)
        sum = (sum & 0xFFFF) + (sum >> 16);
    return ~sum & 0xFFFF;
}

/* ---- writing */

/* The block being filled. */
struct filling {
    uint8_t *block;
    uint32_t number, used;
};

static void begin_block(struct filling *f)
{
    memset(f->block, 0, BLOCK);
    set(f->block + NUMBER, f->number);
    set(f->block + PLACE, NONE);
    f->used = 0;
}

static void end_block(struct filling *f)
{
    set(f->block + USED, f->used);
    set(f->block + CHECK, check_of(f->block));
}

static void fill(struct filling *f, const uint8_t *from, size_t n)
{
    while (n > 0) {
        size_t piece = PAYLOAD_MAX - f->used;

        if (piece == 0) {
            end_block(f);
            f->block += BLOCK;
            f->number++;
            begin_block(f);
            piece = PAYLOAD_MAX;
        }
        if (piece > n)
            piece = n;
        memcpy(f->block + PAYLOAD + f->used, from, piece);
        f->used += (uint32_t)piece;
        from += piece;
        n -= piece;
    }
}

/* Whether a number and a room are a log's. */
static bool is_log(uint64_t log, const uint8_t *room, size_t room_len)
{
    uint64_t blocks = log >> 3, put = log & 7;

    if (blocks > BLOCKS_MAX || room_len < ROOM)
        return false;
    if (blocks == 0)
        return true;
    if (put < 1 || put > 5)
        return false;
    room += BLOCK * (put - 1);
    return get(room + NUMBER) == blocks - 1 && get(room + USED) <= PAYLOAD_MAX;
}

/* Appends a record of two parts. */
static int64_t append(uint64_t log, uint8_t *room, size_t room_len, const uint8_t *head, size_t head_len, const uint8_t *body,
                      size_t body_len)
{
    struct filling f = {room, 0, 0};
    const uint8_t *last = room;
    size_t left = 0, size = head_len + body_len, more;
    uint32_t blocks;

    if (!is_log(log, room, room_len))
        return BAD_CALL;
    blocks = (uint32_t)(log >> 3);
    if (blocks > 0) {
        last = room + BLOCK * ((log & 7) - 1);
        left = PAYLOAD_MAX - get(last + USED);
    }
    more = size > left ? (size - left + PAYLOAD_MAX - 1) / PAYLOAD_MAX : 0;
    if (blocks + more > BLOCKS_MAX)
        return FULL;

    if (left > 0) {
        if (last != room)
            memcpy(room, last, BLOCK);
        f.number = blocks - 1;
        f.used = get(room + USED);
    } else {
        f.number = blocks;
        begin_block(&f);
    }
    if (get(room + PLACE) == NONE)
        set(room + PLACE, f.used);
    fill(&f, head, head_len);
    fill(&f, body, body_len);
    end_block(&f);
    return 8 * ((int64_t)f.number + 1) + (f.block - room) / BLOCK + 1;
}

int64_t plain_log_append(uint64_t log, uint8_t *room, size_t room_len, const uint8_t *pdu, size_t pdu_len)
{
    uint8_t head[LENGTH];

    if (pdu_len > PDU_MAX)
        pdu_len = PDU_MAX;
    set(head, (uint32_t)pdu_len);
    return append(log, room, room_len, head, sizeof head, pdu, pdu_len);
}

int64_t plain_log_close(uint64_t log, uint8_t *room, size_t room_len, uint32_t number)
{
    uint8_t record[SHUT_SIZE];

    set(record, SHUT);
    set(record + 2, number & 0xFFFF);
    set(record + 4, number >> 16);
    return append(log, room, room_len, record, sizeof record, NULL, 0);
}

/* ---- reading */

/* Whether a block is good as the block of that number. */
static bool is_good(const uint8_t *block, size_t len, uint32_t number, bool is_last)
{
    uint32_t used, place;

    if (len != BLOCK || get(block + NUMBER) != number)
        return false;
    used = get(block + USED);
    if (used > PAYLOAD_MAX || (used < PAYLOAD_MAX && !is_last))
        return false;
    place = get(block + PLACE);
    if (place >= used && place != NONE)
        return false;
    for (size_t i = used; i < PAYLOAD_MAX; i++)
        if (block[PAYLOAD + i] != 0)
            return false;
    return get(block + CHECK) == check_of(block);
}

/* The bytes of a record by its length; 0 for a length that no record has. */
static size_t size_of(uint32_t length)
{
    if (length == SHUT)
        return SHUT_SIZE;
    return length <= PDU_MAX ? LENGTH + length : 0;
}

/* How many bytes the whole records at the front have, and whether a length that no record has stands behind them. */
static size_t whole_records(const uint8_t *bytes, size_t n, bool *is_lost)
{
    size_t at = 0, size;

    *is_lost = false;
    while (n - at >= LENGTH) {
        size = size_of(get(bytes + at));
        if (size == 0)
            *is_lost = true;
        if (size == 0 || size > n - at)
            break;
        at += size;
    }
    return at;
}

/*
 * A reading's number: the bytes of whole records at the room's front, the bytes behind them, whether it isn't seeking, and the end.
 * After a number that no call gave there may be more bytes behind than their eleven bits tell.
 */
static int64_t reading_of(size_t whole, size_t behind, bool is_within, uint64_t end)
{
    return (int64_t)(whole | (behind & 0x7FF) << 12 | (uint64_t)is_within << 23 | end << 24);
}

/* The end of the last whole record: how many blocks to keep, and how many bytes of the last one's payload. */
static uint64_t end_of(uint32_t blocks, size_t used)
{
    return blocks | (uint64_t)used << 17;
}

int64_t plain_log_read(uint64_t read, uint32_t number, uint32_t blocks, const uint8_t *block, size_t len, uint8_t *room,
                       size_t room_len)
{
    size_t whole = read & 0xFFF, behind = read >> 12 & 0x7FF, used, from = 0;
    bool is_within = read >> 23 & 1, is_lost;
    uint64_t end = read >> 24;

    if (read >> 50 != 0 || room_len < ROOM || whole > ROOM || behind > ROOM - whole || behind >= LENGTH + PDU_MAX)
        return BAD_CALL;

    if (!is_good(block, len, number, number + 1 == blocks))
        return reading_of(0, 0, false, end);
    if (!is_within) {
        from = get(block + PLACE);
        if (from == NONE)
            return reading_of(0, 0, false, end);
        behind = 0;
    }
    if (whole > 0)
        memmove(room, room + whole, behind);
    used = get(block + USED);
    memcpy(room + behind, block + PAYLOAD + from, used - from);
    behind += used - from;
    whole = whole_records(room, behind, &is_lost);
    behind -= whole;
    if (whole > 0)
        end = end_of(number + 1, behind < used ? used - behind : 0);
    return reading_of(whole, behind, !is_lost, end);
}

/* ---- taking up */

int64_t plain_log_take_up(uint32_t blocks, const uint8_t *block, size_t len)
{
    if (blocks == 0)
        return 0;
    if (!is_good(block, len, blocks - 1, true))
        return BAD_CALL;
    return 8 * (int64_t)blocks + 1;
}

int64_t plain_log_take_back(uint64_t read, uint8_t *room, size_t room_len)
{
    uint32_t blocks = read >> 24 & 0x1FFFF, used = read >> 41 & 0x1FF;
    struct filling f = {room, 0, used};

    if (read >> 50 != 0)
        return BAD_CALL;
    if (blocks == 0)
        return 0;
    if (room_len < ROOM || get(room + NUMBER) != blocks - 1 || get(room + USED) > PAYLOAD_MAX || get(room + USED) < used)
        return BAD_CALL;
    memset(room + PAYLOAD + used, 0, PAYLOAD_MAX - used);
    if (get(room + PLACE) >= used)
        set(room + PLACE, NONE);
    end_block(&f);
    return 8 * (int64_t)blocks + 1;
}
