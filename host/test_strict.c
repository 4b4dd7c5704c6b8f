/*
 * Compares dvc_strict, as the archive has it, with a judge written plainly in C from the paper's text.
 *
 *   - every first byte with short PDUs of every length, filled with bytes that make small and large numbers;
 *   - every kind, in both directions, with numbers and Lengths around each width's limit, in each width that holds them, with
 *     every value of the middle bits, and with bytes missing or left over;
 *   - PDUs around 1,600 bytes;
 *   - every PDU that dvc_cut makes of messages around its limits: all are accepted;
 *   - every answer must have been met in each direction.
 *
 * Each PDU lies in memory of its own length, so that the address sanitizer sees a read past its end.
 */
#include <stdio.h>
#include <stdlib.h>
#include <string.h>

#include "immuskade.h"

enum { PDU_MAX = 1600 };

static unsigned long calls, wrong, met[2][19];

/* ---- the judge in plain C */

static uint32_t number_at(const uint8_t *at, size_t width)
{
    uint32_t value = 0;
    for (size_t i = width; i-- > 0;)
        value = value << 8 | at[i];
    return value;
}

/* Whether a number stands in a wider width than it needs. */
static int wide(uint32_t value, size_t width)
{
    return width > (value < 256 ? 1u : value < 65536 ? 2u : 4u);
}

/* Command 5: its cbId, its fields from left to right, and bytes left over. */
static uint32_t capabilities(const uint8_t *pdu, size_t len, int from_server)
{
    if (pdu[0] & 3)
        return 5;
    if (len < 2)
        return 2;
    if (pdu[1] != 0)
        return 5;
    if (len < 4)
        return 2;
    uint32_t version = number_at(pdu + 2, 2);
    if (version < 1 || version > 3)
        return 5;
    size_t end = from_server && version > 1 ? 12 : 4;
    if (len < end)
        return 2;
    return len > end ? 5 : 0;
}

/* What stands behind the number of a Create: a name and its zero, or a status. */
static uint32_t behind_create(const uint8_t *pdu, size_t len, size_t at, int from_server)
{
    if (!from_server)
        return len < at + 4 ? 2 : len > at + 4 ? 5 : 0;
    const uint8_t *zero = memchr(pdu + at, 0, len - at);
    if (!zero)
        return 2;
    return zero != pdu + len - 1 ? 5 : 0;
}

/* Whether the PDU has the one form of its meaning. */
static uint32_t judge(const uint8_t *pdu, size_t len, int from_server)
{
    if (len == 0)
        return 2;
    if (len > PDU_MAX)
        return 3;
    unsigned cmd = pdu[0] >> 4, middle = pdu[0] >> 2 & 3, code = pdu[0] & 3;
    if (cmd < 1 || cmd > 5)
        return 4;
    if (cmd == 5) {
        uint32_t refusal = capabilities(pdu, len, from_server);
        return refusal ? refusal : middle ? 18 : 0;
    }
    if (code == 3 || (cmd == 2 && middle == 3))
        return 5;
    size_t width = (size_t)1 << code, at = 1 + width;
    if (len < at)
        return 2;
    int loose = wide(number_at(pdu + 1, width), width);
    if (cmd == 1) {
        uint32_t refusal = behind_create(pdu, len, at, from_server);
        if (refusal)
            return refusal;
    }
    if (cmd == 2) {
        size_t length_width = (size_t)1 << middle;
        if (len < at + length_width)
            return 2;
        loose |= wide(number_at(pdu + at, length_width), length_width);
    }
    if (cmd == 4 && len > at)
        return 5;
    int has_sp = cmd == 3 || cmd == 4 || (cmd == 1 && !from_server);
    return loose || (has_sp && middle != 0) ? 18 : 0;
}

/* ---- the comparison */

/* Calls both on the same bytes. Answers what dvc_strict did. */
static uint32_t same(const uint8_t *pdu, size_t len, uint32_t from_server)
{
    uint8_t *own = malloc(len ? len : 1);
    if (!own)
        abort();
    memcpy(own, pdu, len);
    uint32_t answer = dvc_strict(own, len, from_server), plain = judge(own, len, from_server != 0);
    free(own);
    calls++;
    if (answer < 19)
        met[from_server != 0][answer]++;
    if (answer != plain && wrong++ < 20)
        fprintf(stderr, "test_strict: %u in place of %u: first byte %02x, %zu bytes, from_server %u\n", (unsigned)answer, (unsigned)plain,
                len ? pdu[0] : 0u, len, (unsigned)from_server);
    return answer;
}

static void both(const uint8_t *pdu, size_t len)
{
    same(pdu, len, 0);
    same(pdu, len, 1);
}

static uint32_t seed = 1;

static uint32_t next_random(void)
{
    seed ^= seed << 13;
    seed ^= seed >> 17;
    seed ^= seed << 5;
    return seed;
}

/* Bytes of which many are 0 and some 1, 255 or 4: small and large numbers, names that end, versions. */
static uint8_t likely(void)
{
    static const uint8_t often[] = {0, 0, 0, 0, 0, 1, 2, 3, 255, 4};
    uint32_t r = next_random();
    return r & 16 ? often[(r >> 8) % sizeof often] : (uint8_t)(r >> 8);
}

static void every_first_byte(void)
{
    uint8_t pdu[16];
    for (unsigned first = 0; first < 256; first++)
        for (size_t len = 0; len <= sizeof pdu; len++)
            for (int filling = 0; filling < 150; filling++) {
                for (size_t i = 0; i < len; i++)
                    pdu[i] = i ? likely() : (uint8_t)first;
                both(pdu, len);
            }
}

static size_t put(uint8_t *to, uint32_t value, size_t width)
{
    for (size_t i = 0; i < width; i++)
        to[i] = (uint8_t)(value >> 8 * i);
    return width;
}

static void every_kind(void)
{
    static const uint32_t values[] = {0, 1, 5, 254, 255, 256, 257, 65534, 65535, 65536, 65537, 16777216, 4294967294u, 4294967295u};
    enum { VALUES = sizeof values / sizeof values[0] };
    uint8_t pdu[64];
    for (unsigned first = 0x10; first < 0x50; first++)
        for (int n = 0; n < VALUES; n++)
            for (int l = 0; l < VALUES; l++)
                for (size_t rest = 0; rest < 7; rest++) {
                    unsigned cmd = first >> 4, middle = first >> 2 & 3, code = first & 3;
                    pdu[0] = (uint8_t)first;
                    size_t len = 1 + put(pdu + 1, values[n], code == 3 ? 1 : (size_t)1 << code);
                    len += put(pdu + len, values[l], cmd == 2 && middle < 3 ? (size_t)1 << middle : 4);
                    for (size_t i = 0; i < rest; i++)
                        pdu[len++] = i + 1 < rest ? 'A' : 0;
                    both(pdu, len);
                    both(pdu, len - rest);
                    both(pdu, len - rest - 1);
                }
}

static void around_the_longest(void)
{
    static uint8_t pdu[PDU_MAX + 4];
    for (unsigned first = 0; first < 256; first++)
        for (size_t len = PDU_MAX - 2; len <= sizeof pdu; len++)
            for (int name = 0; name < 2; name++) {
                memset(pdu, name ? 'A' : 0, sizeof pdu);
                pdu[0] = (uint8_t)first;
                pdu[len - 1] = 0;
                both(pdu, len);
            }
}

/* Any number but 0 says that the server sent the PDU. */
static void every_direction(void)
{
    static const uint8_t request[] = {0x14, 5, 'P', 0}, response[] = {0x10, 5, 0, 0, 0, 0};
    static const uint32_t server[] = {1, 2, 256, 65536, 2147483648u, 4294967295u};
    for (size_t i = 0; i < sizeof server / sizeof server[0]; i++)
        if (same(request, sizeof request, server[i]) != 0 || same(response, sizeof response, server[i]) == 0)
            wrong++;
    if (same(request, sizeof request, 0) == 0 || same(response, sizeof response, 0) != 0)
        wrong++;
}

/* Whatever the cutter writes is accepted, in either direction. */
static void what_we_cut(void)
{
    static uint8_t message[DVC_MESSAGE_MAX], out[DVC_PDU_MAX];
    static const uint32_t numbers[] = {0, 255, 256, 65535, 65536, 4294967295u};
    for (size_t n = 0; n < sizeof numbers / sizeof numbers[0]; n++)
        for (size_t total = 0; total <= DVC_MESSAGE_MAX; total += total < 300 || (total > 1580 && total < 1610) ? 1 : 37)
            for (size_t offset = 0;;) {
                uint32_t piece = dvc_cut(numbers[n], message, total, offset, out, sizeof out);
                if (dvc_refused(piece)) {
                    wrong++;
                    break;
                }
                for (uint32_t from_server = 0; from_server < 2; from_server++)
                    if (same(out, dvc_pdu_len(piece), from_server) != DVC_ACCEPTED)
                        wrong++;
                offset = dvc_next_offset(piece);
                if (offset == total)
                    break;
            }
}

int main(void)
{
    every_first_byte();
    every_kind();
    around_the_longest();
    every_direction();
    what_we_cut();
    static const int answers[] = {DVC_ACCEPTED, DVC_CUT_SHORT, DVC_TOO_LONG, DVC_NO_COMMAND, DVC_BAD_FIELD, DVC_LOOSE};
    for (size_t i = 0; i < sizeof answers / sizeof answers[0]; i++)
        for (int from_server = 0; from_server < 2; from_server++)
            if (met[from_server][answers[i]] == 0) {
                fprintf(stderr, "test_strict: answer %d was never met\n", answers[i]);
                wrong++;
            }
    printf("test_strict: %lu calls, %lu wrong\n", calls, wrong);
    return wrong != 0;
}
