/*
 * Compares dvc_cut, as the archive has it, with a cutter written plainly in C: the answer, and every byte of the buffer.
 *
 *   - every message length from 0 to 4,097, block by block, for numbers of each width;
 *   - every offset, and some far past the end, for lengths around each limit;
 *   - buffers that are too short, and longer ones; refusals that hold together;
 *   - the paper's own examples, as numbers.
 */
#include <stdio.h>
#include <string.h>

#include "immuskade.h"

enum { PDU_MAX = 1600, MESSAGE_MAX = 4096, WHOLE_MAX = 1590, ROOM = PDU_MAX + 100 };

static uint8_t message[MESSAGE_MAX + 2];
static unsigned long calls, wrong;

/* ---- the cutter in plain C */

static unsigned width_code(size_t value)
{
    return value < 256 ? 0 : value < 65536 ? 1 : 2;
}

/* Writes a number in its narrowest width, the lowest byte first. Answers the width. */
static size_t put(uint8_t *to, size_t value)
{
    size_t width = (size_t)1 << width_code(value);
    for (size_t i = 0; i < width; i++)
        to[i] = (uint8_t)(value >> 8 * i);
    return width;
}

/* Writes the PDU of the block that starts at `start`, and says where the block ends. Answers the PDU's length. */
static size_t plain_pdu(uint32_t number, size_t total, size_t start, uint8_t *pdu, size_t *end)
{
    size_t header = 1;
    if (total > WHOLE_MAX && start == 0) {
        pdu[0] = (uint8_t)(0x20 | width_code(total) << 2 | width_code(number));
        header += put(pdu + header, number);
        header += put(pdu + header, total);
    } else {
        pdu[0] = (uint8_t)(0x30 | width_code(number));
        header += put(pdu + header, number);
    }
    size_t block = total - start;
    if (block > PDU_MAX - header)
        block = PDU_MAX - header;
    memcpy(pdu + header, message + start, block);
    *end = start + block;
    return header + block;
}

/* Follows the blocks from 0 on to the one at the offset. */
static uint32_t plain_cut(uint32_t number, size_t total, size_t offset, uint8_t *out, size_t out_len)
{
    if (out_len < PDU_MAX)
        return 1;
    if (total > MESSAGE_MAX)
        return 11;
    for (size_t start = 0, end;; start = end) {
        uint8_t pdu[PDU_MAX];
        size_t len = plain_pdu(number, total, start, pdu, &end);
        if (start == offset) {
            memcpy(out, pdu, len);
            return (uint32_t)(len * 65536 + end);
        }
        if (end == total)
            return 14;
    }
}

/* ---- the comparison */

static void expect(int holds, const char *what, uint32_t number, size_t total, size_t offset, size_t out_len)
{
    if (holds)
        return;
    if (wrong++ < 20)
        fprintf(stderr, "test_cut: %s: number %u, message of %zu, offset %zu, buffer of %zu\n", what, (unsigned)number, total, offset, out_len);
}

/* Calls both cutters on buffers with the same bytes in them, more than are lent. Answers what dvc_cut did. */
static uint32_t same(uint32_t number, size_t total, size_t offset, size_t out_len)
{
    uint8_t ours[ROOM], plain[ROOM];
    for (size_t i = 0; i < ROOM; i++)
        ours[i] = plain[i] = (uint8_t)(0xA5 ^ 7 * i ^ calls);
    calls++;
    uint32_t answer = dvc_cut(number, message, total, offset, ours, out_len);
    expect(answer == plain_cut(number, total, offset, plain, out_len), "another answer", number, total, offset, out_len);
    expect(memcmp(ours, plain, ROOM) == 0, "other bytes", number, total, offset, out_len);
    return answer;
}

/* The message's PDUs in their order, and no further one. Answers how many there are. */
static unsigned whole_message(uint32_t number, size_t total)
{
    unsigned pdus = 0;
    size_t offset = 0;
    do {
        uint32_t answer = same(number, total, offset, PDU_MAX);
        if (dvc_refused(answer))
            break;
        pdus++;
        offset = dvc_next_offset(answer);
    } while (offset < total && pdus < 5);
    if (total > 0)
        same(number, total, total, PDU_MAX);
    return pdus;
}

/* An example of the paper. */
static void example(uint32_t number, size_t total, size_t offset, uint32_t answer)
{
    expect(same(number, total, offset, PDU_MAX) == answer, "not the paper's number", number, total, offset, PDU_MAX);
}

int main(void)
{
    static const uint32_t numbers[] = {0, 5, 255, 256, 65535, 65536, 4294967295};
    static const size_t limits[] = {0, 1, 2, 255, 256, 1589, 1590, 1591, 1595, 1596, 1597, 1600, 3193, 3194, 3195, 4095, 4096, 4097};
    static const size_t rooms[] = {0, 1, 9, 1599, 1601, ROOM};
    enum { NUMBERS = sizeof numbers / sizeof *numbers, LIMITS = sizeof limits / sizeof *limits, ROOMS = sizeof rooms / sizeof *rooms };
    unsigned long pdus = 0;

    for (size_t i = 0; i < sizeof message; i++)
        message[i] = (uint8_t)(i * 2654435761u >> 13);

    for (size_t n = 0; n < NUMBERS; n++)
        for (size_t total = 0; total <= MESSAGE_MAX + 1; total++)
            pdus += whole_message(numbers[n], total);

    for (size_t n = 0; n < NUMBERS; n++)
        for (size_t l = 0; l < LIMITS; l++) {
            for (size_t offset = 0; offset <= limits[l] + 2; offset++)
                same(numbers[n], limits[l], offset, PDU_MAX);
            same(numbers[n], limits[l], 65536, PDU_MAX);
            same(numbers[n], limits[l], SIZE_MAX, PDU_MAX);
        }

    for (size_t n = 0; n < NUMBERS; n++)
        for (size_t l = 0; l < LIMITS; l++)
            for (size_t r = 0; r < ROOMS; r++) {
                same(numbers[n], limits[l], 0, rooms[r]);
                same(numbers[n], limits[l], 1, rooms[r]);
                same(numbers[n], limits[l], limits[l], rooms[r]);
            }

    example(5, 0, 0, 2 * 65536 + 0);
    example(5, 1590, 0, 1592 * 65536 + 1590);
    example(5, 1591, 0, 1595 * 65536 + 1591);
    example(5, 1596, 0, 1600 * 65536 + 1596);
    example(5, 1597, 0, 1600 * 65536 + 1596);
    example(5, 1597, 1596, 3 * 65536 + 1597);
    example(5, 4096, 0, 1600 * 65536 + 1596);
    example(5, 4096, 1596, 1600 * 65536 + 3194);
    example(5, 4096, 3194, 904 * 65536 + 4096);
    example(5, 4096, 4096, 14);
    example(5, 4097, 0, 11);

    printf("test_cut: %lu calls, %lu PDUs of whole messages, %lu wrong\n", calls, pdus, wrong);
    return wrong == 0 ? 0 : 1;
}
