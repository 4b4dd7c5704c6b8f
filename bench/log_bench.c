/*
 * The link log's benchmark, over the calls of immuskade.h: compiled once with the archive, and once with -DPLAIN_LOG and
 * plain_log.c, so that only the functions differ.
 *
 *   log_bench write ROUNDS RECORDS LOG   the records of RECORDS, ROUNDS times, each round to an empty log; the last one's log to LOG
 *   log_bench read ROUNDS LOG            the blocks of LOG, ROUNDS times
 *
 * Prints the blocks of a round, and the bytes of the records appended in it or read. The records are those that logwrite takes.
 */
#include <stdbool.h>
#include <stdio.h>
#include <stdlib.h>
#include <string.h>

#include "immuskade.h"
#include "plain_log.h"

enum { LOG_MAX = DVC_LOG_BLOCK * DVC_LOG_BLOCKS_MAX, CLOSE = 65535 };

static uint8_t records[LOG_MAX], the_log[LOG_MAX], room[DVC_LOG_ROOM];

static void fail(const char *what)
{
    fprintf(stderr, "log_bench: %s\n", what);
    exit(1);
}

static size_t read_file(const char *name, uint8_t *into)
{
    FILE *f = fopen(name, "rb");
    size_t length;

    if (f == NULL)
        fail("cannot open the file");
    length = fread(into, 1, LOG_MAX, f);
    if (ferror(f) || fgetc(f) != EOF)
        fail("cannot read the file, or it is longer than a log");
    fclose(f);
    return length;
}

static uint32_t get(const uint8_t *at)
{
    return (uint32_t)at[0] | (uint32_t)at[1] << 8;
}

/* One round of appends, with or without the host's part, which puts the blocks to flash. The log's blocks. */
static uint32_t write_round(size_t length, bool is_put)
{
    const uint8_t *at = records, *end = records + length;
    int64_t log = 0;

    while (end - at >= 2) {
        size_t n = get(at);

        at += 2;
        if (n == CLOSE) {
            log = dvc_log_close((uint64_t)log, room, sizeof room, get(at) | get(at + 2) << 16);
            n = 4;
        } else {
            log = dvc_log_append((uint64_t)log, room, sizeof room, at, n);
        }
        at += n;
        if (log <= 0)
            fail("a record was refused");
        if (is_put)
            memcpy(the_log + DVC_LOG_BLOCK * (DVC_LOG_BLOCKS(log) - DVC_LOG_PUT(log)), room, DVC_LOG_BLOCK * DVC_LOG_PUT(log));
    }
    return DVC_LOG_BLOCKS(log);
}

/* One round of reading: how many bytes the records have, with their lengths. */
static size_t read_round(uint32_t blocks)
{
    int64_t read = 0;
    size_t bytes = 0;

    for (uint32_t n = 0; n < blocks; n++) {
        read = dvc_log_read((uint64_t)read, n, blocks, the_log + DVC_LOG_BLOCK * (size_t)n, DVC_LOG_BLOCK, room, sizeof room);
        if (read < 0)
            fail("a block was refused");
        bytes += DVC_LOG_WHOLE(read);
    }
    return bytes;
}

int main(int argc, char **argv)
{
    int rounds = argc > 3 ? atoi(argv[2]) : 0;
    uint32_t blocks = 0;
    size_t bytes = 0;

    if (argc == 5 && strcmp(argv[1], "write") == 0 && rounds > 0) {
        FILE *f = fopen(argv[4], "wb");

        bytes = read_file(argv[3], records);
        for (int i = 1; i <= rounds; i++)
            blocks = write_round(bytes, i == rounds);
        if (f == NULL || fwrite(the_log, DVC_LOG_BLOCK, blocks, f) != blocks || fclose(f) != 0)
            fail("cannot write the log");
    } else if (argc == 4 && strcmp(argv[1], "read") == 0 && rounds > 0) {
        blocks = (uint32_t)(read_file(argv[3], the_log) / DVC_LOG_BLOCK);
        for (int i = 0; i < rounds; i++)
            bytes = read_round(blocks);
    } else {
        fail("call it as `log_bench write ROUNDS RECORDS LOG` or `log_bench read ROUNDS LOG`");
    }
    printf("blocks %lu\nbytes %zu\n", (unsigned long)blocks, bytes);
    return 0;
}
