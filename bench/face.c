/*
 * The benchmark's job through the C face (include/immuskade.h): what it costs a host in C over a host in Rattle.
 *
 *   face bench ROUNDS FILE   all PDUs of FILE, ROUNDS times, each round from Start and ended by closing what is open; how many
 *                            calls got each answer, and the messages counted on what was open at the end
 *
 * The host keeps the numbers of its open channels, at most sixteen, from the answers. Input and lines are those of the program
 * `bench` and of plain.c.
 */
#include <stdbool.h>
#include <stdint.h>
#include <stdio.h>
#include <string.h>

#include "immuskade.h"

enum { CHANNELS = 16, WORDS = 16, FILE_MAX = 2 * 1024 * 1024, ROUNDS_END = 1000000000 };

static const uint8_t listeners[] = "PUMP"; /* with its zero: one name */

static uint8_t state[DVC_STATE], store[DVC_STORE], reply[DVC_REPLY_MIN];

/* ---- the channels that are open */

static uint32_t open_numbers[CHANNELS];
static size_t open_count;

static void opened(uint32_t number)
{
    if (open_count < CHANNELS)
        open_numbers[open_count++] = number;
}

static void closed(uint32_t number)
{
    for (size_t i = 0; i < open_count; i++)
        if (open_numbers[i] == number) {
            open_numbers[i] = open_numbers[--open_count];
            return;
        }
}

/* What has a reply to send may have opened or closed a channel. */
static void note(uint64_t answer)
{
    switch (dvc_word(answer)) {
    case DVC_OPENED:
        opened(dvc_channel(answer));
        break;
    case DVC_CLOSED:
        closed(dvc_channel(answer));
        break;
    }
}

/* ---- rounds */

/* One round from Start, ended by closing what is open; a last record cut short is left out. */
static void one_round(const uint8_t *file, size_t length, uint64_t counts[WORDS], uint64_t *counted)
{
    const uint8_t *at = file, *end = file + length;

    dvc_start(state, sizeof state, store, sizeof store);
    open_count = 0;
    while (end - at >= 2) {
        size_t n = (size_t)at[0] | (size_t)at[1] << 8;
        uint64_t answer;

        at += 2;
        if (n > (size_t)(end - at))
            break;
        answer = dvc_receive(state, sizeof state, store, sizeof store, listeners, sizeof listeners, at, n, reply, sizeof reply);
        counts[dvc_word(answer)]++;
        if (dvc_sent(answer) > 0)
            note(answer);
        at += n;
    }
    while (open_count > 0) {
        uint32_t number = open_numbers[--open_count];

        *counted += dvc_messages(dvc_count(state, sizeof state, number));
        counts[dvc_word(dvc_local_close(state, sizeof state, store, sizeof store, number, reply, sizeof reply))]++;
    }
}

/* ---- the program */

/* A whole file of at most FILE_MAX bytes. */
static bool read_file(const char *name, uint8_t *into, size_t *length)
{
    FILE *f = fopen(name, "rb");
    bool good;

    if (f == NULL)
        return false;
    *length = fread(into, 1, FILE_MAX, f);
    good = !ferror(f) && fgetc(f) == EOF;
    fclose(f);
    return good;
}

static void print_counts(const uint64_t counts[WORDS], uint64_t counted)
{
    static const struct {
        unsigned word;
        const char *name;
    } words[] = {{DVC_READY, "ready"},     {DVC_OPENED, "opened"}, {DVC_DECLINED, "declined"}, {DVC_HELD, "held"},
                 {DVC_MESSAGE, "message"}, {DVC_CLOSED, "closed"}, {DVC_IGNORED, "ignored"},   {DVC_REFUSED, "refused"}};
    uint64_t calls = 0;

    for (size_t w = 0; w < WORDS; w++)
        calls += counts[w];
    printf("calls %llu\n", (unsigned long long)calls);
    for (size_t w = 0; w < sizeof words / sizeof *words; w++)
        printf("%s %llu\n", words[w].name, (unsigned long long)counts[words[w].word]);
    printf("counted %llu\n", (unsigned long long)counted);
}

static int bench(uint32_t rounds, const char *name)
{
    static uint8_t file[FILE_MAX];
    uint64_t counts[WORDS] = {0}, counted = 0;
    size_t length;

    if (!read_file(name, file, &length)) {
        puts("cannot read the file, or it is over 2 MiB");
        return 1;
    }
    for (uint32_t i = 0; i < rounds; i++)
        one_round(file, length, counts, &counted);
    print_counts(counts, counted);
    return 0;
}

/* Decimal digits that make a count below ROUNDS_END. */
static bool read_count(const char *s, uint32_t *count)
{
    if (*s == '\0')
        return false;
    for (*count = 0; *s != '\0'; s++) {
        if (*s < '0' || *s > '9' || *count >= ROUNDS_END / 10)
            return false;
        *count = 10 * *count + (uint32_t)(*s - '0');
    }
    return true;
}

int main(int argc, char **argv)
{
    uint32_t rounds;

    if (argc == 4 && strcmp(argv[1], "bench") == 0 && read_count(argv[2], &rounds))
        return bench(rounds, argv[3]);
    puts("usage: face bench ROUNDS FILE");
    return 2;
}
