/*
 * Compares dvc_name_to_utf8 and dvc_name_from_utf8, as the archive has them, with what python3 says: test_names VECTORS.
 *
 * host/names.py writes the vectors: a byte, 0 for a name to UTF-8 and 1 for a text from it; the input's length and the result's, each
 * in two bytes, little-endian, 65,535 for a result that there is none of; the input; the result. Each is tried
 *
 *   - with room for the result exactly, with room behind it, with one byte less and with none;
 *   - where there is no result, with much room, with little and with none: 19 comes before 20;
 *   - back again, from the result.
 *
 * After each call every byte of the buffer must be as it should, and those before it and the input as they were. The input and the
 * buffer end before a page that can't be touched.
 */
#define _DEFAULT_SOURCE
#include <stdio.h>
#include <string.h>
#include <sys/mman.h>
#include <unistd.h>

#include "immuskade.h"

enum { LONGEST = 65534, NO_RESULT = 65535, BEFORE = 8, BEHIND = 7, SIZE = LONGEST + BEFORE + BEHIND };

typedef int64_t conversion(const uint8_t *, size_t, uint8_t *, size_t);

static unsigned long vectors, calls, wrong, converted, no_partner, no_room;

/* Memory that ends before a page that can't be touched: where it ends. */
static uint8_t *fenced(void)
{
    size_t page = (size_t)sysconf(_SC_PAGESIZE), size = (SIZE + page - 1) / page * page;
    uint8_t *memory = mmap(NULL, size + page, PROT_READ | PROT_WRITE, MAP_PRIVATE | MAP_ANONYMOUS, -1, 0);
    if (memory == MAP_FAILED || mprotect(memory + size, page, PROT_NONE) != 0) {
        perror("test_names");
        _exit(1);
    }
    return memory + size;
}

static uint8_t *in_end, *out_end;

/* What stands in a buffer before a call. */
static uint8_t there(size_t i)
{
    return (uint8_t)(0xA5 ^ i * 29);
}

/* One call with some room. `result` is what it must write, or none: then it refuses. */
static void called(conversion *convert, const uint8_t *input, size_t input_len, const uint8_t *result, size_t room, int64_t expected)
{
    uint8_t *in = in_end - input_len, *all = out_end - room - BEFORE, *out = out_end - room;
    memcpy(in, input, input_len);
    for (size_t i = 0; i < BEFORE + room; i++)
        all[i] = there(i);
    int64_t answer = convert(in, input_len, out, room);
    calls++;
    size_t written = result ? (size_t)expected : 0;
    int bad = answer != expected || memcmp(in, input, input_len) != 0 || (result && memcmp(out, result, written) != 0);
    for (size_t i = 0; i < BEFORE; i++)
        bad |= all[i] != there(i);
    for (size_t i = BEFORE + written; i < BEFORE + room; i++)
        bad |= all[i] != there(i);
    if (bad && wrong++ < 20)
        fprintf(stderr, "test_names: %s, %zu bytes from %02x on, room %zu: answer %lld in place of %lld, or other bytes\n",
                convert == dvc_name_to_utf8 ? "to UTF-8" : "from UTF-8", input_len, input_len ? input[0] : 0u, room, (long long)answer,
                (long long)expected);
    if (answer >= 0)
        converted++;
    no_partner += answer == -DVC_NO_PARTNER;
    no_room += answer == -DVC_NO_ROOM;
}

static void refused(conversion *convert, const uint8_t *input, size_t input_len)
{
    called(convert, input, input_len, NULL, 0, -DVC_NO_PARTNER);
    called(convert, input, input_len, NULL, 1, -DVC_NO_PARTNER);
    called(convert, input, input_len, NULL, input_len < LONGEST / 3 ? 3 * input_len + 1 : LONGEST, -DVC_NO_PARTNER);
}

static void taken(conversion *convert, conversion *back, const uint8_t *input, size_t input_len, const uint8_t *result, size_t result_len)
{
    called(convert, input, input_len, result, result_len, (int64_t)result_len);
    called(convert, input, input_len, result, result_len + BEHIND, (int64_t)result_len);
    called(back, result, result_len, input, input_len, (int64_t)input_len);
    if (result_len == 0)
        return;
    called(convert, input, input_len, NULL, result_len - 1, -DVC_NO_ROOM);
    called(convert, input, input_len, NULL, 0, -DVC_NO_ROOM);
}

int main(int argc, char **argv)
{
    FILE *file = argc == 2 ? fopen(argv[1], "rb") : NULL;
    if (!file) {
        fprintf(stderr, "test_names: call it as `test_names VECTORS`, a file that host/names.py has written\n");
        return 2;
    }
    in_end = fenced();
    out_end = fenced();
    static uint8_t head[5], input[LONGEST], result[LONGEST];
    while (fread(head, sizeof head, 1, file) == 1) {
        size_t input_len = head[1] + 256u * head[2], result_len = head[3] + 256u * head[4];
        int none = result_len == NO_RESULT;
        if (none)
            result_len = 0;
        if (input_len > LONGEST || fread(input, 1, input_len, file) != input_len || fread(result, 1, result_len, file) != result_len) {
            fprintf(stderr, "test_names: %s is no file of vectors\n", argv[1]);
            return 2;
        }
        vectors++;
        conversion *convert = head[0] ? dvc_name_from_utf8 : dvc_name_to_utf8, *back = head[0] ? dvc_name_to_utf8 : dvc_name_from_utf8;
        if (none)
            refused(convert, input, input_len);
        else
            taken(convert, back, input, input_len, result, result_len);
    }
    fclose(file);
    if (!converted || !no_partner || !no_room) {
        fprintf(stderr, "test_names: an answer was never met\n");
        wrong++;
    }
    printf("test_names: %lu vectors, %lu calls, %lu wrong\n", vectors, calls, wrong);
    return wrong != 0;
}
