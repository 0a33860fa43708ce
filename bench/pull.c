/* Measures a pull list of 256 clips with a rule of 40 steps, library against plain C, in this run and by turns: the least processor time of many rounds. */
#define _POSIX_C_SOURCE 199309L

#include "../tests/plain/library.h"
#include "../tests/plain/sheet.h"

#include <stdio.h>
#include <stdlib.h>
#include <string.h>
#include <time.h>

enum { CLIPS = 256, STEPS = 40, BUDGET = 1000, LIST = CLIPS * EXPORTER_CLIP_BYTES, ROUNDS = 2000 };

typedef void Pull(const int32_t *, size_t, const uint8_t *, size_t, uint64_t, uint8_t *, size_t, uint64_t *, size_t);

static double seconds(void)
{
    struct timespec now;
    clock_gettime(CLOCK_PROCESS_CPUTIME_ID, &now);
    return (double)now.tv_sec + 1e-9 * (double)now.tv_nsec;
}

/* 17 steps: the difference of globals a and b, then three times a sum with an entry more. */
static void put_sum(Sheet *s, unsigned a, unsigned b)
{
    static const unsigned codes[] = { ADD, FLOOR_DIV, ADD }, operands[] = { 9, 10, 5 };
    put1(s, GLOBAL, a);
    put0(s, PUSH);
    put1(s, GLOBAL, b);
    put0(s, PUSH);
    put0(s, SUB);
    for (unsigned i = 0; i < 3; i++) {
        put0(s, PUSH);
        put1(s, operands[i] < 9 ? GLOBAL : LITERAL, operands[i]);
        put0(s, PUSH);
        put0(s, codes[i]);
    }
}

/* 2 · (17 + 1) + 3 + 1 steps. Entries 1 to 8: globals 0 to 7; 9 and 10: integers. */
static void write_rule(Sheet *s)
{
    sheet_begin(s, 1);
    put_field(s, 8, 10);
    for (unsigned g = 0; g < 8; g++)
        put_number(s, GLOBAL_ENTRY, g);
    put_integer(s, 7);
    put_integer(s, 2);
    put_sum(s, 1, 5);
    put1(s, SET_GLOBAL, 7);
    put_sum(s, 2, 6);
    put1(s, SET_GLOBAL, 8);
    for (unsigned i = 0; i < 3; i++)
        put1(s, LITERAL, 9);
    put0(s, RETURN);
    put0(s, END);
}

static void keep_least(double *least, double taken)
{
    if (*least == 0 || taken < *least)
        *least = taken;
}

static double time_pull(Pull *pull, const int32_t *clips, const uint8_t *file, size_t len, uint8_t *list, uint64_t *result)
{
    double from = seconds();
    pull(clips, CLIPS * EXPORTER_CLIP_WORDS, file, len, BUDGET, list, LIST, result, EXPORTER_FLATTEN_SLOTS);
    return seconds() - from;
}

int main(void)
{
    static Sheet s;
    static uint8_t linear[4096], by_library[LIST], by_plain[LIST];
    static int32_t clips[CLIPS * EXPORTER_CLIP_WORDS];
    uint64_t result[EXPORTER_FLATTEN_SLOTS], library_result[EXPORTER_FLATTEN_SLOTS];
    double library = 0, plain = 0;
    write_rule(&s);
    plain_flatten(s.bytes, sheet_length(&s), linear, sizeof linear, result, EXPORTER_FLATTEN_SLOTS);
    size_t len = result[EXPORTER_LENGTH_OR_PLACE];
    for (int32_t k = 0; k < CLIPS; k++) {
        const int32_t clip[] = { 86400 + 40 * k, 86500 + 41 * k, 3, 2, 8, 8, 0, 50000 };
        memcpy(clips + EXPORTER_CLIP_WORDS * k, clip, sizeof clip);
    }
    for (unsigned round = 0; round < ROUNDS; round++) {
        keep_least(&library, time_pull(exporter_pull_list, clips, linear, len, by_library, library_result));
        keep_least(&plain, time_pull(plain_pull_list, clips, linear, len, by_plain, result));
    }
    if (result[EXPORTER_REFUSAL] != 0 || memcmp(result, library_result, sizeof result) != 0 || memcmp(by_library, by_plain, LIST) != 0) {
        printf("bench: the two lists differ, or the rule is refused\n");
        return 1;
    }
    printf("pull list, %d clips, a rule of %d steps, microseconds:  library %.1f  plain %.1f  ratio %.2f\n", CLIPS, STEPS, 1e6 * library, 1e6 * plain,
           library / plain);
    return 0;
}
