/* The program of document 01 over the plain implementation: a sheet on standard input, three lines out. */
#include "plain.h"

#include <inttypes.h>
#include <stdio.h>

enum { SHEET = 4096, GLOBALS = 256, STACK = 256, STORE = 2048, FRAMES = 2048, HOUSE = 0 };

typedef void Run(const uint8_t *, size_t, uint64_t, uint64_t, uint64_t *, size_t, uint64_t *, size_t, uint64_t *, size_t,
                 uint64_t *, size_t, uint64_t *, size_t);

/* 48 bits after the tag, two's complement */
static int64_t integer_of(uint64_t cell)
{
    int64_t bits = (int64_t)(cell >> 12 & UINT64_C(0xffffffffffff));
    return bits < INT64_C(0x800000000000) ? bits : bits - INT64_C(0x1000000000000);
}

static void print_answer(uint64_t cell)
{
    static const char *const words[] = {
        [1] = "false", [2] = "true", [3] = "null", [4] = "unspecified", [7] = "procedure", [8] = "pair"
    };
    if (cell >> 60 == 6)
        printf("%" PRId64, integer_of(cell));
    else
        printf("%s", words[cell >> 60]);
}

static void print_run(const char *machine, Run *run, const uint8_t *file, size_t len, uint64_t budget)
{
    static uint64_t globals[GLOBALS], stack[STACK], store[STORE], frames[FRAMES];
    uint64_t result[8];
    for (unsigned g = 0; g < GLOBALS; g++)
        globals[g] = UINT64_C(5) << 60;
    run(file, len, budget, HOUSE, globals, GLOBALS, stack, STACK, store, STORE, frames, FRAMES, result, 8);
    if (result[0] == 0) {
        printf("%s halted ", machine);
        print_answer(result[3]);
        printf(" %" PRIu64 "\n", result[4]);
    } else {
        printf("%s wrong %" PRIu64 " %" PRIu64 "\n", machine, result[1], result[4]);
    }
}

int main(void)
{
    static uint8_t sheet[SHEET + 1], linear[8 * SHEET];
    uint64_t result[2];
    size_t len = fread(sheet, 1, sizeof sheet, stdin);
    if (len > SHEET) {
        puts("refused 1 0");
        return 0;
    }
    plain_flatten(sheet, len, linear, sizeof linear, result, 2);
    if (result[0] != 0) {
        printf("refused %" PRIu64 " %" PRIu64 "\n", result[0], result[1]);
        return 0;
    }
    printf("linear %" PRIu64 "\n", result[1]);
    print_run("tabular", plain_run_tree, sheet, len, 1000000);
    print_run("flat", plain_run_linear, linear, result[1], 2000000);
    return 0;
}
