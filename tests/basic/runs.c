/* runs FILE: runs a basic file, owner house, all globals undefined, budget 1,000,000, and tells how the run ended, as the vectors of document 02's
   request 6 do: end and answer, the answer's cell, steps, used cells, and every global that is not undefined. */
#include "../plain/library.h"

#include <inttypes.h>
#include <stdio.h>

enum { UNDEFINED_TAG = 5, INTEGER_TAG = 6, BELOW_INTEGER = 12, GLOBALS = 256, LARGEST = 65537 };

static uint8_t file[LARGEST];
static uint64_t globals[GLOBALS], stack[256], store[2048], frames[2048], result[8];

static void tell_end(void)
{
    static const char *const words[] = { [1] = "false", [2] = "true", [3] = "null", [4] = "unspecified", [7] = "procedure", [8] = "pair" };
    if (result[0] == 3)
        printf("end refused %" PRIu64 " %" PRIu64 "\n", result[1], result[2]);
    else if (result[0] != 0)
        printf("end wrong %" PRIu64 "\n", result[1]);
    else if (result[3] >> 60 == INTEGER_TAG)
        printf("end halted %" PRId64 "\n", (int64_t)(result[3] << 4) >> (BELOW_INTEGER + 4));
    else
        printf("end halted %s\n", words[result[3] >> 60]);
}

int main(int argc, char **argv)
{
    FILE *from = argc == 2 ? fopen(argv[1], "rb") : NULL;
    if (from == NULL)
        return 2;
    size_t length = fread(file, 1, sizeof file, from);
    for (unsigned g = 0; g < GLOBALS; g++)
        globals[g] = (uint64_t)UNDEFINED_TAG << 60;
    exporter_run_basic(file, length, 1000000, 0, globals, GLOBALS, stack, 256, store, 2048, frames, 2048, result, 8);
    tell_end();
    printf("answer %016" PRIx64 "\nsteps %" PRIu64 "\nused %" PRIu64 " %" PRIu64 " %" PRIu64 "\n", result[3], result[4], result[5], result[6], result[7]);
    for (unsigned g = 0; g < GLOBALS; g++)
        if (globals[g] != (uint64_t)UNDEFINED_TAG << 60)
            printf("global %u %016" PRIx64 "\n", g, globals[g]);
    return 0;
}
