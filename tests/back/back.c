/* back hostile: a linear file of 262,144 bytes whose offsets nest to level 16 all over, so that each byte is passed on each level; how long it takes.
   back [ROOM] < LINEAR: writes the tree file that a linear file goes back to, or its refusal (tests/plain/convert.h). */
#include "../../include/exporter.h"
#include "../plain/convert.h"
#include "nest.h"

#include <inttypes.h>
#include <stdio.h>
#include <string.h>
#include <time.h>

/* Least of five times, in milliseconds; the answer has to be 32, place 0, since only the tree's length stands in the way. */
static int hostile(void)
{
    enum { SIZE = EXPORTER_LINEAR_FILE, CHAIN = 65538 };
    static uint8_t linear[SIZE], out[EXPORTER_TREE_FILE];
    uint64_t result[EXPORTER_FLATTEN_SLOTS];
    double least = 1e9;
    linear[0] = 1;
    memcpy(linear + 2, (uint8_t[]){ (SIZE - 5) >> 16, (SIZE - 5) >> 8 & 255, (SIZE - 5) & 255 }, 3);
    memset(linear + 5, 12, SIZE - 6);
    for (size_t at = 5; at + CHAIN < SIZE; at += CHAIN)
        nest(linear + at, CHAIN, 15);
    linear[SIZE - 1] = 1;
    for (unsigned i = 0; i < 5; i++) {
        clock_t start = clock();
        exporter_back(linear, SIZE, out, sizeof out, result, EXPORTER_FLATTEN_SLOTS);
        double took = (double)(clock() - start) * 1000 / CLOCKS_PER_SEC;
        least = took < least ? took : least;
    }
    printf("hostile offsets: %" PRIu64 " %" PRIu64 ", %.1f ms\n", result[EXPORTER_REFUSAL], result[EXPORTER_LENGTH_OR_PLACE], least);
    return result[EXPORTER_REFUSAL] == 32 && result[EXPORTER_LENGTH_OR_PLACE] == 0 && least < 1000 ? 0 : 1;
}

int main(int count, char **words)
{
    if (count > 1 && strcmp(words[1], "hostile") == 0)
        return hostile();
    return convert(exporter_back, EXPORTER_LINEAR_FILE, count > 1 ? words[1] : NULL);
}
