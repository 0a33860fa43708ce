/* Measures the way back from linear files of growing length, library against plain C, in this run and by turns: the least processor time of many rounds.
   flat: straight code; deep: open conditionals that nest to level 16 all over, so that the end of a first arm is looked for on each level. */
#define _POSIX_C_SOURCE 199309L

#include "../tests/back/nest.h"
#include "../tests/plain/library.h"
#include "../tests/plain/plain.h"

#include <stdio.h>
#include <string.h>
#include <time.h>

enum { CHAIN = 65538, LEVELS = 15 };

typedef void Back(const uint8_t *, size_t, uint8_t *, size_t, uint64_t *, size_t);

static uint8_t linear[EXPORTER_LINEAR_FILE], out[EXPORTER_TREE_FILE];

static double seconds(void)
{
    struct timespec now;
    clock_gettime(CLOCK_PROCESS_CPUTIME_ID, &now);
    return (double)now.tv_sec + 1e-9 * (double)now.tv_nsec;
}

static void make(size_t size, int deep)
{
    size_t code = size - 5;
    memset(linear, 0, 5);
    linear[0] = 1;
    linear[2] = (uint8_t)(code >> 16), linear[3] = (uint8_t)(code >> 8), linear[4] = (uint8_t)code;
    memset(linear + 5, 12, code - 1);
    for (size_t at = 5; deep && at + 200 < size; at += CHAIN)
        nest(linear + at, at + CHAIN < size ? CHAIN : size - 1 - at, LEVELS);
    linear[size - 1] = 1;
}

static double least_time(Back *back, size_t size)
{
    double least = 1e9;
    uint64_t result[2];
    for (size_t round = 0; round < 5 + 2000000 / size; round++) {
        double start = seconds();
        back(linear, size, out, sizeof out, result, 2);
        double took = seconds() - start;
        least = took < least ? took : least;
    }
    return least;
}

int main(void)
{
    printf("microseconds for the way back        flat                      deep\n     bytes   library    plain  ratio   library    plain  ratio\n");
    for (size_t size = 1024; size <= EXPORTER_LINEAR_FILE; size *= 4) {
        printf("%10zu", size);
        for (int deep = 0; deep < 2; deep++) {
            make(size, deep);
            double library = least_time(exporter_back, size), plain = least_time(plain_back, size);
            printf(" %9.1f %8.1f %6.2f", 1e6 * library, 1e6 * plain, library / plain);
        }
        printf("\n");
    }
    return 0;
}
