/* Measures joining a prologue of one instruction and sheets of growing length, library against plain C and against the library's flattener on the same sheet,
   by turns: the least processor time of many rounds. one: all code in the first template, which is written again with new indices; many: 16 templates, of
   which 15 are copied; deep: one template whose lists nest to level 16 all over. */
#define _POSIX_C_SOURCE 199309L

#include "../tests/plain/library.h"
#include "../tests/plain/plain.h"
#include "../tests/plain/sheet.h"

#include <stdio.h>
#include <stdlib.h>
#include <string.h>
#include <time.h>

enum { ONE, MANY, DEEP, SHAPES };

static Sheet prologue, sheet;
static uint8_t joined[EXPORTER_TREE_FILE], by_plain[EXPORTER_TREE_FILE], linear[EXPORTER_LINEAR_FILE];
static uint64_t result[2];

static double seconds(void)
{
    struct timespec now;
    clock_gettime(CLOCK_PROCESS_CPUTIME_ID, &now);
    return (double)now.tv_sec + 1e-9 * (double)now.tv_nsec;
}

static void put_arm(unsigned level)
{
    put1(&sheet, LITERAL, 1);
    put0(&sheet, PUSH);
    put2(&sheet, LOCAL, 1, 2);
    if (level > 0) {
        put0(&sheet, UNLESS_FALSE);
        put_arm(level - 1);
        put_arm(0);
    }
    put1(&sheet, LITERAL, 1);
    put0(&sheet, CAR);
    put0(&sheet, END);
}

/* A conditional whose first arm nests so many levels deep. */
static void put_block(unsigned levels)
{
    put0(&sheet, UNLESS_FALSE);
    put_arm(levels - 1);
    put_arm(0);
}

static void make(size_t size, int shape)
{
    unsigned templates = shape == MANY ? 16 : 1;
    sheet_begin(&prologue, 1);
    put_field(&prologue, 8, 1);
    put_integer(&prologue, 5);
    put1(&prologue, LITERAL, 1);
    put0(&prologue, END);
    sheet_begin(&sheet, templates);
    for (unsigned t = 0; t < templates; t++) {
        size_t limit = 8 * (size - 16) * (t + 1) / templates - 8, block = 0;
        put_field(&sheet, 8, t + 1 < templates ? 2 : 1);
        put_integer(&sheet, 7);
        if (t + 1 < templates) {
            put_number(&sheet, TEMPLATE_ENTRY, t + 1);
            put1(&sheet, CLOSURE, 2);
        }
        while (sheet.bits + block + 10 <= limit) {
            size_t from = sheet.bits;
            put_block(shape == DEEP ? 15 : 3);
            block = sheet.bits - from;
        }
        put0(&sheet, RETURN);
        put0(&sheet, END);
    }
}

static double time_join(Join *join, uint8_t *out)
{
    double start = seconds();
    join(prologue.bytes, sheet_length(&prologue), sheet.bytes, sheet_length(&sheet), out, EXPORTER_TREE_FILE, result, 2);
    return seconds() - start;
}

static double time_flatten(void)
{
    double start = seconds();
    exporter_flatten(sheet.bytes, sheet_length(&sheet), linear, sizeof linear, result, 2);
    return seconds() - start;
}

static double least(double a, double b)
{
    return a < b ? a : b;
}

static void check(const char *what)
{
    if (result[0] == 0)
        return;
    fprintf(stderr, "join: %s refused %d %d\n", what, (int)result[0], (int)result[1]);
    exit(1);
}

int main(void)
{
    static const char *const names[] = { "one", "many", "deep" };
    printf("microseconds to join\n     bytes shape   library    plain  ratio   ns a byte   flattener  ratio\n");
    for (int shape = 0; shape < SHAPES; shape++)
        for (size_t size = 1024; size <= EXPORTER_TREE_FILE; size *= 4) {
            make(size, shape);
            double library = 1, plain = 1, flattener = 1;
            for (size_t round = 0; round < 20 + 4000000 / size; round++) {
                library = least(library, time_join(exporter_join, joined)), check("library");
                size_t length = (size_t)result[1];
                plain = least(plain, time_join(plain_join, by_plain)), check("plain");
                if (result[1] != length || memcmp(joined, by_plain, length) != 0)
                    return fprintf(stderr, "join: the two joined differently\n"), 1;
                flattener = least(flattener, time_flatten()), check("flattener");
            }
            printf("%10zu %5s %9.1f %8.1f %6.2f %11.2f %11.1f %6.2f\n", sheet_length(&sheet), names[shape], 1e6 * library, 1e6 * plain, library / plain,
                   1e9 * library / (double)sheet_length(&sheet), 1e6 * flattener, library / flattener);
        }
    return 0;
}
