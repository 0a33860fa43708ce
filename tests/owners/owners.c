/* owners tree|linear SHEET CASE: runs a sheet, or the linear file that it flattens to, with the owner, the budget and the starting globals of a case,
   and tells how the run ended, as the vectors of document 02's request 12 do. A case has lines `owner N`, `budget N`, `global N CELL`.
   The vectors' integers have 48 bits (request 7): they are turned into the library's cells and back, as wide as those are. */
#include "../../include/exporter.h"

#include <inttypes.h>
#include <stdio.h>
#include <string.h>

enum { UNDEFINED_TAG = 5, INTEGER_TAG = 6, VECTOR_SHIFT = 12 };

static uint8_t file[EXPORTER_TREE_FILE], linear[EXPORTER_LINEAR_FILE];
static uint64_t globals[EXPORTER_GLOBALS], stack[EXPORTER_STACK], store[EXPORTER_STORE], frames[EXPORTER_FRAMES], result[EXPORTER_RUN_SLOTS];

static void run(int tree, const uint8_t *bytes, size_t length, uint64_t budget, uint64_t owner)
{
    (tree ? exporter_run_tree : exporter_run_linear)(bytes, length, budget, owner, globals, EXPORTER_GLOBALS, stack, EXPORTER_STACK, store,
                                                     EXPORTER_STORE, frames, EXPORTER_FRAMES, result, EXPORTER_RUN_SLOTS);
}

static void set_globals_undefined(void)
{
    for (unsigned g = 0; g < EXPORTER_GLOBALS; g++)
        globals[g] = (uint64_t)UNDEFINED_TAG << 60;
}

/* How far up the library's integers stand in their cells: where the sheet `literal 1, return` has the 1. */
static unsigned library_shift(void)
{
    static const uint8_t one[] = { 0x01, 0x01, 0x60, 0x00, 0x00, 0x00, 0x09, 0x80, 0x42, 0x00 };
    unsigned shift = 0;
    set_globals_undefined();
    run(1, one, sizeof one, 2, EXPORTER_HOUSE);
    while (shift < 60 && (result[EXPORTER_ANSWER] >> shift & 1) == 0)
        shift++;
    return shift;
}

/* An integer's bits moved from one place in the cell to another, the sign kept; other cells stay. */
static uint64_t moved(uint64_t cell, unsigned from, unsigned to)
{
    if (cell >> 60 != INTEGER_TAG)
        return cell;
    int64_t value = (int64_t)(cell << 4) >> (from + 4);
    return (uint64_t)INTEGER_TAG << 60 | (uint64_t)value << (to + 4) >> 4;
}

static void tell_answer(uint64_t cell)
{
    static const char *const words[] = { [1] = "false", [2] = "true", [3] = "null", [4] = "unspecified", [7] = "procedure", [8] = "pair" };
    if (cell >> 60 == INTEGER_TAG)
        printf("end halted %" PRId64 "\n", (int64_t)(cell << 4) >> (VECTOR_SHIFT + 4));
    else
        printf("end halted %s\n", words[cell >> 60]);
}

static void tell(unsigned shift)
{
    uint64_t answer = moved(result[EXPORTER_ANSWER], shift, VECTOR_SHIFT);
    if (result[EXPORTER_END] == EXPORTER_HALTED)
        tell_answer(answer);
    else if (result[EXPORTER_END] == EXPORTER_REFUSED)
        printf("end refused %" PRIu64 " %" PRIu64 "\n", result[EXPORTER_NUMBER], result[EXPORTER_PLACE]);
    else
        printf("end wrong %" PRIu64 "\n", result[EXPORTER_NUMBER]);
    printf("answer %016" PRIx64 "\nsteps %" PRIu64 "\n", answer, result[EXPORTER_STEPS]);
    printf("used %" PRIu64 " %" PRIu64 " %" PRIu64 "\n", result[EXPORTER_ON_STACK], result[EXPORTER_IN_STORE], result[EXPORTER_IN_FRAMES]);
    for (unsigned g = 0; g < EXPORTER_GLOBALS; g++)
        if (globals[g] != (uint64_t)UNDEFINED_TAG << 60)
            printf("global %u %016" PRIx64 "\n", g, moved(globals[g], shift, VECTOR_SHIFT));
}

static void read_case(FILE *from, unsigned shift, uint64_t *owner, uint64_t *budget)
{
    char word[16];
    uint64_t number, cell;
    while (fscanf(from, "%15s %" SCNu64, word, &number) == 2)
        if (strcmp(word, "owner") == 0)
            *owner = number;
        else if (strcmp(word, "budget") == 0)
            *budget = number;
        else if (number < EXPORTER_GLOBALS && fscanf(from, "%" SCNx64, &cell) == 1)
            globals[number] = moved(cell, VECTOR_SHIFT, shift);
}

int main(int argc, char **argv)
{
    FILE *sheet = argc == 4 ? fopen(argv[2], "rb") : NULL, *given = argc == 4 ? fopen(argv[3], "r") : NULL;
    if (sheet == NULL || given == NULL)
        return 2;
    int tree = strcmp(argv[1], "tree") == 0;
    size_t length = fread(file, 1, sizeof file, sheet);
    uint64_t flattened[EXPORTER_FLATTEN_SLOTS], owner = 0, budget = 0;
    unsigned shift = library_shift();
    set_globals_undefined();
    read_case(given, shift, &owner, &budget);
    exporter_flatten(file, length, linear, sizeof linear, flattened, EXPORTER_FLATTEN_SLOTS);
    run(tree, tree ? file : linear, tree ? length : flattened[EXPORTER_REFUSAL] == 0 ? flattened[EXPORTER_LENGTH_OR_PLACE] : 0, budget, owner);
    tell(shift);
    return 0;
}
