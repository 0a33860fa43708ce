/* The library from C: flattens a sheet from standard input (sheet P2 of document 01 where there is none), runs it on both
   machines and tells what happened; hands integers to a sheet in a global; and runs a vendor's rules after one of the house, on one table of
   globals. The script run compiles it as C and as C++. */
#include "../../include/exporter.h"

#include <inttypes.h>
#include <stdbool.h>
#include <stdio.h>
#include <string.h>

static const uint8_t p2[] = {
    0x01, 0x02, 0x60, 0x00, 0x00, 0x00, 0x3B, 0x00, 0x00, 0x00, 0x01,
    0x4C, 0x02, 0xC1, 0x98, 0x08, 0x06, 0x01, 0x03, 0x2C, 0x10, 0x00
};

/* global 1, whose entry is global 0; return */
static const uint8_t read_global[] = { 0x01, 0x01, 0x80, 0x10, 0x02, 0x10, 0x00 };

/* `literal 1, set-global! 2, return`: 7 to global 0, which is the house's */
static const uint8_t house_rule[] = { 0x01, 0x02, 0x60, 0x00, 0x00, 0x00, 0x3C, 0x00, 0x60, 0x14, 0x81, 0x04, 0x00 };

/* `global 1, set-global! 2, return`: what is the house's, global 0, to the vendor's global 70; and the other way round */
static const uint8_t vendor_rule[] = { 0x01, 0x02, 0x80, 0x24, 0x64, 0x00, 0xA4, 0x08, 0x20 };
static const uint8_t meddling_rule[] = { 0x01, 0x02, 0x91, 0xA0, 0x04, 0x00, 0xA4, 0x08, 0x20 };

typedef struct {
    uint64_t globals[EXPORTER_GLOBALS], stack[EXPORTER_STACK], store[EXPORTER_STORE], frames[EXPORTER_FRAMES];
} Memory;

static void tell_answer(uint64_t cell)
{
    if (exporter_is_integer(cell))
        printf("halted with the integer %" PRId64, exporter_integer_of(cell));
    else
        printf("halted with the cell %016" PRIx64, cell);
}

static void tell_run(const char *machine, const uint64_t *result)
{
    printf("%s: ", machine);
    switch (result[EXPORTER_END]) {
    case EXPORTER_HALTED: tell_answer(result[EXPORTER_ANSWER]); break;
    case EXPORTER_WRONG: printf("went wrong by %" PRIu64, result[EXPORTER_NUMBER]); break;
    case EXPORTER_OUT_OF_BUDGET: printf("ran out of its budget"); break;
    default: printf("refused by %" PRIu64 " at %" PRIu64 "\n", result[EXPORTER_NUMBER], result[EXPORTER_PLACE]); return;
    }
    printf(" after %" PRIu64 " steps; %" PRIu64 " stack, %" PRIu64 " store and %" PRIu64 " frame cells in use\n",
           result[EXPORTER_STEPS], result[EXPORTER_ON_STACK], result[EXPORTER_IN_STORE], result[EXPORTER_IN_FRAMES]);
}

static void set_globals_undefined(Memory *m)
{
    for (unsigned g = 0; g < EXPORTER_GLOBALS; g++)
        m->globals[g] = UINT64_C(5) << 60;
}

static void tell_integer(Memory *m, int64_t integer)
{
    uint64_t result[EXPORTER_RUN_SLOTS];
    set_globals_undefined(m);
    m->globals[0] = exporter_integer_cell(integer);
    printf("global 0 is %016" PRIx64 "; ", m->globals[0]);
    exporter_run_tree(read_global, sizeof read_global, EXPORTER_TREE_BUDGET, EXPORTER_HOUSE, m->globals, EXPORTER_GLOBALS, m->stack, EXPORTER_STACK,
                      m->store, EXPORTER_STORE, m->frames, EXPORTER_FRAMES, result, EXPORTER_RUN_SLOTS);
    tell_run("tree machine", result);
}

static void tell_integers(Memory *m)
{
    tell_integer(m, 7);
    tell_integer(m, -1);
    tell_integer(m, EXPORTER_INTEGER_MAX);
    tell_integer(m, EXPORTER_INTEGER_MIN);
}

static void run_as(uint64_t owner, const uint8_t *rule, size_t length, Memory *m, const char *whose)
{
    uint64_t result[EXPORTER_RUN_SLOTS];
    exporter_run_tree(rule, length, EXPORTER_TREE_BUDGET, owner, m->globals, EXPORTER_GLOBALS, m->stack, EXPORTER_STACK,
                      m->store, EXPORTER_STORE, m->frames, EXPORTER_FRAMES, result, EXPORTER_RUN_SLOTS);
    tell_run(whose, result);
}

/* One table of globals: what the house left is what a vendor's rule finds, and after it the house's part is as it was. */
static void run_vendor_after_house(Memory *m)
{
    set_globals_undefined(m);
    run_as(EXPORTER_HOUSE, house_rule, sizeof house_rule, m, "the house's rule");
    uint64_t left = m->globals[0];
    run_as(EXPORTER_VENDOR, vendor_rule, sizeof vendor_rule, m, "a vendor's rule");
    run_as(EXPORTER_VENDOR, meddling_rule, sizeof meddling_rule, m, "a vendor's rule that sets the house's");
    printf("global 0 is %s, global 70 is %s\n", m->globals[0] == left ? "what the house left" : "another",
           m->globals[70] == left ? "the same" : "another");
}

int main(void)
{
    static uint8_t sheet[EXPORTER_TREE_FILE + 1], linear[EXPORTER_LINEAR_FILE];
    static Memory m;
    uint64_t flattened[EXPORTER_FLATTEN_SLOTS], result[EXPORTER_RUN_SLOTS];
    size_t length = fread(sheet, 1, sizeof sheet, stdin);
    bool own = length == 0;
    if (own) {
        memcpy(sheet, p2, sizeof p2);
        length = sizeof p2;
        tell_integers(&m);
    }

    exporter_flatten(sheet, length, linear, sizeof linear, flattened, EXPORTER_FLATTEN_SLOTS);
    if (flattened[EXPORTER_REFUSAL] != 0) {
        printf("refused by %" PRIu64 " at %" PRIu64 "\n", flattened[EXPORTER_REFUSAL], flattened[EXPORTER_LENGTH_OR_PLACE]);
        return 0;
    }
    size_t linear_length = flattened[EXPORTER_LENGTH_OR_PLACE];
    printf("%zu bytes flatten to %zu:", length, linear_length);
    for (size_t i = 0; i < linear_length; i++)
        printf(" %02X", linear[i]);
    printf("\n");

    set_globals_undefined(&m);
    exporter_run_tree(sheet, length, EXPORTER_TREE_BUDGET, EXPORTER_HOUSE, m.globals, EXPORTER_GLOBALS, m.stack, EXPORTER_STACK,
                      m.store, EXPORTER_STORE, m.frames, EXPORTER_FRAMES, result, EXPORTER_RUN_SLOTS);
    tell_run("tree machine", result);

    set_globals_undefined(&m);
    exporter_run_linear(linear, linear_length, EXPORTER_LINEAR_BUDGET, EXPORTER_HOUSE, m.globals, EXPORTER_GLOBALS, m.stack, EXPORTER_STACK,
                        m.store, EXPORTER_STORE, m.frames, EXPORTER_FRAMES, result, EXPORTER_RUN_SLOTS);
    tell_run("linear machine", result);
    if (own)
        run_vendor_after_house(&m);
    return 0;
}
