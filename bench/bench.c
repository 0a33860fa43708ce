/* bench [raw | show FILE..]: measures the library against two implementations in C on the same sheets, all in this run: one written for speed
   (bench/fast.c), to which the ratios are, and the plain one (tests/plain). Where bench/fast.c is not linked its figures are 0.
   A time is the least of many rounds, the sides in turns, in processor time, once the lowest tenth is dropped: now and then that clock reads too little. Whole
   calls are measured: reading the file and clearing the memories are in them, setting the globals is not. `raw` writes the figures alone; `show` makes the
   tables of the figures of several builds. */
#define _POSIX_C_SOURCE 199309L

#include "../tests/plain/library.h"
#include "../tests/plain/sheet.h"
#include "fast.h"

#include <stdbool.h>
#include <stdio.h>
#include <stdlib.h>
#include <string.h>
#include <time.h>

#pragma weak fast_flatten
#pragma weak fast_run_linear
#pragma weak fast_run_tree

enum { LEAST_ROUNDS = 5, MOST_ROUNDS = 5000, MOST_BUILDS = 16 };
static const double enough_seconds = 0.08, batch_seconds = 30e-6;
static const uint64_t long_budget = 200000;

enum { LIBRARY, FAST, PLAIN, SIDES };

static double seconds(void)
{
    struct timespec now;
    clock_gettime(CLOCK_PROCESS_CPUTIME_ID, &now);
    return (double)now.tv_sec + 1e-9 * (double)now.tv_nsec;
}

/* Sheets. Template 0 puts template 1's procedure into global 0 and enters it; template 1 does so again at its end. */

static void put_loop(Sheet *s, unsigned index)
{
    put1(s, GLOBAL, index);
    put1(s, CALL, 0);
}

static void begin_loop(Sheet *s, unsigned templates)
{
    sheet_begin(s, templates);
    put_field(s, 8, 2);
    put_number(s, GLOBAL_ENTRY, 0);
    put_number(s, TEMPLATE_ENTRY, 1);
    put1(s, CLOSURE, 2);
    put1(s, SET_GLOBAL, 1);
    put_loop(s, 1);
    put0(s, END);
}

/* Entries of a body: 1 the loop's global, 2 and 3 integers, 4 false, 5 another global, and as many others as asked for. */
static void begin_entries(Sheet *s, unsigned others)
{
    put_field(s, 8, 5 + others);
    put_number(s, GLOBAL_ENTRY, 0);
    put_integer(s, 3);
    put_integer(s, -2);
    put_constant(s, FALSE_CONSTANT);
    put_number(s, GLOBAL_ENTRY, 1);
}

static void begin_body(Sheet *s)
{
    begin_entries(s, 0);
}

/* A body that names the next template, so that none is an orphan. */
static void begin_body_before(Sheet *s, unsigned next)
{
    begin_entries(s, 1);
    put_number(s, TEMPLATE_ENTRY, next);
    put1(s, CLOSURE, 6);
}

static void plain_instructions(Sheet *s)
{
    begin_loop(s, 2);
    begin_body(s);
    for (unsigned i = 0; i < 40; i++) {
        put1(s, LITERAL, 2);
        put1(s, SET_GLOBAL, 5);
        put1(s, CHECKARGS, 0);
        put1(s, GLOBAL, 5);
        put0(s, UNSPECIFIED);
    }
    put_loop(s, 1);
    put0(s, END);
}

static void calls(Sheet *s)
{
    begin_loop(s, 2);
    begin_body(s);
    put_loop(s, 1);
    put0(s, END);
}

/* Each round makes a procedure, so the store ends it after some 2,000: short runs, and their start counts. */
static void procedures(Sheet *s)
{
    begin_loop(s, 3);
    put_field(s, 8, 1);
    put_number(s, TEMPLATE_ENTRY, 2);
    put1(s, CLOSURE, 1);
    put1(s, CALL, 0);
    put0(s, END);
    begin_body(s);
    put_loop(s, 1);
    put0(s, END);
}

static void locals(Sheet *s)
{
    sheet_begin(s, 2);
    put_field(s, 8, 3);
    put_number(s, GLOBAL_ENTRY, 0);
    put_number(s, TEMPLATE_ENTRY, 1);
    put_integer(s, 7);
    put1(s, LITERAL, 3);
    for (unsigned layer = 0; layer < 8; layer++) {
        for (unsigned n = 0; n < 4; n++)
            put0(s, PUSH);
        put1(s, MAKE_ENV, 4);
    }
    put1(s, CLOSURE, 2);
    put1(s, SET_GLOBAL, 1);
    put_loop(s, 1);
    put0(s, END);
    begin_body(s);
    for (unsigned i = 0; i < 40; i++) {
        put2(s, LOCAL, 7, 3);
        put2(s, SET_LOCAL, 5, i % 4);
        put2(s, LOCAL, 6, 0);
    }
    put_loop(s, 1);
    put0(s, END);
}

static void put_open_conditional(Sheet *s, unsigned test)
{
    put1(s, LITERAL, test);
    put0(s, UNLESS_FALSE);
    put1(s, LITERAL, 2);
    put0(s, END);
    put1(s, LITERAL, 3);
    put0(s, END);
}

static void conditionals(Sheet *s)
{
    begin_loop(s, 2);
    begin_body(s);
    for (unsigned i = 0; i < 40; i++)
        put_open_conditional(s, i % 2 == 0 ? 2 : 4);
    put_loop(s, 1);
    put0(s, END);
}

static void put_nest(Sheet *s, unsigned level)
{
    put1(s, LITERAL, level % 2 == 0 ? 2 : 4);
    put0(s, UNLESS_FALSE);
    for (unsigned arm = 0; arm < 2; arm++) {
        if (level < 5)
            put_nest(s, level + 1);
        else
            put0(s, UNSPECIFIED);
        put0(s, END);
    }
}

static void nested_conditionals(Sheet *s)
{
    begin_loop(s, 2);
    begin_body(s);
    put_nest(s, 1);
    put_loop(s, 1);
    put0(s, END);
}

static void conts(Sheet *s)
{
    begin_loop(s, 2);
    begin_body(s);
    put1(s, MAKE_CONT, 0);
    put_loop(s, 1);
    put0(s, END);
    for (unsigned i = 0; i < 40; i++) {
        put0(s, PUSH);
        put1(s, MAKE_CONT, 1);
        put0(s, RETURN);
        put0(s, END);
    }
    put0(s, RETURN);
    put0(s, END);
}

static void sums(Sheet *s)
{
    begin_loop(s, 2);
    begin_body(s);
    for (unsigned i = 0; i < 20; i++) {
        for (unsigned n = 0; n < 4; n++) {
            put1(s, LITERAL, 2);
            put0(s, PUSH);
            put1(s, LITERAL, 3);
            put0(s, PUSH);
        }
        put0(s, ADD);
    }
    put_loop(s, 1);
    put0(s, END);
}

/* Sheets for the flattener: four templates, so that no offset is too large, each filled to its part of the length. */

static uint64_t random_state;

static unsigned below(unsigned limit)
{
    random_state ^= random_state << 13;
    random_state ^= random_state >> 7;
    random_state ^= random_state << 17;
    return (unsigned)((random_state >> 33) % limit);
}

static void put_random_neutral(Sheet *s)
{
    switch (below(8)) {
    case 0: put1(s, LITERAL, 2); break;
    case 1: put0(s, PUSH); break;
    case 2: put2(s, LOCAL, below(4), below(4)); break;
    case 3: put1(s, GLOBAL, 1); break;
    case 4: put0(s, UNSPECIFIED); break;
    case 5: put1(s, CHECKARGS, 3); break;
    case 6: put0(s, ADD); break;
    default: put1(s, SET_GLOBAL, 5);
    }
}

static unsigned deepest; /* level of the sheet that was written last */

static void note_level(unsigned level)
{
    if (level > deepest)
        deepest = level;
}

/* Each writes an open list, or the neutrals of a template's, up to about the bit `to`; the list stands at `level`, `last` is the deepest to be used. */
typedef void Shape(Sheet *s, size_t to, unsigned level, unsigned last);

/* One list in another: on each level as much code as on the others. */
static void put_path(Sheet *s, size_t to, unsigned level, unsigned last)
{
    size_t part = (to - s->bits) / (last - level + 1), from = s->bits;
    note_level(level);
    do
        put1(s, LITERAL, 2);
    while (s->bits < from + part);
    if (level < last && s->bits + 50 < to) {
        put0(s, UNLESS_FALSE);
        put_path(s, to - 20, level + 1, last);
        put0(s, END);
        put0(s, UNSPECIFIED);
        put0(s, END);
    }
}

/* Conditionals in both arms, as deep as there is room; the code stands in the innermost. */
static void put_binary(Sheet *s, size_t to, unsigned level, unsigned last)
{
    note_level(level);
    if (level == last || to < s->bits + 60) {
        do
            put1(s, LITERAL, 2);
        while (s->bits + 13 < to);
        return;
    }
    put0(s, UNLESS_FALSE);
    put_binary(s, s->bits + (to - s->bits) / 2, level + 1, last);
    put0(s, END);
    put_binary(s, to < s->bits ? s->bits : to, level + 1, last);
    put0(s, END);
}

/* Neutrals, conditionals and make-conts by chance. A conditional or make-cont takes half of the room that is left or more, in one of its lists the most, so that
   lists come deep. */
static void put_random(Sheet *s, size_t to, unsigned level, unsigned last)
{
    bool after_cont = false;
    note_level(level);
    for (unsigned n = 1 + below(6); n > 0; n--)
        put_random_neutral(s);
    while (s->bits + 60 < to) {
        size_t room = to - s->bits - 50, most = room * (50 + below(46)) / 100, least = (room - most) / 2;
        unsigned kind = below(10), larger = below(2);
        if (kind < 5 || level == last) {
            put_random_neutral(s);
        } else if (kind < 9 || level == 1 || after_cont) {
            put0(s, UNLESS_FALSE);
            for (unsigned arm = 0; arm < 2; arm++) {
                put_random(s, s->bits + (arm == larger ? most : least), level + 1, last);
                put0(s, END);
            }
        } else {
            put1(s, MAKE_CONT, 0);
            put_random(s, s->bits + most, level + 1, last);
            put0(s, END);
            after_cont = true;
        }
    }
    if (after_cont)
        put0(s, RETURN);
}

static void shaped_sheet(Sheet *s, Shape *shape, size_t length, unsigned last)
{
    enum { TEMPLATES = 4 };
    random_state = UINT64_C(88172645463325252);
    deepest = 0;
    sheet_begin(s, TEMPLATES);
    for (unsigned t = 0; t < TEMPLATES; t++) {
        size_t to = 8 * length * (t + 1) / TEMPLATES - 10;
        if (t + 1 < TEMPLATES)
            begin_body_before(s, t + 1);
        else
            begin_body(s);
        shape(s, to - 64, 1, last);
        while (s->bits + 23 < to)
            put1(s, LITERAL, 2);
        put0(s, RETURN);
        put0(s, END);
    }
}

/* Sheets for whole calls */

static void shortest(Sheet *s)
{
    sheet_begin(s, 1);
    put_field(s, 8, 0);
    put0(s, RETURN);
    put0(s, END);
}

static void twenty_steps(Sheet *s)
{
    sheet_begin(s, 1);
    put_field(s, 8, 3);
    put_integer(s, 1000);
    put_integer(s, 7);
    put_number(s, GLOBAL_ENTRY, 6);
    put1(s, LITERAL, 1);
    put0(s, PUSH);
    put1(s, LITERAL, 2);
    put0(s, PUSH);
    put0(s, SUB);
    put1(s, SET_GLOBAL, 3);
    put1(s, GLOBAL, 3);
    put0(s, PUSH);
    put1(s, LITERAL, 2);
    put0(s, PUSH);
    put0(s, FLOOR_DIV);
    put0(s, PUSH);
    put1(s, LITERAL, 1);
    put0(s, PUSH);
    put0(s, LESS);
    put0(s, UNLESS_FALSE);
    put1(s, LITERAL, 1);
    put0(s, END);
    put1(s, LITERAL, 2);
    put0(s, END);
    put0(s, PUSH);
    put0(s, ADD);
    put0(s, RETURN);
    put0(s, END);
}

static void deep_63_kb(Sheet *s)
{
    shaped_sheet(s, put_path, 63 * 1024, 15);
}

static void random_63_kb(Sheet *s)
{
    shaped_sheet(s, put_random, 63 * 1024, 15);
}

/* A sheet as long as sheets go, of lists as deep as they go, run again and again until the budget is spent. */
static void longest(Sheet *s)
{
    begin_loop(s, 2);
    begin_body(s);
    while (s->bits + 2200 <= 8 * (size_t)EXPORTER_TREE_FILE) {
        put0(s, UNLESS_FALSE);
        put_path(s, s->bits + 2000, 2, 16);
        put0(s, END);
        put0(s, UNSPECIFIED);
        put0(s, END);
    }
    while (s->bits + 5 + 64 <= 8 * (size_t)EXPORTER_TREE_FILE)
        put0(s, UNSPECIFIED);
    put_loop(s, 1);
    put0(s, END);
}

/* Measuring */

typedef struct {
    double side[SIDES]; /* 0: not linked */
} Times;

static Convert *const flatteners[SIDES] = { exporter_flatten, fast_flatten, plain_flatten };
static Run *const linear_machines[SIDES] = { exporter_run_linear, fast_run_linear, plain_run_linear };
static Run *const tree_machines[SIDES] = { exporter_run_tree, fast_run_tree, plain_run_tree };

/* A call to be measured: a run, or flattening where there is no machine. */
typedef struct {
    Run *const *machines;
    const uint8_t *file;
    size_t length;
    uint64_t budget;
    bool sets_procedures; /* into globals, which no run may start with */
} Call;

static uint64_t globals[EXPORTER_GLOBALS], stack[EXPORTER_STACK], store[EXPORTER_STORE], frames[EXPORTER_FRAMES];
static uint8_t out[SIDES][EXPORTER_LINEAR_FILE];

static void stop(const char *why)
{
    printf("\nbench: %s\n", why);
    exit(1);
}

static void clear_globals(void)
{
    for (unsigned g = 0; g < EXPORTER_GLOBALS; g++)
        globals[g] = UINT64_C(5) << 60;
}

static double time_calls(const Call *call, unsigned side, unsigned count, uint64_t *result)
{
    clear_globals();
    double from = seconds();
    for (; count > 0; count--) {
        if (call->machines == NULL)
            flatteners[side](call->file, call->length, out[side], sizeof out[side], result, EXPORTER_FLATTEN_SLOTS);
        else
            call->machines[side](call->file, call->length, call->budget, EXPORTER_HOUSE, globals, EXPORTER_GLOBALS, stack, EXPORTER_STACK, store,
                                 EXPORTER_STORE, frames, EXPORTER_FRAMES, result, EXPORTER_RUN_SLOTS);
    }
    return seconds() - from;
}

/* How many calls take long enough to be timed. */
static unsigned batch_of(const Call *call, unsigned side)
{
    uint64_t result[EXPORTER_RUN_SLOTS];
    double taken = time_calls(call, side, 1, result);
    return call->sets_procedures || taken > batch_seconds ? 1 : 1 + (unsigned)(batch_seconds / taken);
}

static void compare(const Call *call, uint64_t results[SIDES][EXPORTER_RUN_SLOTS])
{
    for (unsigned side = FAST; side < SIDES; side++) {
        if (flatteners[side] == NULL)
            continue;
        if (memcmp(results[LIBRARY], results[side], sizeof results[side]) != 0)
            stop("two sides ended differently");
        if (call->machines == NULL && memcmp(out[LIBRARY], out[side], results[side][EXPORTER_LENGTH_OR_PLACE]) != 0)
            stop("two sides flattened differently");
    }
}

static int by_size(const void *a, const void *b)
{
    double x = *(const double *)a, y = *(const double *)b;
    return (x > y) - (x < y);
}

/* Seconds a call; what it gave is in result. */
static Times time_sides(const Call *call, uint64_t *result)
{
    static uint64_t results[SIDES][EXPORTER_RUN_SLOTS];
    static double taken[SIDES][MOST_ROUNDS];
    unsigned batch[SIDES] = { 0 }, round;
    Times times = { { 0 } };
    memset(results, 0, sizeof results);
    for (unsigned side = 0; side < SIDES; side++)
        batch[side] = flatteners[side] == NULL ? 0 : batch_of(call, side);
    double since = seconds();
    for (round = 0; round < LEAST_ROUNDS || (round < MOST_ROUNDS && seconds() - since < enough_seconds); round++)
        for (unsigned side = 0; side < SIDES; side++)
            if (batch[side] > 0)
                taken[side][round] = time_calls(call, side, batch[side], results[side]) / batch[side];
    for (unsigned side = 0; side < SIDES; side++)
        if (batch[side] > 0) {
            qsort(taken[side], round, sizeof taken[side][0], by_size);
            times.side[side] = taken[side][round / 10];
        }
    compare(call, results);
    memcpy(result, results[PLAIN], sizeof results[PLAIN]);
    return times;
}

static uint8_t linear[EXPORTER_LINEAR_FILE];

static size_t flatten_once(const Sheet *s)
{
    uint64_t result[EXPORTER_FLATTEN_SLOTS];
    plain_flatten(s->bytes, sheet_length(s), linear, sizeof linear, result, EXPORTER_FLATTEN_SLOTS);
    if (result[EXPORTER_REFUSAL] != 0)
        stop("a sheet is refused");
    return result[EXPORTER_LENGTH_OR_PLACE];
}

/* Figures, of one build that is measured or of several that are shown */

typedef enum { MEASURE, RAW, SHOW } Mode;

static Mode mode;
static unsigned builds = 1;
static FILE *files[MOST_BUILDS];

typedef struct {
    Times build[MOST_BUILDS];
} Row;

/* Of one build, for `each` steps or bytes or whatever is counted, in such units. */
static Times measured(const Call *call, bool by_steps, double each, double unit)
{
    uint64_t result[EXPORTER_RUN_SLOTS];
    Times times = time_sides(call, result);
    if (by_steps)
        each = (double)result[EXPORTER_STEPS];
    for (unsigned side = 0; side < SIDES; side++)
        times.side[side] /= each * unit;
    if (mode == RAW)
        printf("%.9g %.9g %.9g\n", times.side[LIBRARY], times.side[FAST], times.side[PLAIN]);
    return times;
}

static Row figures(const Call *call, bool by_steps, double each, double unit)
{
    Row row;
    if (mode != SHOW) {
        row.build[0] = measured(call, by_steps, each, unit);
        return row;
    }
    for (unsigned b = 0; b < builds; b++) {
        double *side = row.build[b].side;
        if (fscanf(files[b], "%lf %lf %lf", &side[LIBRARY], &side[FAST], &side[PLAIN]) != SIDES)
            stop("figures are missing");
    }
    return row;
}

static double lesser(double a, double b)
{
    return a < b ? a : b;
}

static double greater(double a, double b)
{
    return a > b ? a : b;
}

static double least_of(const Row *row, unsigned side)
{
    double least = row->build[0].side[side];
    for (unsigned b = 1; b < builds; b++)
        least = lesser(least, row->build[b].side[side]);
    return least;
}

/* The root of a product of so many, by halves. */
static double root(double product, unsigned count)
{
    double low = 0, high = greater(1, product);
    for (unsigned i = 0; i < 400; i++) {
        double middle = (low + high) / 2, power = 1;
        for (unsigned n = 0; n < count; n++)
            power *= middle;
        *(power <= product ? &low : &high) = middle;
    }
    return low;
}

typedef struct {
    double mean, least, most;
} Ratio;

/* Geometric mean over the builds, and the least and greatest. */
static Ratio ratio(const Row *row, unsigned to)
{
    Ratio r = { 1, 0, 0 };
    for (unsigned b = 0; b < builds; b++) {
        double of_side = row->build[b].side[to], one = of_side == 0 ? 0 : row->build[b].side[LIBRARY] / of_side;
        r.mean *= one;
        r.least = b == 0 ? one : lesser(r.least, one);
        r.most = greater(r.most, one);
    }
    r.mean = root(r.mean, builds);
    return r;
}

/* Geometric means of a table's ratios */
typedef struct {
    double products[SIDES];
    unsigned count;
} Means;

static const Means no_means = { { 1, 1, 1 }, 0 };

static void add_ratio(Means *means, const Row *row)
{
    for (unsigned side = FAST; side < SIDES; side++)
        means->products[side] *= ratio(row, side).mean;
    means->count++;
}

static double mean_of(const Means *means, unsigned side)
{
    return root(means->products[side], means->count);
}

/* Tables */

#define PRINT(...) \
    do { \
        if (mode != RAW) { \
            printf(__VA_ARGS__); \
            fflush(stdout); \
        } \
    } while (0)

static void print_row(const char *name, const Row *row, int digits, Means *means)
{
    Ratio to_fast = ratio(row, FAST);
    add_ratio(means, row);
    PRINT("%-36s%10.*f %9.*f %9.*f %8.2f (%.2f to %.2f) %9.2f\n", name, digits, least_of(row, LIBRARY), digits, least_of(row, FAST), digits,
          least_of(row, PLAIN), to_fast.mean, to_fast.least, to_fast.most, ratio(row, PLAIN).mean);
}

static void print_head(const char *what)
{
    PRINT("%-36s%10s %9s %9s %8s %14s %9s\n", what, "library", "fast C", "plain C", "to fast", "by build", "to plain");
}

static void print_means(const Means *means)
{
    PRINT("%-36s%10s %9s %9s %8.2f %14s %9.2f\n\n", "geometric mean", "", "", "", mean_of(means, FAST), "", mean_of(means, PLAIN));
}

typedef struct {
    const char *name;
    void (*write)(Sheet *);
} Named;

static void bench_steps(const char *what, Run *const machines[SIDES])
{
    static const Named shapes[] = {
        { "plain instructions", plain_instructions }, { "calls", calls }, { "procedures, short runs", procedures }, { "locals, 5 to 7 out", locals },
        { "conditionals", conditionals }, { "nested conditionals", nested_conditionals }, { "conts and returns", conts }, { "sums of 8", sums }
    };
    static double by_linear[sizeof shapes / sizeof shapes[0]]; /* the library's times, to be compared with */
    static Sheet s;
    Means means = no_means;
    double least = 0, most = 0;
    bool flat = machines == linear_machines;
    print_head(what);
    for (unsigned i = 0; i < sizeof shapes / sizeof shapes[0]; i++) {
        shapes[i].write(&s);
        size_t length = flatten_once(&s);
        Call call = { machines, flat ? linear : s.bytes, flat ? length : sheet_length(&s), long_budget, true };
        Row row = figures(&call, true, 0, 1e-9);
        print_row(shapes[i].name, &row, 2, &means);
        double times_linear = flat ? 1 : least_of(&row, LIBRARY) / by_linear[i];
        by_linear[i] = least_of(&row, LIBRARY);
        least = i == 0 ? times_linear : lesser(least, times_linear);
        most = greater(most, times_linear);
    }
    print_means(&means);
    if (!flat)
        PRINT("the library's tree machine takes %.2f to %.2f times as long a step as its linear machine\n\n", least, most);
}

static void bench_whole_call(const char *name, void write(Sheet *), Run *const machines[SIDES], uint64_t budget, Means *means)
{
    static Sheet s;
    write(&s);
    size_t length = flatten_once(&s);
    bool flat = machines == linear_machines;
    Call call = { machines, flat ? linear : s.bytes, flat ? length : sheet_length(&s), budget, false };
    Row row = figures(&call, false, 1, 1e-6);
    print_row(name, &row, 2, means);
}

static void bench_whole_calls(void)
{
    Means means = no_means;
    print_head("microseconds for a whole call");
    bench_whole_call("linear, 4 bytes, 1 step", shortest, linear_machines, long_budget, &means);
    bench_whole_call("tree, 4 bytes, 1 step", shortest, tree_machines, long_budget, &means);
    bench_whole_call("linear, small sheet, 20 steps", twenty_steps, linear_machines, long_budget, &means);
    bench_whole_call("tree, small sheet, 20 steps", twenty_steps, tree_machines, long_budget, &means);
    bench_whole_call("flatten, 4 bytes", shortest, NULL, 0, &means);
    bench_whole_call("flatten, small sheet", twenty_steps, NULL, 0, &means);
    print_means(&means);
    means = no_means;
    print_head("microseconds, starts of long sheets");
    bench_whole_call("tree, path, 63 KB, 15 levels", deep_63_kb, tree_machines, 0, &means);
    bench_whole_call("tree, random, 63 KB, 15 levels", random_63_kb, tree_machines, 0, &means);
    bench_whole_call("linear, path, 63 KB, 15 levels", deep_63_kb, linear_machines, 0, &means);
    print_means(&means);
    means = no_means;
    print_head("microseconds, 64 KB, 16 levels");
    bench_whole_call("linear, 1,000,000 steps", longest, linear_machines, EXPORTER_TREE_BUDGET, &means);
    bench_whole_call("tree, 1,000,000 steps", longest, tree_machines, EXPORTER_TREE_BUDGET, &means);
    print_means(&means);
}

static void bench_flattener(void)
{
    static const struct {
        const char *name;
        Shape *shape;
    } shapes[] = { { "path", put_path }, { "binary", put_binary }, { "random", put_random } };
    static const unsigned lasts[] = { 1, 4, 8, 16 };
    enum { SIZES = 4 };
    static const unsigned sizes[SIZES] = { 1, 4, 16, 64 };
    static Sheet s;
    Means means = no_means;
    PRINT("%-20s%-28s%-28s%-28s%s\n", "flattener", "library, ns a byte", "fast C, ns a byte", "to fast", "deepest level");
    PRINT("%-18s", "shape, levels");
    for (unsigned part = 0; part < 4; part++)
        for (unsigned i = 0; i < SIZES; i++)
            PRINT("%4u KB", sizes[i]);
    PRINT("\n");
    for (unsigned i = 0; i < sizeof shapes / sizeof shapes[0]; i++)
        for (unsigned l = 0; l < sizeof lasts / sizeof lasts[0]; l++) {
            Row rows[SIZES];
            unsigned came_to[SIZES];
            for (unsigned n = 0; n < SIZES; n++) {
                shaped_sheet(&s, shapes[i].shape, 1024 * (size_t)sizes[n], lasts[l]);
                came_to[n] = deepest;
                flatten_once(&s);
                Call call = { NULL, s.bytes, sheet_length(&s), 0, false };
                rows[n] = figures(&call, false, (double)sheet_length(&s), 1e-9);
                add_ratio(&means, &rows[n]);
            }
            PRINT("%-10s%6u  ", shapes[i].name, lasts[l]);
            for (unsigned n = 0; n < SIZES; n++)
                PRINT("%7.1f", least_of(&rows[n], LIBRARY));
            for (unsigned n = 0; n < SIZES; n++)
                PRINT("%7.2f", least_of(&rows[n], FAST));
            for (unsigned n = 0; n < SIZES; n++)
                PRINT("%7.1f", ratio(&rows[n], FAST).mean);
            for (unsigned n = 0; n < SIZES; n++)
                PRINT("%7u", came_to[n]);
            PRINT("\n");
        }
    PRINT("geometric mean: %.2f to fast C, %.2f to plain C\n", mean_of(&means, FAST), mean_of(&means, PLAIN));
}

int main(int argc, char **argv)
{
    if (argc > 1 && strcmp(argv[1], "raw") == 0)
        mode = RAW;
    if (argc > 2 && strcmp(argv[1], "show") == 0) {
        mode = SHOW;
        for (builds = 0; builds + 2 < (unsigned)argc && builds < MOST_BUILDS; builds++)
            if ((files[builds] = fopen(argv[builds + 2], "r")) == NULL)
                stop("no such file of figures");
    }
    bench_steps("nanoseconds a step, linear machine", linear_machines);
    bench_steps("nanoseconds a step, tree machine", tree_machines);
    bench_whole_calls();
    bench_flattener();
    return 0;
}
