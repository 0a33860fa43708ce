/* The rows of document 01 that are run: sizes at their limits, on the library; and orphans (request 4) beside them. Each line says what was
   tried and what came of it; the file expected has what must. */
#include "../plain/library.h"
#include "../plain/sheet.h"

#include <stdio.h>
#include <stdlib.h>
#include <string.h>

enum { OUT = 262144 };

static Sheet sheet;
static uint8_t out[OUT];
static uint64_t globals[256], stack[256], store[2048], frames[2048];

static int untouched(const uint8_t *bytes, size_t from, size_t to)
{
    for (size_t i = from; i < to; i++)
        if (bytes[i] != 0xAA)
            return 0;
    return 1;
}

static void flatten_row(const char *name, size_t room)
{
    uint64_t result[2];
    memset(out, 0xAA, sizeof out);
    exporter_flatten(sheet.bytes, sheet_length(&sheet), out, room, result, 2);
    size_t written = result[0] ? 0 : result[1];
    printf("%s, %zu bytes: %s %llu %llu%s\n", name, sheet_length(&sheet), result[0] ? "refused" : "accepted", (unsigned long long)result[0],
           (unsigned long long)result[1], untouched(out, written, sizeof out) ? "" : ", output touched");
}

static void run_row(const char *name, void (*run)(const uint8_t *, size_t, uint64_t, uint64_t, uint64_t *, size_t, uint64_t *, size_t, uint64_t *,
                    size_t, uint64_t *, size_t, uint64_t *, size_t), const uint8_t *file, size_t length, uint64_t budget)
{
    uint64_t result[8];
    for (int i = 0; i < 256; i++)
        globals[i] = (uint64_t)5 << 60;
    memset(stack, 0xAA, sizeof stack), memset(store, 0xAA, sizeof store), memset(frames, 0xAA, sizeof frames);
    run(file, length, budget, EXPORTER_HOUSE, globals, 256, stack, 256, store, 2048, frames, 2048, result, 8);
    printf("%s:", name);
    for (int i = 0; i < 8; i++)
        printf(" %llx", (unsigned long long)result[i]);
    printf("\n");
}

static void both_rows(const char *name, uint64_t budget)
{
    char label[128];
    uint64_t result[2];
    snprintf(label, sizeof label, "%s, tree", name);
    run_row(label, exporter_run_tree, sheet.bytes, sheet_length(&sheet), budget);
    exporter_flatten(sheet.bytes, sheet_length(&sheet), out, sizeof out, result, 2);
    if (result[0])
        return;
    snprintf(label, sizeof label, "%s, linear", name);
    run_row(label, exporter_run_linear, out, result[1], 2 * budget);
}

/* One template without entries; its list follows. */
static void begin(void)
{
    sheet_begin(&sheet, 1);
    put_field(&sheet, 8, 0);
}

/* A flat body of n bytes: locals take three bytes, unspecified one. */
static void body(size_t n)
{
    for (; n >= 3; n -= 3)
        put2(&sheet, LOCAL, 0, 0);
    for (; n > 0; n--)
        put0(&sheet, UNSPECIFIED);
}

static void finish(void)
{
    put0(&sheet, RETURN);
    put0(&sheet, END);
}

static void open_first_arm(size_t n)
{
    begin();
    put0(&sheet, UNLESS_FALSE);
    body(n), put0(&sheet, END);
    put0(&sheet, UNSPECIFIED), put0(&sheet, END);
    finish();
}

static void open_second_arm(size_t n)
{
    begin();
    put0(&sheet, UNLESS_FALSE);
    put0(&sheet, UNSPECIFIED), put0(&sheet, END);
    body(n), put0(&sheet, END);
    finish();
}

static void closed_first_arm(size_t n)
{
    begin();
    put0(&sheet, UNLESS_FALSE);
    body(n - 1), finish();
    finish();
    put0(&sheet, END);
}

static void make_cont_and_rest(size_t n)
{
    put1(&sheet, MAKE_CONT, 0), finish();
    body(n - 1), finish();
}

static void rest_of_make_cont(size_t n)
{
    begin();
    make_cont_and_rest(n);
}

/* The same, and a template that no closure names. */
static void orphan(size_t n)
{
    sheet_begin(&sheet, 2);
    put_field(&sheet, 8, 0);
    make_cont_and_rest(n);
    put_field(&sheet, 8, 0);
    finish();
}

static void levels(int n)
{
    begin();
    for (int i = 1; i < n; i++)
        put0(&sheet, UNLESS_FALSE);
    for (int i = 1; i < n; i++) {
        put0(&sheet, UNSPECIFIED), put0(&sheet, END);
        put0(&sheet, UNSPECIFIED), put0(&sheet, END);
    }
    finish();
}

static void pushes(int n)
{
    begin();
    for (int i = 0; i < n; i++)
        put0(&sheet, PUSH);
    finish();
}

/* n make-conts, each in the rest of the one before, with an empty or a closed saved list. */
static void chain(int n, int closed)
{
    begin();
    for (int i = 0; i < n; i++) {
        put1(&sheet, MAKE_CONT, 0);
        if (closed)
            put0(&sheet, RETURN);
        put0(&sheet, END);
    }
    finish();
}

static void long_list(void)
{
    begin();
    while (sheet.bits + 5 + 10 <= 8 * (size_t)65536)
        put0(&sheet, UNSPECIFIED);
    finish();
}

int main(void)
{
    static const uint8_t shelved[] = { 2, 0, 0, 0, 1, 1, 0, 0, 0, 1, 1 }; /* two templates, each a return */
    open_first_arm(65532), flatten_row("open first arm of 65,532", OUT);
    open_first_arm(65533), flatten_row("open first arm of 65,533", OUT);
    open_second_arm(65535), flatten_row("open second arm of 65,535", OUT);
    open_second_arm(65536), flatten_row("open second arm of 65,536", OUT);
    closed_first_arm(65535), flatten_row("closed first arm of 65,535", OUT);
    closed_first_arm(65536), flatten_row("closed first arm of 65,536", OUT);
    rest_of_make_cont(65535), flatten_row("rest of a make-cont of 65,535", OUT);
    rest_of_make_cont(65536), flatten_row("rest of a make-cont of 65,536", OUT);
    levels(16), flatten_row("level 16", OUT), both_rows("level 16", 1000000);
    levels(17), flatten_row("level 17", OUT), both_rows("level 17", 1000000);
    pushes(3), flatten_row("output exact", 9), flatten_row("output one short", 8), flatten_row("output one longer", 10);
    pushes(256), both_rows("256 pushes", 1000000);
    pushes(257), both_rows("257 pushes", 1000000);
    long_list(), flatten_row("one long list", OUT), both_rows("one long list", 1000000);
    chain(29000, 0), flatten_row("29,000 make-conts, saved lists empty", OUT);
    chain(22000, 1), flatten_row("22,000 make-conts, saved lists closed", OUT);
    chain(13000, 1), flatten_row("13,000 make-conts, saved lists closed", OUT), both_rows("13,000 make-conts", 1000000);
    orphan(65536), flatten_row("an orphan beside an offset of 65,536", OUT), both_rows("an orphan", 1000000);
    orphan(1), flatten_row("an orphan, no output", 0);
    run_row("a linear file with an orphan", exporter_run_linear, shelved, sizeof shelved, 2000000);
    return 0;
}
