/* differential COUNT SEED [tally]: runs generated files through the library and the plain implementation, each with buffers of its own, and compares results and
   all that the buffers hold; then checks demand 3 on each accepted sheet, and request 6's theorem on each basic file. The library's buffers have exactly the lent
   lengths and stand at guarded pages. File i has the seed SEED + i, so that `differential 1 SEED` does a single file again. From 5,000 files on, every number and
   every kind of lent length must have come up. */
#include "../plain/library.h"
#include "guarded.h"
#include "seeds.h"

#include <inttypes.h>
#include <stdio.h>
#include <string.h>

enum { GLOBALS = 256, STACK = 256, STORE = 2048, FRAMES = 2048, MARGIN = 8, RESULT = 8 };
enum { TREE_BUDGET = 1000000, LINEAR_BUDGET = 2000000 };
enum { HALTED, WRONG, OUT_OF_BUDGET, REFUSED };
enum { HOUSE = EXPORTER_HOUSE, VENDOR = EXPORTER_VENDOR, HOUSE_GLOBALS = EXPORTER_HOUSE_GLOBALS };

/* All that is lent to a run, and room for lengths that are too long. */
typedef struct {
    uint64_t globals[GLOBALS + MARGIN], stack[STACK + MARGIN], store[STORE + MARGIN], frames[FRAMES + MARGIN];
    uint64_t result[RESULT + MARGIN];
} Memory;

typedef struct {
    size_t globals, stack, store, frames, result;
} Lengths;

static const Lengths right_lengths = { GLOBALS, STACK, STORE, FRAMES, RESULT };

static uint64_t flatten_tally[33], back_tally[33], tabulate_tally[33], join_tally[33], trim_tally[33], trimmed_away[2], grouped[2];
static uint64_t tree_tally[4][32], basic_tally[4][32], linear_tally[4][32];
static uint64_t came_back, changed_back; /* sheets that came back from their linear file, and files with a byte changed that still go back */
static uint64_t ends_of[2], barred[2]; /* by owner: ends that are no refusals, and those that are 25 */

/* What was lent: how often, by kind of length. */
static uint64_t empty_files, empty_outputs, longer_outputs, empty_memories, shorter_memories, longer_memories, empty_results, short_results, longer_results;

/* Reports */

static void dump(const char *name, const uint8_t *bytes, size_t len)
{
    printf("%s, %zu bytes:", name, len);
    for (size_t i = 0; i < len && i < 2000; i++)
        printf("%s%02X", i % 32 == 0 ? "\n  " : " ", bytes[i]);
    printf("%s\n", len > 2000 ? " .." : "");
}

static void tell_results(const char *name, const uint64_t *result, size_t count)
{
    printf("  %s:", name);
    for (size_t i = 0; i < count; i++)
        printf(" %" PRIx64, result[i]);
    printf("\n");
}

static void tell_cells(const char *name, const uint64_t *library, const uint64_t *plain, size_t count)
{
    for (size_t i = 0; i < count; i++)
        if (library[i] != plain[i]) {
            printf("  %s %zu: library %016" PRIx64 ", plain %016" PRIx64 "\n", name, i, library[i], plain[i]);
            return;
        }
}

static void tell_memories(const Memory *library, const Memory *plain)
{
    tell_results("library", library->result, RESULT);
    tell_results("plain  ", plain->result, RESULT);
    tell_cells("globals", library->globals, plain->globals, GLOBALS + MARGIN);
    tell_cells("stack", library->stack, plain->stack, STACK + MARGIN);
    tell_cells("store", library->store, plain->store, STORE + MARGIN);
    tell_cells("frames", library->frames, plain->frames, FRAMES + MARGIN);
    tell_cells("result", library->result, plain->result, RESULT + MARGIN);
}

/* Lending, to the library alone */

static struct {
    Guarded file, second, out, globals, stack, store, frames, result;
} lent;

static uint64_t calls; /* so far */

static void make_buffers(void)
{
    make_guarded(&lent.file, FILE_ROOM);
    make_guarded(&lent.second, FILE_ROOM);
    make_guarded(&lent.out, 4 * FILE_ROOM);
    make_guarded(&lent.globals, sizeof(uint64_t) * (GLOBALS + MARGIN));
    make_guarded(&lent.stack, sizeof(uint64_t) * (STACK + MARGIN));
    make_guarded(&lent.store, sizeof(uint64_t) * (STORE + MARGIN));
    make_guarded(&lent.frames, sizeof(uint64_t) * (FRAMES + MARGIN));
    make_guarded(&lent.result, sizeof(uint64_t) * (RESULT + MARGIN));
}

/* Buffers stand at the guarded end and at the guarded start by turns. */
static bool next_end(void)
{
    return calls++ % 2 == 0;
}

static const uint8_t *lend_file(const File *file, bool at_end)
{
    empty_files += file->len == 0;
    return lend(&lent.file, file->bytes, file->len, at_end);
}

static void check_file(const File *file)
{
    static uint8_t after[FILE_ROOM];
    if ((!take_back(&lent.file, after) || memcmp(after, file->bytes, file->len) != 0) && differs("the file itself"))
        dump("file before", file->bytes, file->len);
}

/* Flattening */

static uint8_t library_out[4 * FILE_ROOM], plain_out[4 * FILE_ROOM];

/* From one file to another */
typedef struct {
    const char *name;
    Convert *library, *plain;
    uint64_t *tally;
} Way;

static const Way flattening = { "flatten", exporter_flatten, plain_flatten, flatten_tally };
static const Way way_back = { "back", exporter_back, plain_back, back_tally };
static const Way tabulating = { "tabulate", exporter_tabulate, plain_tabulate, tabulate_tally };

/* Both outputs and both results hold the same before a call. */
static void fill_alike(Random *random, size_t out_len, uint64_t library_result[4], uint64_t plain_result[4])
{
    memset(library_out, (int)below(random, 256), out_len);
    memcpy(plain_out, library_out, out_len);
    for (unsigned i = 0; i < 4; i++)
        library_result[i] = plain_result[i] = draw(random);
}

/* Of a call that writes a file; alike: what was written is, and nothing beside what was lent. False where there is more to tell. */
static bool answers_agree(const char *what, bool alike, size_t out_len, size_t result_len, const uint64_t library[4], const uint64_t plain[4])
{
    if ((alike && memcmp(library, plain, 4 * sizeof plain[0]) == 0) || !differs(what))
        return true;
    printf("  out_len %zu, result_len %zu%s\n", out_len, result_len, alike ? "" : ", other bytes, or some beside what was lent");
    tell_results("library", library, 4);
    tell_results("plain  ", plain, 4);
    return false;
}

/* Answers the length of the file that is written, or 0 where it was refused. It is then at the front of library_out. */
static size_t convert_both(const Way *way, Random *random, const File *file, size_t out_len, size_t result_len, uint64_t plain_result[4])
{
    uint64_t library_result[4];
    bool at_end = next_end(), inside;
    fill_alike(random, out_len, library_result, plain_result);
    empty_outputs += out_len == 0;
    empty_results += result_len == 0;
    short_results += result_len == 1;
    longer_results += result_len > 2;
    calling = way->name;
    way->library(lend_file(file, at_end), file->len, lend(&lent.out, library_out, out_len, at_end), out_len,
                 lend(&lent.result, library_result, result_len * sizeof(uint64_t), at_end), result_len);
    check_file(file);
    inside = take_back(&lent.out, library_out);
    inside = take_back(&lent.result, library_result) && inside;
    way->plain(file->bytes, file->len, plain_out, out_len, plain_result, result_len);
    bool alike = memcmp(library_out, plain_out, out_len) == 0;
    if (!answers_agree(way->name, inside && alike, out_len, result_len, library_result, plain_result))
        dump("file", file->bytes, file->len);
    if (result_len < 2)
        return 0;
    way->tally[plain_result[0]]++;
    longer_outputs += plain_result[0] == 0 && plain_result[1] < out_len;
    return plain_result[0] == 0 ? plain_result[1] : 0;
}

/* Every linear file is shorter than 4 bytes for one of its sheet and some, and so is a tabulated file. */
static size_t ample(const File *file)
{
    return file->len > 65536 ? 64 : 4 * file->len + 64;
}

/* With outputs ample, exact, too short and empty; result has the answer for the ample one. The file that comes of it, or none, is then in to. */
static void compare_converting(const Way *way, Random *random, const File *file, File *to, uint64_t result[4])
{
    uint64_t other[4];
    size_t needed = convert_both(way, random, file, ample(file), 2, result);
    to->len = needed;
    memcpy(to->bytes, library_out, needed);
    if (needed > 0) {
        convert_both(way, random, file, needed, 4, other);
        convert_both(way, random, file, needed - 1, 2, other);
        convert_both(way, random, file, draw(random) % needed, 2, other);
    }
    if (result[0] == 8 || result[0] == 26 || chance(random, 5))
        convert_both(way, random, file, 0, 2 + below(random, 3), other);
    if (chance(random, 5))
        convert_both(way, random, file, ample(file), below(random, 2), other);
}

/* The way back from a linear file. Where it gives a tree file, flattening that gives the linear file again, unless the tree file has an orphan. sheet: what
   the linear file was flattened from, if it was. */
static size_t compare_back(Random *random, const File *linear, const File *sheet)
{
    static File tree;
    uint64_t result[4];
    size_t ample = linear->len + 64, needed = convert_both(&way_back, random, linear, ample, 2, result);
    tree.len = needed;
    memcpy(tree.bytes, library_out, needed);
    if (sheet && (needed != sheet->len || memcmp(tree.bytes, sheet->bytes, needed) != 0) && differs("a sheet does not come back from its linear file")) {
        dump("sheet", sheet->bytes, sheet->len);
        dump("back", tree.bytes, tree.len);
    }
    if (needed == 0)
        return 0;
    convert_both(&way_back, random, linear, needed, 4, result);
    convert_both(&way_back, random, linear, draw(random) % needed, 2, result);
    if (chance(random, 5))
        convert_both(&way_back, random, linear, ample, below(random, 2), result);
    size_t again = convert_both(&flattening, random, &tree, linear->len, 2, result);
    if (result[0] != 24 && (again != linear->len || memcmp(library_out, linear->bytes, again) != 0) && differs("what a file goes back to does not flatten to it")) {
        dump("linear", linear->bytes, linear->len);
        dump("back", tree.bytes, tree.len);
    }
    return needed;
}

/* Joining (request 10) */

/* Answers whether it was accepted. The joined file is then in joined. */
static bool join_both(Random *random, const File *prologue, const File *file, size_t out_len, size_t result_len, File *joined, uint64_t plain_result[4])
{
    static uint8_t after[FILE_ROOM];
    uint64_t library_result[4];
    bool at_end = next_end(), inside;
    fill_alike(random, out_len, library_result, plain_result);
    calling = "join";
    exporter_join(lend_file(prologue, at_end), prologue->len, lend(&lent.second, file->bytes, file->len, at_end), file->len,
                  lend(&lent.out, library_out, out_len, at_end), out_len, lend(&lent.result, library_result, result_len * sizeof(uint64_t), at_end),
                  result_len);
    check_file(prologue);
    inside = take_back(&lent.second, after) && memcmp(after, file->bytes, file->len) == 0;
    inside = take_back(&lent.out, library_out) && inside;
    inside = take_back(&lent.result, library_result) && inside;
    plain_join(prologue->bytes, prologue->len, file->bytes, file->len, plain_out, out_len, plain_result, result_len);
    bool alike = memcmp(library_out, plain_out, out_len) == 0;
    if (!answers_agree("join", inside && alike, out_len, result_len, library_result, plain_result)) {
        dump("prologue", prologue->bytes, prologue->len);
        dump("file", file->bytes, file->len);
    }
    if (result_len < 2)
        return false;
    join_tally[plain_result[0]]++;
    joined->len = plain_result[0] == 0 ? plain_result[1] : 0;
    memcpy(joined->bytes, library_out, joined->len);
    return plain_result[0] == 0;
}

/* Request 11: both groupings of three files are accepted or neither is, and the files are equal. */
static void compare_groupings(Random *random, const File *a, const File *b, const File *c)
{
    static File inner, left, right;
    uint64_t result[4];
    bool l = join_both(random, a, b, 65536, 2, &inner, result) && join_both(random, &inner, c, 65536, 2, &left, result);
    bool r = join_both(random, b, c, 65536, 2, &inner, result) && join_both(random, a, &inner, 65536, 2, &right, result);
    grouped[l && r]++;
    if ((l != r || (l && (left.len != right.len || memcmp(left.bytes, right.bytes, left.len) != 0))) && differs("request 11: the groupings")) {
        dump("a", a->bytes, a->len);
        dump("b", b->bytes, b->len);
        dump("c", c->bytes, c->len);
    }
}

static void compare_joining(Random *random, const File *file)
{
    static File prologue, second, joined;
    uint64_t result[4];
    generate_prologue(random, &prologue);
    const File *with = file;
    if (chance(random, 25)) {
        generate_prologue(random, &second);
        with = &second;
    }
    if (join_both(random, &prologue, with, 65536, 2, &joined, result)) {
        join_both(random, &prologue, with, joined.len, 4, &joined, result);
        join_both(random, &prologue, with, joined.len - 1, 2, &joined, result);
        join_both(random, &prologue, with, chance(random, 50) ? 0 : 300000, 2, &joined, result);
    }
    if (chance(random, 5))
        join_both(random, &prologue, with, 65536, below(random, 2), &joined, result);
    if (chance(random, 30)) {
        generate_prologue(random, &second);
        compare_groupings(random, &prologue, &second, file);
    }
}

/* Trimming (request 5) */

/* Answers whether it was accepted. The trimmed file is then in trimmed, and result[2] is the list's length. */
static bool trim_both(Random *random, const File *file, size_t out_len, size_t list_len, size_t result_len, File *trimmed, uint64_t plain_result[4])
{
    static uint8_t library_list[FILE_ROOM], plain_list[FILE_ROOM];
    uint64_t library_result[4];
    bool at_end = next_end(), inside;
    fill_alike(random, out_len, library_result, plain_result);
    memset(library_list, (int)below(random, 256), list_len);
    memcpy(plain_list, library_list, list_len);
    calling = "trim";
    exporter_trim(lend_file(file, at_end), file->len, lend(&lent.out, library_out, out_len, at_end), out_len,
                  lend(&lent.second, library_list, list_len, at_end), list_len,
                  lend(&lent.result, library_result, result_len * sizeof(uint64_t), at_end), result_len);
    check_file(file);
    inside = take_back(&lent.out, library_out);
    inside = take_back(&lent.second, library_list) && inside;
    inside = take_back(&lent.result, library_result) && inside;
    plain_trim(file->bytes, file->len, plain_out, out_len, plain_list, list_len, plain_result, result_len);
    bool alike = memcmp(library_out, plain_out, out_len) == 0 && memcmp(library_list, plain_list, list_len) == 0;
    if (!answers_agree("trim", inside && alike, out_len, result_len, library_result, plain_result)) {
        printf("  list_len %zu\n", list_len);
        dump("file", file->bytes, file->len);
    }
    if (result_len < 3)
        return false;
    trim_tally[plain_result[0]]++;
    trimmed->len = plain_result[0] == 0 ? plain_result[1] : 0;
    memcpy(trimmed->bytes, library_out, trimmed->len);
    return plain_result[0] == 0;
}

/* The trimmed file trimmed again is the same file, and request 4 does not refuse it. */
static void compare_trimming(Random *random, const File *file)
{
    static File trimmed, again;
    uint64_t result[4], other[4];
    if (!trim_both(random, file, 65536, 196608, 3, &trimmed, result))
        return;
    trimmed_away[trimmed.len < file->len]++;
    trim_both(random, file, trimmed.len, result[2], 4, &again, other);
    trim_both(random, file, trimmed.len - 1, chance(random, 50) ? 196608 : 0, 3, &again, other);
    trim_both(random, file, trimmed.len, result[2] - 1, 3, &again, other);
    if (chance(random, 5))
        trim_both(random, file, 65536, 196608, below(random, 3), &again, other);
    bool same = trim_both(random, &trimmed, 65536, 196608, 3, &again, other) && again.len == trimmed.len && memcmp(again.bytes, trimmed.bytes, again.len) == 0;
    convert_both(&flattening, random, &trimmed, 262144, 2, other);
    if ((!same || (other[0] != 0 && other[0] != 8)) && differs("request 5: the trimmed file")) {
        dump("file", file->bytes, file->len);
        dump("trimmed", trimmed.bytes, trimmed.len);
    }
}

/* Runs */

static void fill(Random *random, Memory *memory, const uint64_t *globals)
{
    uint64_t dirt = chance(random, 50) ? 0 : draw(random);
    uint64_t *cells = (uint64_t *)memory;
    for (size_t i = 0; i < sizeof *memory / sizeof cells[0]; i++)
        cells[i] = dirt * (i + 1);
    memcpy(memory->globals, globals, GLOBALS * sizeof globals[0]);
}

/* What a run is given besides its file and its memory. */
typedef struct {
    uint64_t budget, owner;
} Given;

static void run(Run *machine, const File *file, Given given, Memory *m, const Lengths *lengths)
{
    machine(file->bytes, file->len, given.budget, given.owner, m->globals, lengths->globals, m->stack, lengths->stack, m->store, lengths->store,
            m->frames, lengths->frames, m->result, lengths->result);
}

static uint64_t *lend_cells(Guarded *buffer, const uint64_t *cells, size_t count, bool at_end)
{
    return lend(buffer, cells, count * sizeof cells[0], at_end);
}

/* Answers false where something beside the lent slices was written. */
static bool run_library(Run *machine, const File *file, Given given, Memory *m, const Lengths *lengths)
{
    bool at_end = next_end(), inside;
    machine(lend_file(file, at_end), file->len, given.budget, given.owner,
            lend_cells(&lent.globals, m->globals, lengths->globals, at_end), lengths->globals,
            lend_cells(&lent.stack, m->stack, lengths->stack, at_end), lengths->stack,
            lend_cells(&lent.store, m->store, lengths->store, at_end), lengths->store,
            lend_cells(&lent.frames, m->frames, lengths->frames, at_end), lengths->frames,
            lend_cells(&lent.result, m->result, lengths->result, at_end), lengths->result);
    check_file(file);
    inside = take_back(&lent.globals, m->globals);
    inside = take_back(&lent.stack, m->stack) && inside;
    inside = take_back(&lent.store, m->store) && inside;
    inside = take_back(&lent.frames, m->frames) && inside;
    return take_back(&lent.result, m->result) && inside;
}

static void count_lengths(const Lengths *lengths)
{
    const size_t is[] = { lengths->globals, lengths->stack, lengths->store, lengths->frames }, right[] = { GLOBALS, STACK, STORE, FRAMES };
    for (unsigned i = 0; i < 4; i++) {
        empty_memories += is[i] == 0;
        shorter_memories += is[i] > 0 && is[i] < right[i];
        longer_memories += is[i] > right[i];
    }
    empty_results += lengths->result == 0;
    short_results += lengths->result > 0 && lengths->result < RESULT;
    longer_results += lengths->result > RESULT;
}

typedef struct {
    const char *name;
    Run *library, *plain;
    uint64_t (*tally)[32];
    uint64_t largest_budget;
} Machine;

static const Machine tree_machine = { "tree", exporter_run_tree, plain_run_tree, tree_tally, TREE_BUDGET };
static const Machine basic_machine = { "basic", exporter_run_basic, plain_run_basic, basic_tally, TREE_BUDGET };
static const Machine linear_machine = { "linear", exporter_run_linear, plain_run_linear, linear_tally, LINEAR_BUDGET };

/* Leaves what the library made of it in memory. */
static void run_both(const Machine *machine, const File *file, Given given, Memory *memory, const Lengths *lengths)
{
    static Memory plain;
    plain = *memory;
    calling = machine->name;
    count_lengths(lengths);
    bool inside = run_library(machine->library, file, given, memory, lengths);
    run(machine->plain, file, given, &plain, lengths);
    if ((!inside || memcmp(memory, &plain, sizeof plain) != 0) && differs(machine->name)) {
        printf("  budget %" PRIu64 ", owner %" PRIu64 ", lengths %zu %zu %zu %zu %zu%s\n", given.budget, given.owner, lengths->globals, lengths->stack, lengths->store,
               lengths->frames, lengths->result, inside ? "" : ", written beside what was lent");
        tell_memories(memory, &plain);
        dump("file", file->bytes, file->len);
    }
    if (lengths->result < RESULT)
        return;
    machine->tally[plain.result[0]][plain.result[1]]++;
    if (plain.result[0] != REFUSED) {
        ends_of[given.owner]++;
        barred[given.owner] += plain.result[1] == 25;
    }
}

static void spoil_length(Random *random, size_t *length)
{
    static const int by[] = { -1, 1, MARGIN };
    *length = chance(random, 20) ? 0 : *length + (size_t)(ptrdiff_t)by[below(random, 3)];
}

/* Starts that are refused, by one reason or by several at once. */
static void compare_bad_start(const Machine *machine, Random *random, const File *file, const uint64_t *globals)
{
    static Memory memory;
    Lengths lengths = right_lengths;
    Given given = { generate_budget(random, 1000), below(random, 2) };
    unsigned reasons = chance(random, 50) ? 1u << below(random, 5) : 1 + below(random, 31);
    fill(random, &memory, globals);
    if (reasons & 1) {
        size_t *which[] = { &lengths.globals, &lengths.stack, &lengths.store, &lengths.frames };
        spoil_length(random, which[below(random, 4)]);
    }
    if (reasons & 2)
        given.budget = chance(random, 50) ? machine->largest_budget + 1 : draw(random) | UINT64_C(1) << 63;
    if (reasons & 4)
        for (unsigned n = 1 + below(random, 3); n > 0; n--)
            memory.globals[chance(random, 20) ? GLOBALS - 1 : below(random, GLOBALS)] = bad_global(random);
    if (reasons & 8)
        lengths.result = below(random, RESULT);
    if (reasons & 16)
        given.owner = bad_owner(random);
    run_both(machine, file, given, &memory, &lengths);
}

/* Demand 3 */

static bool ended(const Memory *m)
{
    return m->result[0] == HALTED || m->result[0] == WRONG;
}

static uint64_t without_place(uint64_t cell)
{
    return cell >> 60 == 10 ? cell & ~(UINT64_C(0xffffff) << 4) : cell;
}

static bool memories_agree(const Memory *tree, const Memory *linear)
{
    for (unsigned i = 0; i < FRAMES; i++)
        if (without_place(tree->frames[i]) != without_place(linear->frames[i]))
            return false;
    return memcmp(tree->globals, linear->globals, sizeof tree->globals) == 0
        && memcmp(tree->stack, linear->stack, sizeof tree->stack) == 0
        && memcmp(tree->store, linear->store, sizeof tree->store) == 0;
}

/* Both ended: do they agree as demand 3 has it? */
static bool ends_agree(const Memory *tree, const Memory *linear, uint64_t firsts, uint64_t jumps)
{
    const uint64_t *t = tree->result, *l = linear->result;
    return t[0] == l[0] && t[1] == l[1] && t[3] == l[3] && l[4] == t[4] + jumps
        && jumps <= firsts && firsts <= t[4] && (t[0] != HALTED || jumps == firsts)
        && t[5] == l[5] && t[6] == l[6] && t[7] == l[7] && memories_agree(tree, linear);
}

/* Would the tree machine have come to this end of the linear machine within its budget? */
static bool within(const Memory *linear, uint64_t jumps, uint64_t budget)
{
    uint64_t steps = linear->result[4] - jumps;
    return linear->result[0] == HALTED ? steps <= budget : steps < budget;
}

static void tell_demand(const char *what, const Memory *tree, const Memory *linear, uint64_t firsts, uint64_t jumps,
                        const File *sheet, uint64_t budget)
{
    if (!differs(what))
        return;
    printf("  budget %" PRIu64 ", first arms %" PRIu64 ", jumps %" PRIu64 "\n", budget, firsts, jumps);
    printf("  (below, library stands for the tree machine and plain for the linear)\n");
    tell_memories(tree, linear);
    dump("sheet", sheet->bytes, sheet->len);
}

/* Owners (request 12) */

static void tell_owners(const char *what, const Memory *a, const Memory *b, const File *file, Given given)
{
    if (!differs(what))
        return;
    printf("  budget %" PRIu64 ", owner %" PRIu64 " (below, library stands for what it was compared with)\n", given.budget, given.owner);
    tell_memories(a, b);
    dump("file", file->bytes, file->len);
}

/* After an accepted run what is not the owner's to set is as it was. */
static void check_kept(const Memory *start, const Memory *end, const File *file, Given given)
{
    unsigned from = given.owner == VENDOR ? 0 : HOUSE_GLOBALS, to = given.owner == VENDOR ? HOUSE_GLOBALS : GLOBALS;
    if (memcmp(start->globals + from, end->globals + from, (to - from) * sizeof start->globals[0]) != 0)
        tell_owners("request 12: a global was set that is another's", start, end, file, given);
}

/* The house's run again, with other globals from 64 on: it ends the same. */
static void check_house_alike(const Machine *machine, Random *random, const Memory *start, const Memory *end, const File *file, Given given)
{
    static Memory again;
    uint64_t other[GLOBALS];
    again = *start;
    generate_globals(random, other);
    memcpy(again.globals + HOUSE_GLOBALS, other + HOUSE_GLOBALS, (GLOBALS - HOUSE_GLOBALS) * sizeof other[0]);
    run_both(machine, file, given, &again, &right_lengths);
    bool rest_kept = memcmp(again.globals + HOUSE_GLOBALS, other + HOUSE_GLOBALS, (GLOBALS - HOUSE_GLOBALS) * sizeof other[0]) == 0;
    memcpy(again.globals + HOUSE_GLOBALS, end->globals + HOUSE_GLOBALS, (GLOBALS - HOUSE_GLOBALS) * sizeof other[0]);
    if (!rest_kept || memcmp(&again, end, sizeof again) != 0)
        tell_owners("request 12: the house's run saw what is a vendor's", &again, end, file, given);
}

static void check_owner(const Machine *machine, Random *random, const Memory *start, const Memory *end, const File *file, Given given)
{
    if (end->result[0] == REFUSED)
        return;
    check_kept(start, end, file, given);
    if (given.owner == HOUSE && chance(random, 20))
        check_house_alike(machine, random, start, end, file, given);
}

static void compare_machines(Random *random, const File *sheet, const File *flat, const uint64_t *globals, Given given)
{
    uint64_t budget = given.budget, owner = given.owner;
    static Memory start, tree, linear;
    fill(random, &start, globals);
    tree = linear = start;
    run_both(&tree_machine, sheet, given, &tree, &right_lengths);
    uint64_t firsts = plain_firsts;
    check_owner(&tree_machine, random, &start, &tree, sheet, given);
    if (flat->len == 0)
        return;
    run_both(&linear_machine, flat, (Given){ 2 * budget, owner }, &linear, &right_lengths);
    uint64_t jumps = plain_jumps;
    check_owner(&linear_machine, random, &start, &linear, flat, (Given){ 2 * budget, owner });
    if (tree.result[0] == REFUSED || linear.result[0] == REFUSED)
        tell_demand("demand 3: a flattened sheet is refused", &tree, &linear, 0, 0, sheet, budget);
    else if (ended(&tree) && !(ended(&linear) && ends_agree(&tree, &linear, firsts, jumps)))
        tell_demand("demand 3: the tree machine ended", &tree, &linear, firsts, jumps, sheet, budget);
    else if (!ended(&tree) && ended(&linear) && within(&linear, jumps, budget))
        tell_demand("demand 3: the linear machine alone ended", &tree, &linear, firsts, jumps, sheet, budget);
    if (ended(&tree) || !ended(&linear))
        return;

    /* The other way round: what the linear machine ended, the tree machine ends with the same budget. */
    uint64_t larger = 2 * budget < TREE_BUDGET ? 2 * budget : TREE_BUDGET;
    tree = start;
    run_both(&tree_machine, sheet, (Given){ larger, owner }, &tree, &right_lengths);
    firsts = plain_firsts;
    if (within(&linear, jumps, larger) && !(ended(&tree) && ends_agree(&tree, &linear, firsts, jumps)))
        tell_demand("demand 3: the linear machine ended", &tree, &linear, firsts, jumps, sheet, larger);
}

/* Request 6 */

static void tell_basic(const char *what, const Memory *basic, const Memory *tree, const File *file, Given given)
{
    if (!differs(what))
        return;
    printf("  budget %" PRIu64 ", owner %" PRIu64 " (below, library stands for the basic machine and plain for the tree machine)\n", given.budget, given.owner);
    tell_memories(basic, tree);
    dump("basic file", file->bytes, file->len);
}

/* The basic machine refuses what the tabulator does, at the same place, unless it is only for the output's length. Else it ends as the tree machine does on the
   tabulated file: the same result, and the same memories but for code places. */
static void compare_basic_machine(Random *random, const File *file, const File *tabulated, const uint64_t answer[4], const uint64_t *globals, Given given)
{
    static Memory start, basic, tree;
    fill(random, &start, globals);
    basic = tree = start;
    run_both(&basic_machine, file, given, &basic, &right_lengths);
    check_owner(&basic_machine, random, &start, &basic, file, given);
    if (tabulated->len == 0) {
        if (basic.result[0] != REFUSED || basic.result[1] != answer[0] || basic.result[2] != answer[1])
            tell_basic("request 6: the tabulator alone refuses", &basic, &tree, file, given);
        return;
    }
    run_both(&tree_machine, tabulated, given, &tree, &right_lengths);
    if (tree.result[0] == REFUSED)
        tell_basic("request 6: the tabulated file is refused", &basic, &tree, file, given);
    else if (memcmp(basic.result, tree.result, sizeof tree.result) != 0 || !memories_agree(&basic, &tree))
        tell_basic("request 6: the machines end otherwise", &basic, &tree, file, given);
}

/* Files */

/* A result may be longer than it must be. */
static Lengths good_lengths(Random *random)
{
    Lengths lengths = right_lengths;
    lengths.result += chance(random, 20) ? below(random, MARGIN + 1) : 0;
    return lengths;
}

static void compare_linear(Random *random, const File *file, const uint64_t *globals, uint64_t owner)
{
    static Memory start, memory;
    Lengths lengths = good_lengths(random);
    Given given = { generate_budget(random, LINEAR_BUDGET), owner };
    fill(random, &start, globals);
    memory = start;
    run_both(&linear_machine, file, given, &memory, &lengths);
    if (lengths.result == RESULT)
        check_owner(&linear_machine, random, &start, &memory, file, given);
    if (chance(random, 10))
        compare_bad_start(&linear_machine, random, file, globals);
}

static void compare_sheet(Random *random)
{
    static File sheet, flat;
    uint64_t globals[GLOBALS], result[4], owner = generate_owner(random);
    generate_tree(random, &sheet);
    generate_globals(random, globals);
    compare_converting(&flattening, random, &sheet, &flat, result);
    compare_machines(random, &sheet, &flat, globals, (Given){ generate_budget(random, TREE_BUDGET), owner });
    if (flat.len > 0) {
        came_back += compare_back(random, &flat, &sheet) > 0;
        size_t place = draw(random) % flat.len;
        uint8_t byte = flat.bytes[place];
        flat.bytes[place] = (uint8_t)(byte + 1 + below(random, 255));
        changed_back += compare_back(random, &flat, NULL) > 0;
        flat.bytes[place] = byte;
    }
    if (chance(random, 20))
        compare_bad_start(&tree_machine, random, &sheet, globals);
    if (chance(random, 20))
        compare_joining(random, &sheet);
    if (chance(random, 40))
        compare_trimming(random, &sheet);
    if (flat.len > 0 && chance(random, 60)) {
        damage(random, &flat);
        compare_linear(random, &flat, globals, owner);
        compare_back(random, &flat, NULL);
    }
}

/* A tabulated file has no orphans and no entry that nothing names: trimming leaves it as it is. */
static void compare_basic(Random *random)
{
    static File basic, tabulated, trimmed;
    uint64_t globals[GLOBALS], result[4], owner = generate_owner(random);
    generate_basic(random, &basic);
    generate_globals(random, globals);
    compare_converting(&tabulating, random, &basic, &tabulated, result);
    compare_basic_machine(random, &basic, &tabulated, result, globals, (Given){ generate_budget(random, TREE_BUDGET), owner });
    if (chance(random, 40))
        compare_bad_start(&basic_machine, random, &basic, globals);
    if (tabulated.len > 0 && chance(random, 20) && trim_both(random, &tabulated, tabulated.len, 196608, 3, &trimmed, result)
        && (trimmed.len != tabulated.len || memcmp(trimmed.bytes, tabulated.bytes, trimmed.len) != 0) && differs("request 6: a tabulated file is trimmed")) {
        dump("basic", basic.bytes, basic.len);
        dump("tabulated", tabulated.bytes, tabulated.len);
    }
}

static void compare_own_linear(Random *random)
{
    static File linear;
    uint64_t globals[GLOBALS], result[4], owner = generate_owner(random);
    generate_linear(random, &linear);
    generate_globals(random, globals);
    compare_linear(random, &linear, globals, owner);
    compare_back(random, &linear, NULL);
    if (chance(random, 5))
        convert_both(&flattening, random, &linear, ample(&linear), 2, result);
}

static void print_tally(const char *machine, uint64_t tally[4][32])
{
    static const char *const ends[] = { "halted", "wrong", "out of budget", "refused" };
    for (unsigned end = 0; end < 4; end++) {
        printf("%s %s:", machine, ends[end]);
        for (unsigned n = 0; n < 32; n++)
            if (tally[end][n] > 0)
                printf(" %u x%" PRIu64, n, tally[end][n]);
        printf("\n");
    }
}

static void print_answers(const char *name, const uint64_t tally[33])
{
    printf("%s:", name);
    for (unsigned n = 0; n < 33; n++)
        if (tally[n] > 0)
            printf(" %u x%" PRIu64, n, tally[n]);
}

static void print_tallies(void)
{
    print_answers("flatten", flatten_tally);
    print_answers("\ntabulate", tabulate_tally);
    print_answers("\nback", back_tally);
    printf("; sheets x%" PRIu64 ", with a byte changed x%" PRIu64, came_back, changed_back);
    print_answers("\njoin", join_tally);
    printf("; groupings refused x%" PRIu64 ", accepted x%" PRIu64, grouped[0], grouped[1]);
    print_answers("\ntrim", trim_tally);
    printf("; shorter x%" PRIu64 ", as long x%" PRIu64 "\n", trimmed_away[1], trimmed_away[0]);
    print_tally("tree", tree_tally);
    print_tally("basic", basic_tally);
    print_tally("linear", linear_tally);
    printf("house: ended x%" PRIu64 ", 25 x%" PRIu64 "; vendor: ended x%" PRIu64 ", 25 x%" PRIu64 "\n", ends_of[HOUSE], barred[HOUSE], ends_of[VENDOR],
           barred[VENDOR]);
    printf("lent: empty files x%" PRIu64 ", outputs empty x%" PRIu64 " longer x%" PRIu64 ", memories empty x%" PRIu64 " shorter x%" PRIu64
           " longer x%" PRIu64 ", results empty x%" PRIu64 " short x%" PRIu64 " longer x%" PRIu64 "\n", empty_files, empty_outputs, longer_outputs,
           empty_memories, shorter_memories, longer_memories, empty_results, short_results, longer_results);
}

static bool came_up(const uint64_t *tally, const uint8_t *numbers, size_t count)
{
    bool all = true;
    for (size_t i = 0; i < count; i++)
        all = all && tally[numbers[i]] > 0;
    return all;
}

#define CAME_UP(tally, ...) came_up(tally, (const uint8_t[]){ __VA_ARGS__ }, sizeof (const uint8_t[]){ __VA_ARGS__ })

/* What every machine can give; basic files are too few for all wrong ends. */
static bool ends_came_up(uint64_t tally[4][32])
{
    return tally[HALTED][0] > 0 && tally[OUT_OF_BUDGET][19] > 0 && CAME_UP(tally[REFUSED], 1, 2, 3, 5, 20, 21, 22, 31);
}

static bool all_came_up(void)
{
    bool all = empty_files && empty_outputs && longer_outputs && empty_memories && shorter_memories && longer_memories && empty_results
        && short_results && longer_results && barred[HOUSE] && barred[VENDOR] && ends_of[VENDOR] > 4 * barred[VENDOR];
    all = all && CAME_UP(flatten_tally, 0, 1, 2, 3, 4, 5, 6, 7, 8, 9, 24) && CAME_UP(tabulate_tally, 0, 1, 2, 3, 4, 5, 6, 9, 26)
        && CAME_UP(back_tally, 0, 1, 2, 3, 5, 9, 32) && CAME_UP(join_tally, 0, 1, 2, 3, 4, 5, 6, 7, 9, 30) && CAME_UP(trim_tally, 0, 1, 2, 3, 4, 5, 6, 7, 9);
    all = all && came_back && changed_back && trimmed_away[0] && trimmed_away[1] && grouped[0] && grouped[1];
    all = all && ends_came_up(tree_tally) && ends_came_up(linear_tally) && ends_came_up(basic_tally);
    return all && CAME_UP(tree_tally[REFUSED], 4, 6, 7, 24) && CAME_UP(basic_tally[REFUSED], 4, 6, 26)
        && CAME_UP(tree_tally[WRONG], 10, 11, 12, 13, 14, 15, 17, 18, 23, 25) && CAME_UP(linear_tally[WRONG], 10, 11, 12, 13, 14, 15, 16, 17, 18, 23, 25);
}

static void compare_file(Random *random)
{
    unsigned what = below(random, 100);
    calls = seed;
    if (what < 67)
        compare_sheet(random);
    else if (what < 90)
        compare_own_linear(random);
    else
        compare_basic(random);
}

int main(int argc, char **argv)
{
    static const Seeds seeds = { "differential", "files", "tests/differential/run", 20000, 5000, compare_file, all_came_up, print_tallies };
    make_buffers();
    return try_seeds(&seeds, argc, argv);
}
