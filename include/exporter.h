/* The exporter's library for C: link target/staticlib/libexporter.a, which the tests make by `rt lib` in crates/exporter_c (x86-64 Linux).
   Documents 01 and 02 have the files, cells, rules and numbers. A slice is a pointer and then a length in elements: the pointer is
   aligned and not null, also where the length is 0, and no two slices of a call overlap. Nothing is kept between calls,
   nothing is allocated; a call uses up to 600 KB of its thread's stack. */
#ifndef EXPORTER_H
#define EXPORTER_H

#include <stddef.h>
#include <stdint.h>

#ifdef __cplusplus
extern "C" {
#endif

enum {
    EXPORTER_GLOBALS = 256, EXPORTER_STACK = 256, EXPORTER_STORE = 2048, EXPORTER_FRAMES = 2048, /* cells, exactly */
    EXPORTER_TREE_FILE = 65536, EXPORTER_LINEAR_FILE = 262144,     /* longest files, in bytes */
    EXPORTER_TREE_BUDGET = 1000000, EXPORTER_LINEAR_BUDGET = 2000000, /* largest budgets, in steps */
    EXPORTER_CLIP_WORDS = 8, EXPORTER_CLIPS = 256, EXPORTER_CLIP_BYTES = 48, /* words of a clip, most clips, list bytes a clip */
    EXPORTER_TRIM_LIST = 196608 /* longest list of a trimmed file, in bytes */
};

/* Whose run it is. The house reads and sets globals 0 to 63 alone; a vendor reads all and sets 64 to 255 alone. */
enum { EXPORTER_HOUSE, EXPORTER_VENDOR, EXPORTER_HOUSE_GLOBALS = 64 };

/* The slots of a result. */
enum { EXPORTER_REFUSAL, EXPORTER_LENGTH_OR_PLACE, EXPORTER_FLATTEN_SLOTS };
enum { EXPORTER_LIST_LENGTH = 2, EXPORTER_TRIM_SLOTS };
enum {
    EXPORTER_END, EXPORTER_NUMBER, EXPORTER_PLACE, EXPORTER_ANSWER, EXPORTER_STEPS,
    EXPORTER_ON_STACK, EXPORTER_IN_STORE, EXPORTER_IN_FRAMES, EXPORTER_RUN_SLOTS
};

/* How a run ended. */
enum { EXPORTER_HALTED, EXPORTER_WRONG, EXPORTER_OUT_OF_BUDGET, EXPORTER_REFUSED };

/* An integer has 48 bits, two's complement. Its cell is tag 6 in the highest 4 bits, then the 48 bits, then 12 zero bits: that of 7 is
   0x6000000000007000. (Until request 7 it had 32 bits and 28 zero bits; such a cell is now that of 65,536 times the number.) */
#define EXPORTER_INTEGER_MIN (-(int64_t)1 - EXPORTER_INTEGER_MAX)
#define EXPORTER_INTEGER_MAX ((int64_t)0x7fffffffffff)

static inline int exporter_is_integer(uint64_t cell)
{
    return cell >> 60 == 6;
}

/* The cell of an integer in range; of any other number, that of its lowest 48 bits. */
static inline uint64_t exporter_integer_cell(int64_t integer)
{
    return (uint64_t)6 << 60 | (uint64_t)integer << 16 >> 4;
}

/* The integer of an integer's cell. */
static inline int64_t exporter_integer_of(uint64_t cell)
{
    uint64_t sign = (uint64_t)1 << 47;
    return (int64_t)((cell << 4 >> 16) ^ sign) - (int64_t)sign;
}

/* Flattens a tree file.
   result[0]: 0 accepted, else the refusal's number, 1 to 9 or 24.
   result[1]: accepted: the linear file's length in bytes; refused: the place.
   Accepted: the first result[1] bytes of out are the linear file, the others are as they were. Refused: all of out is.
   result_len is 2 or more; slots after the first 2 stay. Where it is less, nothing at all is done. */
void exporter_flatten(const uint8_t *file, size_t file_len,
                      uint8_t *out, size_t out_len,
                      uint64_t *result, size_t result_len);

/* The other way: from a linear file back to the one tree file that flattens to it (request 4's orphans left aside). The tree file is never longer than
   the linear file, nor than EXPORTER_TREE_FILE bytes.
   result[0]: 0 accepted, else the refusal's number: 1, 2, 3 or 5 as exporter_run_linear gives them; 32: no accepted tree file flattens to these bytes; 9.
   result[1]: accepted: the tree file's length in bytes; refused: the place; of 32 the lowest template whose code or entries stand in the way, or 0 where
   only the tree's length does; of 9 the bytes needed.
   Accepted: the first result[1] bytes of out are the tree file, the others are as they were. Refused: all of out is.
   result_len is 2 or more; slots after the first 2 stay. Where it is less, nothing at all is done. */
void exporter_back(const uint8_t *file, size_t file_len,
                   uint8_t *out, size_t out_len,
                   uint64_t *result, size_t result_len);

/* Tabulates a basic file: one list in basic byte code, whose instructions carry their constants, global numbers and templates, and its padding. The tabulated
   file is a tree file of at most EXPORTER_TREE_FILE bytes.
   result[0]: 0 accepted, else the refusal's number: 1 to 6 as of a tree file; 26: more than 255 entries, 64 templates or 65,536 tabulated bytes; 9.
   result[1]: accepted: the tabulated file's length in bytes; refused: the place; of 6 the lowest template, by the tabulator's numbers, whose list is not
   closed (it may be above 255); of 26 place 0; of 9 the bytes needed.
   Accepted: the first result[1] bytes of out are the tabulated file, the others are as they were. Refused: all of out is.
   result_len is 2 or more; slots after the first 2 stay. Where it is less, nothing at all is done. */
void exporter_tabulate(const uint8_t *basic, size_t basic_len,
                       uint8_t *out, size_t out_len,
                       uint64_t *result, size_t result_len);

/* Joins a prologue and a tree file: a prologue has one template and an open list, and so may the file.
   result[0]: 0 accepted, else the refusal's number, 1 to 7, 9 or 30.
   result[1]: accepted: the joined file's length in bytes; refused: the place.
   out, and a result that is too short: as with exporter_flatten. */
void exporter_join(const uint8_t *prologue, size_t prologue_len,
                   const uint8_t *file, size_t file_len,
                   uint8_t *out, size_t out_len,
                   uint64_t *result, size_t result_len);

/* Trims a tree file: orphan templates and entries that no instruction names are taken out until nothing more can go, and the rest is renumbered in its old
   order (request 4's check is left aside). list gets a line for each template and then for each of its entries, in the old file's order: template, entry (0
   for the template itself), and the new number or `gone`. The trimmed file is never longer than the file, a list never longer than EXPORTER_TRIM_LIST bytes.
   result[0]: 0 accepted, else the refusal's number, 1 to 7 or 9.
   result[1]: accepted: the trimmed file's length in bytes; refused: the place; of 9 the bytes needed, by the file's output before the list's.
   result[2]: accepted: the list's length in bytes; refused: 0.
   Accepted: the first result[1] bytes of out are the trimmed file, the first result[2] bytes of list the list; the others are as they were. Refused: all are.
   result_len is 3 or more; slots after the first 3 stay. Where it is less, nothing at all is done. */
void exporter_trim(const uint8_t *file, size_t file_len,
                   uint8_t *out, size_t out_len,
                   uint8_t *list, size_t list_len,
                   uint64_t *result, size_t result_len);

/* Runs a tree file.
   owner: EXPORTER_HOUSE or EXPORTER_VENDOR.
   globals: read at the start (tags 1 to 6 only, all bits below their fields zero) and left as the run leaves them. stack, store, frames: what they held does
   not matter; after an accepted start the cells not in use are zero.
   result[0]: how it ended: 0 halted, 1 wrong, 2 out of budget, 3 refused.
   result[1]: halted 0; wrong the number, 10 to 18, 23 or 25; out of budget 19; refused the number, 1 to 7, 20 to 22, 24 or 31.
   result[2]: refused: the place; else 0.
   result[3]: halted: the answer's cell; else 0.
   result[4]: steps; refused 0.
   result[5], result[6], result[7]: stack, store and frame cells used; refused 0.
   Refused: the four memories are as they were.
   result_len is 8 or more; slots after the first 8 stay. Where it is less, nothing at all is done. */
void exporter_run_tree(const uint8_t *file, size_t file_len, uint64_t budget, uint64_t owner,
                       uint64_t *globals, size_t globals_len,
                       uint64_t *stack, size_t stack_len,
                       uint64_t *store, size_t store_len,
                       uint64_t *frames, size_t frames_len,
                       uint64_t *result, size_t result_len);

/* Runs a linear file, in the same way; refused is 1, 2, 3, 5, 20 to 22 or 31. */
void exporter_run_linear(const uint8_t *file, size_t file_len, uint64_t budget, uint64_t owner,
                         uint64_t *globals, size_t globals_len,
                         uint64_t *stack, size_t stack_len,
                         uint64_t *store, size_t store_len,
                         uint64_t *frames, size_t frames_len,
                         uint64_t *result, size_t result_len);

/* Runs a basic file as it is, in the same way; refused is 1 to 6 or 26 as exporter_tabulate gives them, 20 to 22 or 31. Templates have the tabulator's
   numbers; a frame's code place is a bit number in the basic file. */
void exporter_run_basic(const uint8_t *file, size_t file_len, uint64_t budget, uint64_t owner,
                        uint64_t *globals, size_t globals_len,
                        uint64_t *stack, size_t stack_len,
                        uint64_t *store, size_t store_len,
                        uint64_t *frames, size_t frames_len,
                        uint64_t *result, size_t result_len);

/* Pulls a list (document 02, Ask 9): runs one rule, a linear file, for each clip, and writes a line for each.
   clips: EXPORTER_CLIP_WORDS words for each clip: record in, record out, speed numerator, speed denominator, head handle,
   tail handle, first and last frame of its media. The rule finds the first six in globals 0 to 5, the others undefined, and
   leaves source in and out in globals 6 and 7. clips_len counts words.
   list: EXPORTER_CLIP_BYTES bytes or more for each clip.
   result[0]: 0 accepted, else the refusal's number: 27 (over EXPORTER_CLIPS clips, or a cut-off one), 28 (a denominator that
   is not positive), 29 (list too short), 21 (budget), 1, 2, 3, 5 (the file), in this order.
   result[1]: accepted: how many bytes the lines are; refused: the place, for 28 the lowest such clip, from 0.
   Accepted: the lines are the first result[1] bytes of list, the others are as they were. Refused: all of list is.
   A line is the clip's number from 0, then `wrong` and the number, `none`, or `order`, `low`, `high` or `ok` with in and out.
   result_len is 2 or more; slots after the first 2 stay. Where it is less, nothing at all is done. */
void exporter_pull_list(const int32_t *clips, size_t clips_len,
                        const uint8_t *file, size_t file_len, uint64_t budget,
                        uint8_t *list, size_t list_len,
                        uint64_t *result, size_t result_len);

#ifdef __cplusplus
}
#endif

#endif
