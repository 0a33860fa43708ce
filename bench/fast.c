/* Document 01 and requests 1, 2, 4, 7 and 12 of document 02, written for speed.

   - A tree file is read once, bits from a window of 64, with one test for all of an instruction's fields; that pass checks everything. The flattener has
     no nodes: it writes flat code as it reads, and fills an offset in where its list ends. The tree machine's pass makes code of 8 bytes an instruction, with
     a jump that is no step where what follows a list does not stand behind it.
   - The linear machine runs the file where it lies. Entries are cells, made once; one test at each step for the code's end, one switch.
   - No table is cleared but what the last template's entries left in one.
   - It is GNU C: labels as values, ranges in initializers. */
#include "fast.h"

#include <stdbool.h>
#include <string.h>

#define INLINE static inline __attribute__((always_inline))
#define SELDOM(condition) __builtin_expect(condition, 0)

enum {
    END = 0, RETURN, CALL, CONDITIONAL, MAKE_CONT, JUMP, LITERAL, CLOSURE, GLOBAL, SET_GLOBAL, LOCAL, SET_LOCAL, PUSH, MAKE_ENV,
    UNSPECIFIED = 15, CHECKARGS,
    CONS = 18, CAR, CDR, EQV, ADD, SUB, LESS, FLOOR_DIV
};

enum { CONSTANT = 1, GLOBAL_NUMBER, TEMPLATE_NUMBER };

enum {
    TREE_LIMIT = 65536, LINEAR_LIMIT = 262144, TEMPLATES = 64, LAST_LEVEL = 16,
    GLOBALS = 256, HOUSE_GLOBALS = 64, STACK = 256, STORE = 2048, FRAMES = 2048,
    TREE_BUDGET = 1000000, LINEAR_BUDGET = 2000000
};

typedef struct {
    uint64_t number, place;
} Refusal;

static bool refuse(Refusal *refusal, uint64_t number, uint64_t place)
{
    *refusal = (Refusal){ number, place };
    return false;
}

/* Cells */

typedef uint64_t Cell;

#define TAGGED(tag) ((Cell)(tag) << 60)

enum { FALSE_TAG = 1, TRUE_TAG, NULL_TAG, NOT_SPECIFIED_TAG, UNDEFINED_TAG, INTEGER_TAG, CLOSURE_TAG, PAIR_TAG, LAYER_TAG, FRAME_TAG };

INLINE Cell integer_cell(int64_t number)
{
    return TAGGED(INTEGER_TAG) | (Cell)number << 16 >> 4;
}

INLINE int64_t integer_of(Cell cell)
{
    return (int64_t)(cell << 4) >> 16;
}

/* Bits. Where eight bytes would reach beyond the file's end they are taken from its last seven, with zeros behind. */

typedef struct {
    const uint8_t *file;
    uint32_t end, last_from; /* in bits; the last seven bytes, or all where there are fewer */
    uint64_t last;
} Bits;

INLINE void open_bits(Bits *b, const uint8_t *file, size_t length)
{
    uint64_t eight = 0;
    b->file = file;
    b->end = 8 * (uint32_t)length;
    b->last_from = length < 8 ? 0 : b->end - 56;
    if (length >= 8) {
        memcpy(&eight, file + length - 8, sizeof eight);
        b->last = __builtin_bswap64(eight) << 8;
        return;
    }
    for (size_t i = 0; i < length; i++)
        eight |= (uint64_t)file[i] << (56 - 8 * i);
    b->last = eight;
}

/* From the bit `at`, highest first: 57 or more, as far as the file goes. */
INLINE uint64_t window(const Bits *b, uint32_t at)
{
    uint64_t eight;
    if (SELDOM(at >= b->last_from))
        return b->last << (at - b->last_from);
    memcpy(&eight, b->file + at / 8, sizeof eight);
    return __builtin_bswap64(eight) << at % 8;
}

enum { WINDOW = 57 };

/* What both files begin with */

INLINE bool read_count_of_templates(const Bits *b, Refusal *refusal)
{
    if (b->end == 0)
        return refuse(refusal, 2, 0);
    return (b->file[0] >= 1 && b->file[0] <= TEMPLATES) || refuse(refusal, 3, 0);
}

typedef struct {
    uint32_t kind;
    Cell held; /* the constant's cell, or the number */
} Entry;

INLINE bool read_entry(const Bits *b, uint32_t *at, uint32_t t, uint32_t templates, Entry *entry, Refusal *refusal)
{
    uint32_t from = *at, left = b->end - from, width;
    uint64_t w = window(b, from);
    entry->kind = (uint32_t)(w >> 62);
    if (SELDOM(left < 2))
        return refuse(refusal, 2, from);
    if (entry->kind == CONSTANT) {
        uint32_t tag = w >> 59 & 7;
        if (SELDOM(left < 5))
            return refuse(refusal, 2, from + 2);
        if (tag > 5)
            return refuse(refusal, 3, from + 2);
        width = tag < 4 ? 0 : tag == 4 ? 32 : 48;
        if (SELDOM(left < 5 + width))
            return refuse(refusal, 2, from + 5);
        entry->held = tag < 4 ? TAGGED(FALSE_TAG + tag) : integer_cell((int64_t)(w << 5) >> (64 - width));
        *at = from + 5 + width;
        return true;
    }
    if (entry->kind == 0)
        return refuse(refusal, 3, from);
    if (SELDOM(left < 10))
        return refuse(refusal, 2, from + 2);
    uint32_t number = w >> 54 & 0xff;
    if (entry->kind == TEMPLATE_NUMBER && (number <= t || number >= templates))
        return refuse(refusal, 3, from + 2);
    entry->held = number;
    *at = from + 10;
    return true;
}

/* Tree files */

/* Of each code: bits with its operands; bytes of flat code; the kind of entry that it names, as a mask and as what must be under it; whether it is a neutral
   without lists. */
typedef struct {
    uint8_t bits, bytes, mask, kind, neutral;
} __attribute__((aligned(8))) Info;

#define NEUTRAL(operands) { 5 + 8 * (operands), 1 + (operands), 0, 0, 1 }
#define NAMING(kind) { 13, 2, 3, kind, 1 }

static const Info infos[32] = {
    [END] = { .bits = 5 }, [RETURN] = { .bits = 5, .bytes = 1 }, [CALL] = { .bits = 13, .bytes = 2 },
    [CONDITIONAL] = { .bits = 5, .bytes = 3 }, [MAKE_CONT] = { .bits = 13, .bytes = 4 }, [JUMP] = { .bits = 5 },
    [LITERAL] = NAMING(CONSTANT), [CLOSURE] = NAMING(TEMPLATE_NUMBER), [GLOBAL] = NAMING(GLOBAL_NUMBER), [SET_GLOBAL] = NAMING(GLOBAL_NUMBER),
    [LOCAL] = NEUTRAL(2), [SET_LOCAL] = NEUTRAL(2), [PUSH] = NEUTRAL(0), [MAKE_ENV] = NEUTRAL(1), [14] = { .bits = 5 },
    [UNSPECIFIED] = NEUTRAL(0), [CHECKARGS] = NEUTRAL(1), [17] = { .bits = 5 }, [CONS] = NEUTRAL(0), [CAR] = NEUTRAL(0), [CDR] = NEUTRAL(0),
    [EQV] = NEUTRAL(0), [ADD] = NEUTRAL(0), [SUB] = NEUTRAL(0), [LESS] = NEUTRAL(0), [FLOOR_DIV] = NEUTRAL(0), [26 ... 31] = { .bits = 5 }
};

typedef enum { EMPTY_LIST, OPEN_LIST, CLOSED_LIST } Category;
typedef enum { CODE, FIRST_ARM, SECOND_ARM, SAVED_LIST } Role;

/* A make-cont stood: after one with a closed saved list a list ends closed, after one with another open. */
typedef enum { NO_CONT, CONT_CLOSED, CONT_OPEN } Cont;

/* A list that is being read. Of nodes, the `ends` are jumps from ends of lists to what follows this one: the newest and the oldest of a chain. */
typedef struct {
    uint8_t role, cont, first; /* first: what the first arm is */
    uint32_t from;             /* its first bit */
    uint32_t head, start;      /* where its instruction stands, and where its own code begins */
    uint32_t saved;            /* how many saved lists were aside when it began */
    uint32_t newest_end, oldest_end;
} Level;

enum { SHORT = 16, FLAT_ROOM = LINEAR_LIMIT + SHORT, NODES = TREE_LIMIT * 8 / 5 + 1, NONE = 0xffffffff };

static uint8_t flat[FLAT_ROOM];

/* Saved lists wait here until the list that holds their make-cont ends, the newest on top. */
static uint8_t aside[FLAT_ROOM];
static struct {
    uint32_t head, length;
} waiting[TREE_LIMIT * 8 / 18 + 1];

/* Code for the tree machine. A make-cont has two nodes, the second with the saved list's place alone; the saved list stands behind it. */
typedef struct {
    uint8_t code, n1, n2, none;
    uint32_t held; /* which of the constants, the global, the template; or how far to go; while a list is being read also another jump of the same chain */
} Node;

static Node nodes[NODES + 1];
static uint32_t node_start[TEMPLATES];
static Cell constants[TEMPLATES * 256];

typedef struct {
    Bits bits;
    uint32_t at, put; /* where it reads, and where it writes: flat code or nodes */
    Level *level;
    uint32_t saved, on_side, constant; /* how many saved lists are aside, how long they are together; how many constants there are */
    uint32_t offsets;                  /* of this template, by bits */
    bool closed, fit;                  /* this template's list, its indices */
    uint64_t named;                    /* templates, by bits */
    Level levels[LAST_LEVEL];
    uint32_t values[256]; /* of this template's entries, for nodes */
} Reader;

/* Of the template that is being read, or was last: kind, and from bit 2 the template; zeros behind the last. */
static uint8_t tree_entries[256];
static uint32_t tree_entries_count;

/* Where fewer bits are left than the longest instruction has: is the next one whole? */
static bool whole_instruction(uint64_t w, uint32_t at, uint32_t left, bool last_level, Refusal *refusal)
{
    uint32_t code = (uint32_t)(w >> 59);
    if (left < 5)
        return refuse(refusal, 2, at);
    if (left >= infos[code].bits || (code == MAKE_CONT && last_level))
        return true;
    return refuse(refusal, 2, left < 13 ? at + 5 : at + 13);
}

/* E and the entries as they are, zeros to the byte. */
static uint32_t copy_bits(const Bits *b, uint32_t from, uint32_t to, uint32_t put)
{
    for (; from < to; from += 56, put += 7) {
        uint64_t w = window(b, from), left = to - from;
        if (left < 56)
            w &= ~(~UINT64_C(0) >> left);
        w = __builtin_bswap64(w);
        memcpy(flat + put, &w, sizeof w);
        if (left < 56)
            return put + (uint32_t)(left + 7) / 8;
    }
    return put;
}

/* There is room for SHORT bytes, however few it copies. */
INLINE void copy_bytes(uint8_t *to, const uint8_t *from, uint32_t length)
{
    if (length > SHORT)
        memcpy(to, from, length);
    else
        memcpy(to, from, SHORT);
}

INLINE void put_offset(Reader *r, uint32_t place, uint32_t offset)
{
    flat[place] = (uint8_t)(offset >> 8);
    flat[place + 1] = (uint8_t)offset;
    r->offsets |= offset;
}

/* The saved lists of a list that ends, newest first: their make-conts' offsets, and themselves. */
INLINE void put_saved(Reader *r)
{
    while (r->saved > r->level->saved) {
        r->saved--;
        uint32_t length = waiting[r->saved].length, head = waiting[r->saved].head;
        put_offset(r, head + 1, r->put - (head + 4));
        r->on_side -= length;
        copy_bytes(flat + r->put, aside + r->on_side, length);
        r->put += length;
    }
}

INLINE void put_aside(Reader *r)
{
    uint32_t length = r->put - r->level->start;
    copy_bytes(aside + r->on_side, flat + r->level->start, length);
    waiting[r->saved].head = r->level->head;
    waiting[r->saved++].length = length;
    r->on_side += length;
    r->put = r->level->start;
}

/* A jump to what follows the list. */
INLINE void put_end(Reader *r)
{
    Level *level = r->level;
    nodes[r->put] = (Node){ .code = JUMP, .held = level->newest_end };
    if (level->newest_end == NONE)
        level->oldest_end = r->put;
    level->newest_end = r->put++;
}

/* What follows the list follows the one outside. */
INLINE void hand_ends_out(Level *level)
{
    Level *outer = level - 1;
    if (level->newest_end == NONE)
        return;
    nodes[level->oldest_end].held = outer->newest_end;
    if (outer->newest_end == NONE)
        outer->oldest_end = level->oldest_end;
    outer->newest_end = level->newest_end;
}

INLINE void end_here(const Reader *r)
{
    for (uint32_t jump = r->level->newest_end; jump != NONE;) {
        uint32_t next = nodes[jump].held;
        nodes[jump].held = r->put - jump;
        jump = next;
    }
}

/* Neutrals, as many as stand here; answers the code behind them, which is not taken yet. 32: refused. */
INLINE uint32_t read_neutrals(const bool flatten, Reader *r, Refusal *refusal)
{
    uint64_t w = 0;
    uint32_t at = r->at, put = r->put, code;
    int32_t whole_to = -1; /* an instruction that begins up to here is whole in the window */
    uint8_t unfit = 0;
    for (;;) {
        if ((int32_t)at > whole_to) {
            uint32_t left = r->bits.end - at;
            w = window(&r->bits, at);
            whole_to = (int32_t)(at + (left < WINDOW ? left : WINDOW)) - 21;
            if (SELDOM(left < 21) && !whole_instruction(w, at, left, r->level == r->levels + LAST_LEVEL - 1, refusal))
                return 32;
        }
        code = (uint32_t)(w >> 59);
        const Info *info = &infos[code];
        if (!info->neutral)
            break;
        uint32_t bytes = __builtin_bswap32((uint32_t)(w >> 35)), n1 = bytes >> 8 & 0xff; /* code, n1, n2, and a byte that does not matter */
        uint8_t entry = tree_entries[n1];
        if (flatten) {
            memcpy(flat + put, &bytes, sizeof bytes);
            put += info->bytes;
        } else {
            uint64_t node = bytes | (uint64_t)r->values[n1] << 32;
            memcpy(&nodes[put++], &node, sizeof node);
        }
        unfit |= (entry ^ info->kind) & info->mask;
        if (code == CLOSURE)
            r->named |= UINT64_C(1) << (entry >> 2);
        at += info->bits;
        w <<= info->bits;
    }
    if (unfit != 0)
        r->fit = false;
    r->at = at;
    r->put = put;
    return code;
}

/* Return or call: nothing stands behind them. */
INLINE void read_closing(const bool flatten, Reader *r, uint32_t code)
{
    uint32_t n1 = window(&r->bits, r->at) >> 51 & 0xff;
    r->at += infos[code].bits;
    if (flatten) {
        flat[r->put] = (uint8_t)code;
        flat[r->put + 1] = (uint8_t)n1;
        r->put += infos[code].bytes;
    } else {
        nodes[r->put++] = (Node){ .code = (uint8_t)code, .n1 = (uint8_t)n1 };
    }
}

INLINE bool open_list(const bool flatten, Reader *r, uint32_t code, Refusal *refusal)
{
    uint32_t n1 = window(&r->bits, r->at) >> 51 & 0xff;
    if (r->level == r->levels + LAST_LEVEL - 1)
        return refuse(refusal, 4, r->at);
    r->at += infos[code].bits;
    Level *level = ++r->level;
    level->role = code == CONDITIONAL ? FIRST_ARM : SAVED_LIST;
    level->cont = NO_CONT;
    level->from = r->at;
    level->head = r->put;
    if (flatten) {
        uint32_t bytes = code | n1 << 24;
        memcpy(flat + r->put, &bytes, sizeof bytes);
        r->put += infos[code].bytes;
        level->start = r->put;
        level->saved = r->saved;
    } else {
        nodes[r->put++] = (Node){ .code = (uint8_t)code, .n1 = (uint8_t)n1 };
        if (code == MAKE_CONT)
            nodes[r->put++].held = r->at;
        level->newest_end = NONE;
    }
    return true;
}

INLINE void end_first_arm(const bool flatten, Reader *r, Category category)
{
    Level *level = r->level;
    level->role = SECOND_ARM;
    level->cont = NO_CONT;
    level->from = r->at;
    level->first = (uint8_t)category;
    if (flatten) {
        if (category == OPEN_LIST) {
            flat[r->put] = JUMP;
            r->put += 3;
        }
        put_offset(r, level->head + 1, r->put - (level->head + 3));
        level->start = r->put;
    } else {
        if (category == OPEN_LIST)
            put_end(r);
        nodes[level->head].held = r->put - level->head;
    }
}

/* Is the next code a list's end? Where it is cut the file is refused anyway. */
INLINE bool list_ends(const Reader *r)
{
    return window(&r->bits, r->at) >> 59 == END;
}

INLINE void end_second_arm(const bool flatten, Reader *r, Category category)
{
    Level *level = r->level;
    if (category == EMPTY_LIST || category != level->first)
        r->closed = false;
    if (flatten) {
        if (level->first == OPEN_LIST)
            put_offset(r, level->start - 2, r->put - level->start);
    } else if (list_ends(r)) {
        hand_ends_out(level);
    } else {
        end_here(r);
    }
    r->level--;
}

INLINE void end_saved_list(const bool flatten, Reader *r, Category category)
{
    Level *level = r->level;
    if (flatten) {
        put_aside(r);
    } else {
        if (category != CLOSED_LIST) {
            put_end(r);
            hand_ends_out(level);
        }
        nodes[level->head].held = r->put - level->head;
    }
    r->level--;
    if (category != CLOSED_LIST && r->level->cont != NO_CONT)
        r->closed = false;
    if (r->level->cont == NO_CONT)
        r->level->cont = category == CLOSED_LIST ? CONT_CLOSED : CONT_OPEN;
}

/* A template's code. */
INLINE bool read_code(const bool flatten, Reader *r, Refusal *refusal)
{
    r->level = r->levels;
    *r->level = (Level){ .role = CODE, .cont = NO_CONT, .from = r->at, .saved = r->saved, .newest_end = NONE };
    bool closing = false; /* return, call or a closed conditional stood here */
    for (;;) {
        Category category;
        if (closing && list_ends(r)) {
            if (r->bits.end - r->at < 5)
                return refuse(refusal, 2, r->at);
            category = r->level->cont == CONT_OPEN ? OPEN_LIST : CLOSED_LIST;
        } else {
            if (closing)
                r->closed = false;
            uint32_t code = read_neutrals(flatten, r, refusal);
            closing = false;
            if (code == CONDITIONAL || code == MAKE_CONT) {
                if (!open_list(flatten, r, code, refusal))
                    return false;
                continue;
            }
            if (code == RETURN || code == CALL) {
                read_closing(flatten, r, code);
                closing = true;
                continue;
            }
            if (code != END)
                return code == 32 ? false : refuse(refusal, 3, r->at);
            category = r->at == r->level->from ? EMPTY_LIST : OPEN_LIST;
            if (r->level->cont != NO_CONT || r->level->role == CODE)
                r->closed = false;
        }
        r->at += 5;
        closing = false;
        if (flatten)
            put_saved(r);
        switch ((Role)r->level->role) {
        case CODE:
            if (category != CLOSED_LIST)
                r->closed = false;
            return true;
        case FIRST_ARM: end_first_arm(flatten, r, category); break;
        case SECOND_ARM:
            end_second_arm(flatten, r, category);
            closing = category == CLOSED_LIST;
            break;
        case SAVED_LIST: end_saved_list(flatten, r, category); break;
        }
    }
}

INLINE bool read_entries(const bool flatten, Reader *r, uint32_t t, uint32_t templates, Refusal *refusal)
{
    if (r->bits.end - r->at < 8)
        return refuse(refusal, 2, r->at);
    uint32_t count = (uint32_t)(window(&r->bits, r->at) >> 56);
    r->at += 8;
    memset(tree_entries + 1, 0, tree_entries_count);
    tree_entries_count = count;
    for (uint32_t n = 1; n <= count; n++) {
        Entry entry;
        if (!read_entry(&r->bits, &r->at, t, templates, &entry, refusal))
            return false;
        tree_entries[n] = (uint8_t)(entry.kind == TEMPLATE_NUMBER ? TEMPLATE_NUMBER | entry.held << 2 : entry.kind);
        if (!flatten) {
            r->values[n] = entry.kind == CONSTANT ? r->constant : (uint32_t)entry.held;
            if (entry.kind == CONSTANT)
                constants[r->constant++] = entry.held;
        }
    }
    return true;
}

/* Zero bits to the byte. */
INLINE bool read_padding(const Bits *b, uint32_t *at, Refusal *refusal)
{
    if (*at % 8 == 0)
        return true;
    uint64_t padding = window(b, *at) >> (56 + *at % 8) << (56 + *at % 8);
    if (padding != 0)
        return refuse(refusal, 5, *at + (uint32_t)__builtin_clzll(padding));
    *at += 8 - *at % 8;
    return true;
}

/* 1 to 7 and 24, and, where it flattens, 8. Leaves the linear file in flat, its length in *length; else the code in nodes. */
INLINE bool read_tree(const bool flatten, const uint8_t *file, size_t file_len, uint32_t *length, Refusal *refusal)
{
    Reader r;
    if (file_len > TREE_LIMIT)
        return refuse(refusal, 1, 0);
    open_bits(&r.bits, file, file_len);
    if (!read_count_of_templates(&r.bits, refusal))
        return false;
    uint32_t templates = file[0], not_closed = NONE, not_fit = NONE, too_far = NONE;
    r.at = 8;
    r.put = r.saved = r.on_side = r.constant = 0;
    r.named = 0;
    if (flatten)
        flat[r.put++] = (uint8_t)templates;
    for (uint32_t t = 0; t < templates; t++) {
        uint32_t from = r.at, code_from = 0;
        if (!read_entries(flatten, &r, t, templates, refusal))
            return false;
        if (flatten)
            r.put = code_from = copy_bits(&r.bits, from, r.at, r.put) + 3;
        else
            node_start[t] = r.put;
        r.offsets = 0;
        r.closed = r.fit = true;
        if (!read_code(flatten, &r, refusal))
            return false;
        if (!r.closed && not_closed == NONE)
            not_closed = t;
        if (!r.fit && not_fit == NONE)
            not_fit = t;
        if (flatten) {
            uint32_t size = r.put - code_from;
            if (r.offsets > 0xffff && too_far == NONE)
                too_far = t;
            flat[code_from - 3] = (uint8_t)(size >> 16);
            put_offset(&r, code_from - 2, size);
        }
    }
    if (!read_padding(&r.bits, &r.at, refusal))
        return false;
    if (r.at != r.bits.end)
        return refuse(refusal, 5, r.at);
    if (not_closed != NONE)
        return refuse(refusal, 6, not_closed);
    if (not_fit != NONE)
        return refuse(refusal, 7, not_fit);
    uint64_t orphans = ~r.named & (~UINT64_C(0) >> (64 - templates)) & ~UINT64_C(1);
    if (orphans != 0)
        return refuse(refusal, 24, (uint32_t)__builtin_ctzll(orphans));
    if (too_far != NONE)
        return refuse(refusal, 8, too_far);
    *length = r.put;
    return true;
}

void fast_flatten(FILE_LENT)
{
    Refusal refusal = { 0, 0 };
    uint32_t length;
    if (result_len < 2)
        return;
    if (!read_tree(true, file, file_len, &length, &refusal) || !(length <= out_len || refuse(&refusal, 9, length))) {
        result[0] = refusal.number;
        result[1] = refusal.place;
        return;
    }
    memcpy(out, flat, length);
    result[0] = 0;
    result[1] = length;
}

/* Linear files */

/* Bytes of a linear instruction. */
static const uint8_t linear_size[256] = {
    [RETURN] = 1, [CALL] = 2, [CONDITIONAL] = 3, [MAKE_CONT] = 4, [JUMP] = 3,
    [LITERAL] = 2, [CLOSURE] = 2, [GLOBAL] = 2, [SET_GLOBAL] = 2, [LOCAL] = 3, [SET_LOCAL] = 3,
    [PUSH] = 1, [MAKE_ENV] = 2, [UNSPECIFIED] = 1, [CHECKARGS] = 2,
    [CONS] = 1, [CAR] = 1, [CDR] = 1, [EQV] = 1, [ADD] = 1, [SUB] = 1, [LESS] = 1, [FLOOR_DIV] = 1
};

/* An entry is a constant's cell, a closure's with its template, or a global's number under a tag of our own. */
enum { GLOBAL_TAG = 8 };

typedef struct {
    const uint8_t *code;
    const Cell *entries; /* from index 0, which is no entry */
    uint32_t length, count;
} Linear;

static Linear linears[TEMPLATES];
static Cell linear_entries[TEMPLATES * 256];

static bool read_linear(const uint8_t *file, size_t file_len, Refusal *refusal)
{
    Bits b;
    if (file_len > LINEAR_LIMIT)
        return refuse(refusal, 1, 0);
    open_bits(&b, file, file_len);
    if (!read_count_of_templates(&b, refusal))
        return false;
    uint32_t templates = file[0], at = 8;
    Cell *cells = linear_entries;
    for (uint32_t t = 0; t < templates; t++) {
        if (b.end - at < 8)
            return refuse(refusal, 2, at);
        uint32_t count = file[at / 8];
        at += 8;
        linears[t].entries = cells;
        linears[t].count = count;
        *cells++ = 0;
        for (uint32_t n = 1; n <= count; n++) {
            Entry entry;
            if (!read_entry(&b, &at, t, templates, &entry, refusal))
                return false;
            *cells++ = entry.kind == CONSTANT ? entry.held
                : entry.kind == GLOBAL_NUMBER ? TAGGED(GLOBAL_TAG) | entry.held : TAGGED(CLOSURE_TAG) | entry.held << 52;
        }
        if (!read_padding(&b, &at, refusal))
            return false;
        if (b.end - at < 24)
            return refuse(refusal, 2, at);
        uint32_t length = (uint32_t)(window(&b, at) >> 40);
        at += 24;
        if ((b.end - at) / 8 < length)
            return refuse(refusal, 2, b.end);
        linears[t].code = file + at / 8;
        linears[t].length = length;
        at += 8 * length;
    }
    return at == b.end || refuse(refusal, 5, at);
}

/* Rules: each answers 0, or the wrong number and then has changed nothing. */

typedef struct {
    Cell *globals, *stack, *top, *store, *frames; /* top: behind the top of the stack */
    uint32_t in_store, in_frames, environment, template;
    bool vendor;
    Cell v;
} Machine;

INLINE uint32_t on_stack(const Machine *m)
{
    return (uint32_t)(m->top - m->stack);
}

INLINE void empty_stack(Machine *m)
{
    while (m->top != m->stack)
        *--m->top = 0;
}

INLINE unsigned make_closure(Machine *m, Cell closure)
{
    if (SELDOM(m->in_store == STORE))
        return 18;
    m->store[m->in_store] = TAGGED(NOT_SPECIFIED_TAG);
    m->v = closure | (Cell)m->environment << 36 | (Cell)m->in_store << 20;
    m->in_store++;
    return 0;
}

INLINE unsigned get_global(Machine *m, uint32_t number)
{
    if (SELDOM(number >= HOUSE_GLOBALS && !m->vendor))
        return 25;
    Cell cell = m->globals[number];
    if (SELDOM(cell == TAGGED(UNDEFINED_TAG)))
        return 12;
    m->v = cell;
    return 0;
}

INLINE unsigned set_global(Machine *m, uint32_t number)
{
    if (SELDOM((number < HOUSE_GLOBALS) == m->vendor))
        return 25;
    m->globals[number] = m->v;
    m->v = TAGGED(NOT_SPECIFIED_TAG);
    return 0;
}

INLINE Cell *find_local(const Machine *m, uint32_t n1, uint32_t n2)
{
    uint32_t environment = m->environment;
    if (environment == 0)
        return NULL;
    Cell layer = m->store[environment - 1];
    for (; n1 > 0; n1--) {
        environment = layer << 4 >> 48;
        if (SELDOM(environment == 0))
            return NULL;
        layer = m->store[environment - 1];
    }
    return n2 < (layer >> 36 & 0xff) ? &m->store[environment + n2] : NULL;
}

INLINE unsigned get_local(Machine *m, uint32_t n1, uint32_t n2)
{
    const Cell *cell = find_local(m, n1, n2);
    if (SELDOM(cell == NULL))
        return 13;
    if (SELDOM(*cell == TAGGED(UNDEFINED_TAG)))
        return 12;
    m->v = *cell;
    return 0;
}

INLINE unsigned set_local(Machine *m, uint32_t n1, uint32_t n2)
{
    Cell *cell = find_local(m, n1, n2);
    if (SELDOM(cell == NULL))
        return 13;
    *cell = m->v;
    m->v = TAGGED(NOT_SPECIFIED_TAG);
    return 0;
}

INLINE unsigned push(Machine *m)
{
    if (SELDOM(m->top == m->stack + STACK))
        return 17;
    *m->top++ = m->v;
    return 0;
}

INLINE unsigned make_env(Machine *m, uint32_t n)
{
    if (SELDOM(on_stack(m) != n))
        return 10;
    if (SELDOM(STORE - m->in_store < n + 1))
        return 18;
    Cell *to = m->store + m->in_store;
    *to = TAGGED(LAYER_TAG) | (Cell)m->environment << 44 | (Cell)n << 36;
    m->in_store += n + 1;
    m->environment = m->in_store - n;
    while (m->top != m->stack) {
        *++to = *--m->top;
        *m->top = 0;
    }
    return 0;
}

INLINE unsigned check_count(const Machine *m, uint32_t n)
{
    return SELDOM(on_stack(m) != n) ? 10 : 0;
}

INLINE unsigned enter_closure(Machine *m, uint32_t n)
{
    if (SELDOM(on_stack(m) != n))
        return 10;
    if (SELDOM(m->v >> 60 != CLOSURE_TAG))
        return 11;
    m->template = m->v >> 52 & 0xff;
    m->environment = m->v >> 36 & 0xffff;
    return 0;
}

INLINE unsigned save_frame(Machine *m, uint32_t n, uint32_t place)
{
    if (SELDOM(on_stack(m) != n))
        return 10;
    if (SELDOM(FRAMES - m->in_frames < n + 1))
        return 18;
    Cell *to = m->frames + m->in_frames;
    to[n] = TAGGED(FRAME_TAG) | (Cell)n << 52 | (Cell)m->template << 44 | (Cell)m->environment << 28 | (Cell)place << 4;
    for (to += n; m->top != m->stack; *m->top = 0)
        *--to = *--m->top;
    m->in_frames += n + 1;
    return 0;
}

/* There is one. */
INLINE uint32_t restore_frame(Machine *m)
{
    Cell *from = m->frames + m->in_frames - 1, frame = *from;
    uint32_t n = frame >> 52 & 0xff;
    *from = 0;
    m->in_frames -= n + 1;
    empty_stack(m);
    m->top = m->stack + n;
    for (Cell *to = m->top; to != m->stack; *from = 0)
        *--to = *--from;
    m->template = frame >> 44 & 0xff;
    m->environment = frame >> 28 & 0xffff;
    return frame >> 4 & 0xffffff;
}

INLINE unsigned cons(Machine *m)
{
    if (SELDOM(on_stack(m) < 2))
        return 10;
    if (SELDOM(STORE - m->in_store < 2))
        return 18;
    m->store[m->in_store] = m->top[-2];
    m->store[m->in_store + 1] = m->top[-1];
    m->v = TAGGED(PAIR_TAG) | (Cell)m->in_store << 44 | (Cell)(m->in_store + 1) << 28;
    m->in_store += 2;
    empty_stack(m);
    return 0;
}

INLINE unsigned part_of_pair(Machine *m, unsigned shift)
{
    if (SELDOM(m->top == m->stack))
        return 10;
    Cell pair = m->top[-1];
    if (SELDOM(pair >> 60 != PAIR_TAG))
        return 14;
    m->v = m->store[pair >> shift & 0xffff];
    empty_stack(m);
    return 0;
}

INLINE unsigned eqv(Machine *m)
{
    if (SELDOM(on_stack(m) < 2))
        return 10;
    m->v = m->top[-1] == m->top[-2] ? TAGGED(TRUE_TAG) : TAGGED(FALSE_TAG);
    empty_stack(m);
    return 0;
}

INLINE unsigned integer_result(Machine *m, int64_t number)
{
    if (SELDOM((uint64_t)(number + (INT64_C(1) << 47)) >> 48 != 0))
        return 15;
    m->v = integer_cell(number);
    empty_stack(m);
    return 0;
}

INLINE unsigned add(Machine *m)
{
    int64_t total = 0;
    for (const Cell *cell = m->stack; cell != m->top; cell++) {
        if (SELDOM(*cell >> 60 != INTEGER_TAG))
            return 14;
        total += integer_of(*cell);
    }
    return integer_result(m, total);
}

INLINE unsigned two_integers(const Machine *m)
{
    if (SELDOM(on_stack(m) != 2))
        return 10;
    return SELDOM(m->stack[0] >> 60 != INTEGER_TAG || m->stack[1] >> 60 != INTEGER_TAG) ? 14 : 0;
}

INLINE unsigned sub(Machine *m)
{
    unsigned wrong = two_integers(m);
    return wrong != 0 ? wrong : integer_result(m, integer_of(m->stack[0]) - integer_of(m->stack[1]));
}

INLINE unsigned less(Machine *m)
{
    unsigned wrong = two_integers(m);
    if (wrong != 0)
        return wrong;
    m->v = integer_of(m->stack[0]) < integer_of(m->stack[1]) ? TAGGED(TRUE_TAG) : TAGGED(FALSE_TAG);
    empty_stack(m);
    return 0;
}

INLINE unsigned floor_div(Machine *m)
{
    unsigned wrong = two_integers(m);
    if (wrong != 0)
        return wrong;
    int64_t left = integer_of(m->stack[0]), right = integer_of(m->stack[1]);
    if (SELDOM(right == 0))
        return 23;
    int64_t quotient = left / right;
    if (quotient * right != left && (left < 0) != (right < 0))
        quotient--;
    return integer_result(m, quotient);
}

/* Runs */

enum { HALTED, WRONG, OUT_OF_BUDGET, REFUSED };

/* A start's cell with its tag turned to the lowest bits is a tag alone, or an integer's, whose twelve lowest bits are above the tag now. */
INLINE bool is_starting_global(Cell cell)
{
    uint64_t turned = cell << 4 | cell >> 60;
    return (turned - FALSE_TAG < UNDEFINED_TAG) | ((turned & 0xffff) == INTEGER_TAG);
}

static bool globals_may_start(const Cell *globals, Refusal *refusal)
{
    bool all = true;
    for (unsigned g = 0; g < GLOBALS; g++)
        all &= is_starting_global(globals[g]);
    if (all)
        return true;
    unsigned g = 0;
    while (is_starting_global(globals[g]))
        g++;
    return refuse(refusal, 22, g);
}

INLINE bool may_start(bool lengths_fit, uint64_t budget, uint64_t largest, uint64_t owner, const Cell *globals, Refusal *refusal)
{
    if (!lengths_fit)
        return refuse(refusal, 20, 0);
    if (budget > largest)
        return refuse(refusal, 21, 0);
    if (owner > 1)
        return refuse(refusal, 31, 0);
    return globals_may_start(globals, refusal);
}

static void tell_refused(const Refusal *refusal, uint64_t *result)
{
    result[0] = REFUSED;
    result[1] = refusal->number;
    result[2] = refusal->place;
    for (unsigned i = 3; i < 8; i++)
        result[i] = 0;
}

INLINE void tell_ended(const Machine *m, uint64_t end, uint64_t number, uint64_t steps, uint64_t *result)
{
    result[0] = end;
    result[1] = number;
    result[2] = 0;
    result[3] = end == HALTED ? m->v : 0;
    result[4] = steps;
    result[5] = on_stack(m);
    result[6] = m->in_store;
    result[7] = m->in_frames;
}

INLINE Machine started(Cell *globals, Cell *stack, Cell *store, Cell *frames, uint64_t owner)
{
    memset(stack, 0, STACK * sizeof(Cell));
    memset(store, 0, STORE * sizeof(Cell));
    memset(frames, 0, FRAMES * sizeof(Cell));
    return (Machine){ .globals = globals, .stack = stack, .top = stack, .store = store, .frames = frames, .vendor = owner == 1,
                      .v = TAGGED(NOT_SPECIFIED_TAG) };
}

/* A rule that may be wrong. */
#define TRY(rule) \
    do { \
        if ((wrong = (rule)) != 0) \
            goto wrong_end; \
    } while (0)

/* The machines stand by themselves, so that they have all registers. A step ends by going to the next one's rule: a switch at each rule's end, without a
   test of its range. `left` is one less than the steps left, from where a rule is gone to. */
#define APART static __attribute__((noinline))
#define GO_TO(code) goto *rules[code]
#define LABEL(code) [code] = &&do_##code
#define LABELS \
    LABEL(RETURN), LABEL(CALL), LABEL(CONDITIONAL), LABEL(MAKE_CONT), LABEL(JUMP), LABEL(LITERAL), LABEL(CLOSURE), LABEL(GLOBAL), LABEL(SET_GLOBAL), \
    LABEL(LOCAL), LABEL(SET_LOCAL), LABEL(PUSH), LABEL(MAKE_ENV), LABEL(UNSPECIFIED), LABEL(CHECKARGS), LABEL(CONS), LABEL(CAR), LABEL(CDR), LABEL(EQV), \
    LABEL(ADD), LABEL(SUB), LABEL(LESS), LABEL(FLOOR_DIV)

/* Primitives have no operands, so both machines have these rules. */
#define PRIMITIVES \
    do_CONS: TRY(cons(&m)); NEXT(1); \
    do_CAR: TRY(part_of_pair(&m, 44)); NEXT(1); \
    do_CDR: TRY(part_of_pair(&m, 28)); NEXT(1); \
    do_EQV: TRY(eqv(&m)); NEXT(1); \
    do_ADD: TRY(add(&m)); NEXT(1); \
    do_SUB: TRY(sub(&m)); NEXT(1); \
    do_LESS: TRY(less(&m)); NEXT(1); \
    do_FLOOR_DIV: TRY(floor_div(&m)); NEXT(1);

/* An instruction is at most four bytes: where as many are left it is whole. */
#define NEXT(size) \
    do { \
        at += (size); \
        if (SELDOM(left-- == 0)) \
            goto out_of_budget; \
        if (SELDOM(at + 3 >= length)) \
            goto near_end; \
        GO_TO(code[at]); \
    } while (0)

#define FIND_ENTRY(fits) \
    do { \
        if (SELDOM(code[at + 1] > count)) \
            goto no_rule; \
        entry = entries[code[at + 1]]; \
        if (SELDOM(!(fits))) \
            goto no_rule; \
    } while (0)

#define OFFSET (code[at + 1] * 256u + code[at + 2])

APART void run_linear(Machine m, uint64_t budget, uint64_t *result)
{
    static const void *const rules[256] = { [0] = &&no_rule, [14] = &&no_rule, [17] = &&no_rule, [26 ... 255] = &&no_rule, LABELS };
    uint64_t left = budget;
    unsigned wrong;
    const uint8_t *code;
    const Cell *entries;
    uint32_t at = 0, length, count;
    Cell entry;

enter:
    code = linears[m.template].code;
    length = linears[m.template].length;
    entries = linears[m.template].entries;
    count = linears[m.template].count;
    NEXT(0);
do_RETURN:
    if (m.in_frames == 0) {
        tell_ended(&m, HALTED, 0, budget - left, result);
        return;
    }
    at = restore_frame(&m);
    goto enter;
do_CALL:
    TRY(enter_closure(&m, code[at + 1]));
    at = 0;
    goto enter;
do_CONDITIONAL: NEXT(3 + (m.v == TAGGED(FALSE_TAG) ? OFFSET : 0));
do_MAKE_CONT: TRY(save_frame(&m, code[at + 3], at + 4 + OFFSET)); NEXT(4);
do_JUMP: NEXT(3 + OFFSET);
do_LITERAL:
    FIND_ENTRY(entry != 0 && entry < TAGGED(CLOSURE_TAG));
    m.v = entry;
    NEXT(2);
do_CLOSURE:
    FIND_ENTRY(entry >> 60 == CLOSURE_TAG);
    TRY(make_closure(&m, entry));
    NEXT(2);
do_GLOBAL:
    FIND_ENTRY(entry >> 60 == GLOBAL_TAG);
    TRY(get_global(&m, (uint8_t)entry));
    NEXT(2);
do_SET_GLOBAL:
    FIND_ENTRY(entry >> 60 == GLOBAL_TAG);
    TRY(set_global(&m, (uint8_t)entry));
    NEXT(2);
do_LOCAL: TRY(get_local(&m, code[at + 1], code[at + 2])); NEXT(3);
do_SET_LOCAL: TRY(set_local(&m, code[at + 1], code[at + 2])); NEXT(3);
do_PUSH: TRY(push(&m)); NEXT(1);
do_MAKE_ENV: TRY(make_env(&m, code[at + 1])); NEXT(2);
do_UNSPECIFIED: m.v = TAGGED(NOT_SPECIFIED_TAG); NEXT(1);
do_CHECKARGS: TRY(check_count(&m, code[at + 1])); NEXT(2);
PRIMITIVES
near_end:
    if (at < length && linear_size[code[at]] <= length - at)
        GO_TO(code[at]);
no_rule:
    wrong = 16;
wrong_end:
    tell_ended(&m, WRONG, wrong, budget - left - 1, result);
    return;
out_of_budget:
    tell_ended(&m, OUT_OF_BUDGET, 19, budget, result);
}

#undef NEXT
#define NEXT(nodes_on) \
    do { \
        at += (nodes_on); \
        if (SELDOM(left-- == 0)) \
            goto out_of_budget; \
        GO_TO(at->code); \
    } while (0)

static const Node *resumed_at[FRAMES]; /* by the place of a frame's cell: its saved list */

APART void run_tree(Machine m, uint64_t budget, uint64_t *result)
{
    static const void *const rules[32] = { LABELS };
    uint64_t left = budget;
    unsigned wrong;
    const Node *at = nodes;
    NEXT(0);
do_JUMP: /* no step */
    at += at->held;
    GO_TO(at->code);
do_RETURN:
    if (m.in_frames == 0) {
        tell_ended(&m, HALTED, 0, budget - left, result);
        return;
    }
    at = resumed_at[m.in_frames - 1];
    restore_frame(&m);
    NEXT(0);
do_CALL:
    TRY(enter_closure(&m, at->n1));
    at = nodes + node_start[m.template];
    NEXT(0);
do_CONDITIONAL: NEXT(m.v == TAGGED(FALSE_TAG) ? at->held : 1);
do_MAKE_CONT:
    TRY(save_frame(&m, at->n1, at[1].held));
    resumed_at[m.in_frames - 1] = at + 2;
    NEXT(at->held);
do_LITERAL: m.v = constants[at->held]; NEXT(1);
do_CLOSURE: TRY(make_closure(&m, TAGGED(CLOSURE_TAG) | (Cell)at->held << 52)); NEXT(1);
do_GLOBAL: TRY(get_global(&m, at->held)); NEXT(1);
do_SET_GLOBAL: TRY(set_global(&m, at->held)); NEXT(1);
do_LOCAL: TRY(get_local(&m, at->n1, at->n2)); NEXT(1);
do_SET_LOCAL: TRY(set_local(&m, at->n1, at->n2)); NEXT(1);
do_PUSH: TRY(push(&m)); NEXT(1);
do_MAKE_ENV: TRY(make_env(&m, at->n1)); NEXT(1);
do_UNSPECIFIED: m.v = TAGGED(NOT_SPECIFIED_TAG); NEXT(1);
do_CHECKARGS: TRY(check_count(&m, at->n1)); NEXT(1);
PRIMITIVES
wrong_end:
    tell_ended(&m, WRONG, wrong, budget - left - 1, result);
    return;
out_of_budget:
    tell_ended(&m, OUT_OF_BUDGET, 19, budget, result);
}

APART bool read_nodes(const uint8_t *file, size_t file_len, Refusal *refusal)
{
    uint32_t length;
    return read_tree(false, file, file_len, &length, refusal);
}

INLINE void run_file(bool (*read)(const uint8_t *, size_t, Refusal *), void (*machine)(Machine, uint64_t, uint64_t *), uint64_t largest, RUN_LENT)
{
    Refusal refusal = { 0, 0 };
    bool lengths_fit = globals_len == GLOBALS && stack_len == STACK && store_len == STORE && frames_len == FRAMES;
    if (result_len < 8)
        return;
    if (!may_start(lengths_fit, budget, largest, owner, globals, &refusal) || !read(file, file_len, &refusal)) {
        tell_refused(&refusal, result);
        return;
    }
    machine(started(globals, stack, store, frames, owner), budget, result);
}

void fast_run_linear(RUN_LENT)
{
    run_file(read_linear, run_linear, LINEAR_BUDGET, RUN_GIVEN);
}

void fast_run_tree(RUN_LENT)
{
    run_file(read_nodes, run_tree, TREE_BUDGET, RUN_GIVEN);
}
