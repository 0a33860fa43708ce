#include "plain.h"

#include <stdbool.h>
#include <stdio.h>
#include <string.h>

enum {
    END = 0, RETURN, CALL, CONDITIONAL, MAKE_CONT, JUMP, LITERAL, CLOSURE, GLOBAL, SET_GLOBAL, LOCAL, SET_LOCAL, PUSH, MAKE_ENV,
    UNSPECIFIED = 15, CHECKARGS,
    CONS = 18, CAR, CDR, EQV, ADD, SUB, LESS, FLOOR_DIV, LAST_CODE = FLOOR_DIV
};

enum { NO_KIND, CONSTANT, GLOBAL_NUMBER, TEMPLATE_NUMBER };

enum {
    TREE_LIMIT = 65536, LINEAR_LIMIT = 262144,
    TEMPLATES = 64, INDICES = 256, LAST_LEVEL = 16, LARGEST_OFFSET = 65535,
    GLOBALS = 256, HOUSE_GLOBALS = 64, STACK = 256, STORE = 2048, FRAMES = 2048,
    HOUSE = 0, VENDOR = 1,
    TREE_BUDGET = 1000000, LINEAR_BUDGET = 2000000
};

/* Integers have 48 bits (request 7). A constant of tag 4 has 32 of them, one of tag 5 all. */
enum { NARROW_TAG = 4, WIDE_TAG, NARROW_BITS = 32, INTEGER_BITS = 48, BELOW_INTEGER = 12 };

static const int64_t greatest_integer = INT64_C(0x7fffffffffff), least_integer = -INT64_C(0x800000000000);

/* Bytes of a linear instruction; 0 is no instruction. */
static const uint8_t linear_size[LAST_CODE + 1] = {
    [RETURN] = 1, [CALL] = 2, [CONDITIONAL] = 3, [MAKE_CONT] = 4, [JUMP] = 3,
    [LITERAL] = 2, [CLOSURE] = 2, [GLOBAL] = 2, [SET_GLOBAL] = 2, [LOCAL] = 3, [SET_LOCAL] = 3,
    [PUSH] = 1, [MAKE_ENV] = 2, [UNSPECIFIED] = 1, [CHECKARGS] = 2,
    [CONS] = 1, [CAR] = 1, [CDR] = 1, [EQV] = 1, [ADD] = 1, [SUB] = 1, [LESS] = 1, [FLOOR_DIV] = 1
};

/* The kind of entry that an instruction names. */
static const uint8_t named_kind[LAST_CODE + 1] = {
    [LITERAL] = CONSTANT, [CLOSURE] = TEMPLATE_NUMBER, [GLOBAL] = GLOBAL_NUMBER, [SET_GLOBAL] = GLOBAL_NUMBER
};

uint64_t plain_firsts, plain_jumps;

/* Refusals */

static uint64_t refusal, refusal_place;

static bool refuse(uint64_t number, uint64_t place)
{
    refusal = number;
    refusal_place = place;
    return false;
}

/* Cells */

typedef uint64_t Cell;

enum {
    FALSE_TAG = 1, TRUE_TAG, NULL_TAG, NOT_SPECIFIED_TAG, UNDEFINED_TAG, INTEGER_TAG, CLOSURE_TAG, PAIR_TAG, LAYER_TAG, FRAME_TAG
};

static Cell tagged(unsigned tag)
{
    return (Cell)tag << 60;
}

static unsigned tag_of(Cell c)
{
    return (unsigned)(c >> 60);
}

/* The number whose lowest bits these are, in two's complement of so many. */
static int64_t signed_number(uint64_t bits, unsigned width)
{
    int64_t full = INT64_C(1) << width, number = (int64_t)(bits & ((uint64_t)full - 1));
    return number < full / 2 ? number : number - full;
}

static Cell integer_cell(int64_t number)
{
    return tagged(INTEGER_TAG) | ((Cell)number & ((UINT64_C(1) << INTEGER_BITS) - 1)) << BELOW_INTEGER;
}

static int64_t integer_value(Cell c)
{
    return signed_number(c >> BELOW_INTEGER, INTEGER_BITS);
}

static Cell closure_cell(Cell template, Cell environment, Cell location)
{
    return tagged(CLOSURE_TAG) | template << 52 | environment << 36 | location << 20;
}

static Cell pair_cell(Cell first, Cell second)
{
    return tagged(PAIR_TAG) | first << 44 | second << 28;
}

static Cell layer_cell(Cell parent, Cell count)
{
    return tagged(LAYER_TAG) | parent << 44 | count << 36;
}

static Cell frame_cell(Cell count, Cell template, Cell environment, Cell place)
{
    return tagged(FRAME_TAG) | count << 52 | template << 44 | environment << 28 | place << 4;
}

static bool is_starting_global(Cell c)
{
    unsigned tag = tag_of(c);
    if (tag == INTEGER_TAG)
        return c << (64 - BELOW_INTEGER) == 0;
    return tag >= FALSE_TAG && tag <= UNDEFINED_TAG && c << 4 == 0;
}

/* Fields. The file is copied, so that a field is cut out of eight bytes also at the file's end. */

static uint8_t file_bytes[LINEAR_LIMIT + 8];
static uint64_t file_bits, at;

static bool open_file(const uint8_t *file, size_t len, size_t limit)
{
    if (len > limit)
        return refuse(1, 0);
    if (len > 0)
        memcpy(file_bytes, file, len);
    memset(file_bytes + len, 0, 8);
    file_bits = 8 * (uint64_t)len;
    at = 0;
    return true;
}

static uint64_t bits_at(uint64_t place, unsigned width)
{
    const uint8_t *p = file_bytes + place / 8;
    uint64_t eight = (uint64_t)p[0] << 56 | (uint64_t)p[1] << 48 | (uint64_t)p[2] << 40 | (uint64_t)p[3] << 32
        | (uint64_t)p[4] << 24 | (uint64_t)p[5] << 16 | (uint64_t)p[6] << 8 | (uint64_t)p[7];
    return eight << place % 8 >> (64 - width);
}

static bool field(unsigned width, uint32_t *value)
{
    if (file_bits - at < width)
        return refuse(2, at);
    *value = (uint32_t)bits_at(at, width);
    at += width;
    return true;
}

static bool padding(void)
{
    for (; at % 8 != 0; at++)
        if (bits_at(at, 1) != 0)
            return refuse(5, at);
    return true;
}

static bool nothing_more(void)
{
    return at == file_bits || refuse(5, at);
}

/* Entries. Index 0 and indices above E keep NO_KIND. */

static unsigned templates;
static uint8_t kinds[TEMPLATES][INDICES];
static Cell held[TEMPLATES][INDICES]; /* the constant's cell, or the global's or template's number */

static bool read_count_of_templates(void)
{
    uint32_t count;
    if (!field(8, &count))
        return false;
    if (count < 1 || count > TEMPLATES)
        return refuse(3, at - 8);
    templates = count;
    return true;
}

static bool read_constant(Cell *constant)
{
    uint32_t tag;
    if (!field(3, &tag))
        return false;
    if (tag > WIDE_TAG)
        return refuse(3, at - 3);
    if (tag < NARROW_TAG) {
        *constant = tagged(FALSE_TAG + tag);
        return true;
    }
    unsigned width = tag == NARROW_TAG ? NARROW_BITS : INTEGER_BITS;
    if (file_bits - at < width)
        return refuse(2, at);
    *constant = integer_cell(signed_number(bits_at(at, width), width));
    at += width;
    return true;
}

static bool read_entry(unsigned t, unsigned n)
{
    uint32_t kind, number;
    if (!field(2, &kind))
        return false;
    if (kind == NO_KIND)
        return refuse(3, at - 2);
    kinds[t][n] = (uint8_t)kind;
    if (kind == CONSTANT)
        return read_constant(&held[t][n]);
    if (!field(8, &number))
        return false;
    if (kind == TEMPLATE_NUMBER && (number <= t || number >= templates))
        return refuse(3, at - 8);
    held[t][n] = number;
    return true;
}

static bool read_entries(unsigned t)
{
    uint32_t count;
    memset(kinds[t], NO_KIND, sizeof kinds[t]);
    if (!field(8, &count))
        return false;
    for (unsigned n = 1; n <= count; n++)
        if (!read_entry(t, n))
            return false;
    return true;
}

/* Tree files */

typedef enum { EMPTY_LIST, OPEN_LIST, CLOSED_LIST, NO_LIST } Category; /* NO_LIST: neither open, closed nor empty */

typedef struct Node {
    uint8_t code, n1, n2;
    bool open_arms;
    Category saved;                      /* of a make-cont's saved list */
    uint32_t saved_place;                /* first bit of the saved list */
    uint32_t first_length, second_length; /* flat lengths of the lists inside */
    Cell held;                           /* of the entry that n1 names */
    struct Node *first, *second;         /* arms; first also the saved list */
    struct Node *next;                   /* in its list; after link_list what follows, wherever it stands */
} Node;

typedef struct {
    Node *head;
    Category category;
    uint32_t length; /* flat */
} List;

typedef struct {
    uint64_t entries_from, entries_to; /* bits of the entries, without E */
    List code;
    bool entries_fit;
} Tree;

static Tree trees[TEMPLATES];
static Node nodes[2 * (TREE_LIMIT * 8 / 5 + 1)]; /* of a file, or of two that are joined */
static size_t node_count;

static bool is_tree_code(uint32_t code)
{
    return code <= LAST_CODE && code != JUMP && linear_size[code] != 0;
}

static unsigned tree_operands(uint32_t code)
{
    return code == CONDITIONAL ? 0 : code == MAKE_CONT ? 1 : linear_size[code] - 1u;
}

static bool read_operands(Node *node, unsigned t)
{
    uint32_t n[2] = { 0, 0 };
    unsigned count = tree_operands(node->code);
    for (unsigned i = 0; i < count; i++)
        if (!field(8, &n[i]))
            return false;
    node->n1 = (uint8_t)n[0];
    node->n2 = (uint8_t)n[1];
    if (named_kind[node->code] != NO_KIND) {
        node->held = held[t][node->n1];
        if (kinds[t][node->n1] != named_kind[node->code])
            trees[t].entries_fit = false;
    }
    return true;
}

/* How far a list has come towards being open or closed. */
typedef struct {
    bool any;         /* an instruction stood */
    bool ended;       /* return, call or a closed conditional stood */
    bool after_cont;  /* a make-cont stood: what follows it has to be closed */
    Category at_close; /* what the list is once it ends closed */
    bool fits;
} Progress;

static void add_make_cont(Progress *p, Category saved)
{
    if (saved == NO_LIST || (p->after_cont && saved != CLOSED_LIST))
        p->fits = false;
    if (!p->after_cont)
        p->at_close = saved == CLOSED_LIST ? CLOSED_LIST : OPEN_LIST;
    p->after_cont = true;
}

static void add_conditional(Progress *p, Category first, Category second)
{
    if (first != second || (first != OPEN_LIST && first != CLOSED_LIST))
        p->fits = false;
    if (first == CLOSED_LIST)
        p->ended = true;
}

static void add_instruction(Progress *p, const Node *node, Category first, Category second)
{
    if (p->ended)
        p->fits = false;
    p->any = true;
    if (node->code == MAKE_CONT)
        add_make_cont(p, first);
    else if (node->code == CONDITIONAL)
        add_conditional(p, first, second);
    else if (node->code == RETURN || node->code == CALL)
        p->ended = true;
}

static Category category_of(const Progress *p)
{
    if (!p->fits)
        return NO_LIST;
    if (p->ended)
        return p->at_close;
    if (p->after_cont)
        return NO_LIST;
    return p->any ? OPEN_LIST : EMPTY_LIST;
}

static uint32_t flat_length(const Node *node)
{
    uint32_t jump = node->open_arms ? linear_size[JUMP] : 0;
    return linear_size[node->code] + node->first_length + jump + node->second_length;
}

static bool read_list(unsigned t, unsigned level, List *list);

/* Basic byte code (request 6): literal carries its constant, global and set-global! a number, closure a list. Each gets the index that it has in a table. */

typedef struct {
    unsigned width; /* in bits, the kind included */
    uint64_t bits;
} Entry;

static bool reading_basic;
static Entry used_entries[TEMPLATES][INDICES]; /* by first use: the entry of index n stands at n - 1 */
static unsigned used_count[TEMPLATES];
static bool too_many_entries;
static Category basic_lists[TREE_LIMIT * 8 / 5 + 1]; /* of each template's list */

/* The entry's index in template t: an equal one's, else the next. Templates beyond the 64th keep none, since the file is refused for them. */
static uint8_t use_entry(unsigned t, unsigned width, uint64_t bits)
{
    unsigned n = 0;
    if (t >= TEMPLATES)
        return 0;
    while (n < used_count[t] && (used_entries[t][n].width != width || used_entries[t][n].bits != bits))
        n++;
    if (n == INDICES - 1) {
        too_many_entries = true;
        return 0;
    }
    if (n == used_count[t])
        used_entries[t][used_count[t]++] = (Entry){ width, bits };
    return (uint8_t)(n + 1);
}

static bool read_literal(Node *node, unsigned t)
{
    uint32_t kind;
    uint64_t from = at;
    if (!field(2, &kind))
        return false;
    if (kind != CONSTANT)
        return refuse(3, at - 2);
    if (!read_constant(&node->held))
        return false;
    node->n1 = use_entry(t, (unsigned)(at - from), bits_at(from, (unsigned)(at - from)));
    return true;
}

static bool read_global(Node *node, unsigned t)
{
    uint32_t number;
    if (!field(8, &number))
        return false;
    node->held = number;
    node->n1 = use_entry(t, 10, (GLOBAL_NUMBER << 8) + number);
    return true;
}

/* No other entry has its number. */
static bool read_closure(Node *node, unsigned t, unsigned level)
{
    List list = { 0 };
    unsigned number = templates++;
    node->held = number;
    node->n1 = use_entry(t, 10, (TEMPLATE_NUMBER << 8) + number);
    if (number < TEMPLATES)
        used_count[number] = 0;
    if (!read_list(number, level + 1, &list))
        return false;
    basic_lists[number] = list.category;
    if (number < TEMPLATES)
        trees[number].code = list;
    return true;
}

static bool read_carried(Node *node, unsigned t, unsigned level)
{
    switch (node->code) {
    case LITERAL: return read_literal(node, t);
    case CLOSURE: return read_closure(node, t, level);
    case GLOBAL: case SET_GLOBAL: return read_global(node, t);
    default: return read_operands(node, t);
    }
}

static bool read_inner_lists(Node *node, unsigned t, unsigned level, Progress *p)
{
    List first = { 0 }, second = { 0 };
    if (node->code == MAKE_CONT || node->code == CONDITIONAL) {
        node->saved_place = (uint32_t)at;
        if (!read_list(t, level + 1, &first))
            return false;
    }
    if (node->code == CONDITIONAL && !read_list(t, level + 1, &second))
        return false;
    node->first = first.head;
    node->second = second.head;
    node->first_length = first.length;
    node->second_length = second.length;
    node->open_arms = second.category == OPEN_LIST;
    node->saved = first.category;
    add_instruction(p, node, first.category, second.category);
    return true;
}

static bool read_list(unsigned t, unsigned level, List *list)
{
    Progress progress = { .at_close = CLOSED_LIST, .fits = true };
    Node **link = &list->head;
    uint32_t code;
    list->length = 0;
    for (;;) {
        if (!field(5, &code))
            return false;
        if (code == END)
            break;
        if (!is_tree_code(code))
            return refuse(3, at - 5);
        if (level == LAST_LEVEL && (code == CONDITIONAL || code == MAKE_CONT || (reading_basic && code == CLOSURE)))
            return refuse(4, at - 5);
        Node *node = &nodes[node_count++];
        node->code = (uint8_t)code;
        if (!(reading_basic ? read_carried(node, t, level) : read_operands(node, t)) || !read_inner_lists(node, t, level, &progress))
            return false;
        *link = node;
        link = &node->next;
        list->length += flat_length(node);
    }
    *link = NULL;
    list->category = category_of(&progress);
    return true;
}

static bool read_template(unsigned t)
{
    Tree *tree = &trees[t];
    tree->entries_fit = true;
    tree->entries_from = at + 8;
    if (!read_entries(t))
        return false;
    tree->entries_to = at;
    return read_list(t, 1, &tree->code);
}

/* Request 4: a closure instruction somewhere names each template but 0, whether it runs or not. Every index fits by now. */
static bool no_orphan(void)
{
    bool named[TEMPLATES] = { false };
    for (size_t i = 0; i < node_count; i++)
        if (nodes[i].code == CLOSURE)
            named[nodes[i].held] = true;
    for (unsigned t = 1; t < templates; t++)
        if (!named[t])
            return refuse(24, t);
    return true;
}

/* 1 to 5. */
static bool read_templates(const uint8_t *file, size_t len)
{
    if (!open_file(file, len, TREE_LIMIT) || !read_count_of_templates())
        return false;
    for (unsigned t = 0; t < templates; t++)
        if (!read_template(t))
            return false;
    return padding() && nothing_more();
}

static bool all_closed(void)
{
    for (unsigned t = 0; t < templates; t++)
        if (trees[t].code.category != CLOSED_LIST)
            return refuse(6, t);
    return true;
}

static bool all_indices_fit(void)
{
    for (unsigned t = 0; t < templates; t++)
        if (!trees[t].entries_fit)
            return refuse(7, t);
    return true;
}

static bool read_tree(const uint8_t *file, size_t len)
{
    node_count = 0;
    return read_templates(file, len) && all_closed() && all_indices_fit() && no_orphan();
}

/* A tree file is written into a buffer of our own, since a refusal must leave the caller's as it was. Behind what is written it holds zeros. */

static uint8_t tree_file[LINEAR_LIMIT]; /* what is refused for its length may be longer than a tree file */
static uint64_t tree_bits;

static size_t tree_length(void)
{
    return (size_t)((tree_bits + 7) / 8);
}

static void put_bits(uint64_t value, unsigned width)
{
    for (; width > 0; width--, tree_bits++)
        if (value >> (width - 1) & 1)
            tree_file[tree_bits / 8] |= (uint8_t)(0x80 >> tree_bits % 8);
}

static void begin_tree_file(unsigned count_of_templates)
{
    memset(tree_file, 0, tree_length());
    tree_bits = 0;
    put_bits(count_of_templates, 8);
}

static void put_list(const Node *node)
{
    for (; node != NULL; node = node->next) {
        unsigned operands = tree_operands(node->code);
        put_bits(node->code, 5);
        if (operands > 0)
            put_bits(node->n1, 8);
        if (operands > 1)
            put_bits(node->n2, 8);
        if (node->code == CONDITIONAL || node->code == MAKE_CONT)
            put_list(node->first);
        if (node->code == CONDITIONAL)
            put_list(node->second);
    }
    put_bits(END, 5);
}

/* Ends a call that writes a file: it is in bytes if it was made. */
static void tell_written(bool made, const uint8_t *bytes, size_t length, uint8_t *out, size_t out_len, uint64_t *result)
{
    bool written = made && (length <= out_len || refuse(9, length));
    if (written)
        memcpy(out, bytes, length);
    result[0] = written ? 0 : refusal;
    result[1] = written ? length : refusal_place;
}

/* Tabulating (request 6) */

/* A basic file is one list. 1 to 6. */
static bool read_basic_list(const uint8_t *file, size_t len)
{
    node_count = 0;
    templates = 1;
    used_count[0] = 0;
    too_many_entries = false;
    if (!open_file(file, len, TREE_LIMIT))
        return false;
    reading_basic = true;
    bool read = read_list(0, 1, &trees[0].code);
    reading_basic = false;
    if (!read || !padding() || !nothing_more())
        return false;
    basic_lists[0] = trees[0].code.category;
    for (unsigned t = 0; t < templates; t++)
        if (basic_lists[t] != CLOSED_LIST)
            return refuse(6, t);
    return true;
}

/* Leaves the tabulated file in tree_file: 26 asks for its length. */
static bool read_basic(const uint8_t *file, size_t len)
{
    if (!read_basic_list(file, len))
        return false;
    if (templates > TEMPLATES || too_many_entries)
        return refuse(26, 0);
    begin_tree_file(templates);
    for (unsigned t = 0; t < templates; t++) {
        put_bits(used_count[t], 8);
        for (unsigned n = 0; n < used_count[t]; n++)
            put_bits(used_entries[t][n].bits, used_entries[t][n].width);
        put_list(trees[t].code.head);
    }
    return tree_length() <= TREE_LIMIT || refuse(26, 0);
}

void plain_tabulate(FILE_LENT)
{
    if (result_len < 2)
        return;
    bool made = read_basic(file, file_len);
    tell_written(made, tree_file, tree_length(), out, out_len, result);
}

/* Flattening, into a buffer of our own: a refusal must leave the caller's as it was. */

static uint8_t linear_file[LINEAR_LIMIT];
static bool offset_too_large;

static uint8_t *put_offset(uint8_t *to, size_t offset)
{
    if (offset > LARGEST_OFFSET)
        offset_too_large = true;
    to[0] = (uint8_t)(offset / 256);
    to[1] = (uint8_t)offset;
    return to + 2;
}

static uint8_t *write_list(const Node *node, uint8_t *to, uint32_t length);

static uint8_t *write_conditional(const Node *node, uint8_t *to)
{
    *to++ = CONDITIONAL;
    to = put_offset(to, node->first_length + (node->open_arms ? linear_size[JUMP] : 0u));
    to = write_list(node->first, to, node->first_length);
    if (node->open_arms) {
        *to++ = JUMP;
        to = put_offset(to, node->second_length);
    }
    return write_list(node->second, to, node->second_length);
}

static uint8_t *write_plain(const Node *node, uint8_t *to)
{
    unsigned operands = linear_size[node->code] - 1u;
    *to++ = node->code;
    if (operands > 0)
        *to++ = node->n1;
    if (operands > 1)
        *to++ = node->n2;
    return to;
}

/* A make-cont's saved list stands behind the flat rest, so the list is filled from both sides. */
static uint8_t *write_list(const Node *node, uint8_t *to, uint32_t length)
{
    uint8_t *end = to + length, *back = end;
    for (; node != NULL; node = node->next) {
        if (node->code == CONDITIONAL) {
            to = write_conditional(node, to);
        } else if (node->code == MAKE_CONT) {
            back -= node->first_length;
            write_list(node->first, back, node->first_length);
            *to++ = MAKE_CONT;
            to = put_offset(to, (size_t)(back - (to + 3)));
            *to++ = node->n1;
        } else {
            to = write_plain(node, to);
        }
    }
    return end;
}

static uint8_t *write_entries(const Tree *tree, uint8_t *to)
{
    *to++ = (uint8_t)bits_at(tree->entries_from - 8, 8);
    for (uint64_t bit = tree->entries_from; bit < tree->entries_to; bit += 8) {
        uint64_t left = tree->entries_to - bit;
        uint32_t byte = (uint32_t)bits_at(bit, 8);
        *to++ = (uint8_t)(left < 8 ? byte >> (8 - left) << (8 - left) : byte);
    }
    return to;
}

static uint8_t *write_template(const Tree *tree, uint8_t *to)
{
    uint32_t length = tree->code.length;
    to = write_entries(tree, to);
    *to++ = (uint8_t)(length / 65536);
    *to++ = (uint8_t)(length / 256);
    *to++ = (uint8_t)length;
    return write_list(tree->code.head, to, length);
}

static bool write_linear_file(size_t *length)
{
    uint8_t *to = linear_file;
    *to++ = (uint8_t)templates;
    for (unsigned t = 0; t < templates; t++) {
        offset_too_large = false;
        to = write_template(&trees[t], to);
        if (offset_too_large)
            return refuse(8, t);
    }
    *length = (size_t)(to - linear_file);
    return true;
}

void plain_flatten(FILE_LENT)
{
    size_t length = 0;
    if (result_len < 2)
        return;
    bool made = read_tree(file, file_len) && write_linear_file(&length);
    tell_written(made, linear_file, length, out, out_len, result);
}

/* Joining (request 10): the templates of both operands are read, the prologue's list gets the file's as document 000 says, and the whole is written. */

static void copy_file_bits(const uint8_t *file, uint64_t from, uint64_t to)
{
    for (; from < to; from++)
        put_bits(file[from / 8] >> (7 - from % 8) & 1, 1);
}

static void move_indices(Node *node, unsigned by)
{
    for (; node != NULL; node = node->next) {
        if (named_kind[node->code] != NO_KIND)
            node->n1 = (uint8_t)(node->n1 + by);
        move_indices(node->first, by);
        move_indices(node->second, by);
    }
}

/* y and then w, y open or a saved list that is empty. */
static void open_adjoin(Node **y, Node *w)
{
    while (*y != NULL) {
        Node *node = *y;
        bool inwards = node->code == MAKE_CONT && (node->saved == OPEN_LIST || node->saved == EMPTY_LIST);
        y = inwards ? &node->first : &node->next;
    }
    *y = w;
}

static unsigned levels_of(const Node *node)
{
    unsigned most = 0;
    for (; node != NULL; node = node->next) {
        if (node->code != CONDITIONAL && node->code != MAKE_CONT)
            continue;
        unsigned first = levels_of(node->first), second = levels_of(node->second);
        most = first > most ? first : most;
        most = second > most ? second : most;
    }
    return most + 1;
}

static bool is_prologue(void)
{
    return templates == 1 && trees[0].code.category == OPEN_LIST;
}

static bool read_operands_of_join(const uint8_t *prologue, size_t prologue_len, const uint8_t *file, size_t file_len, Tree *house)
{
    node_count = 0;
    if (!read_templates(prologue, prologue_len) || !(is_prologue() || refuse(6, 0)) || !all_indices_fit())
        return false;
    *house = trees[0];
    return read_templates(file, file_len) && (is_prologue() || all_closed()) && all_indices_fit();
}

static bool join_files(const uint8_t *prologue, size_t prologue_len, const uint8_t *file, size_t file_len)
{
    Tree house;
    if (!read_operands_of_join(prologue, prologue_len, file, file_len, &house))
        return false;
    unsigned ours = prologue[1], theirs = file[1];
    if (ours + theirs > 255)
        return refuse(30, 0);
    move_indices(trees[0].code.head, ours);
    open_adjoin(&house.code.head, trees[0].code.head);
    if (levels_of(house.code.head) > LAST_LEVEL)
        return refuse(4, 0);
    begin_tree_file(templates);
    put_bits(ours + theirs, 8);
    copy_file_bits(prologue, house.entries_from, house.entries_to);
    copy_file_bits(file, trees[0].entries_from, trees[0].entries_to);
    put_list(house.code.head);
    for (unsigned t = 1; t < templates; t++) {
        copy_file_bits(file, trees[t].entries_from - 8, trees[t].entries_to);
        put_list(trees[t].code.head);
    }
    return tree_length() <= TREE_LIMIT || refuse(1, 0);
}

void plain_join(JOIN_LENT)
{
    if (result_len < 2)
        return;
    bool made = join_files(prologue, prologue_len, file, file_len);
    tell_written(made, tree_file, tree_length(), out, out_len, result);
}

/* Trimming (request 5): round after round the templates other than 0 that no closure of a template still there names are taken out, until a round takes none;
   then the entries that no instruction of their template names. The rest keeps its order. */

static uint8_t trim_list[TEMPLATES * INDICES * 12];

/* Marks the entries that instructions of the list name. */
static void mark_named(const Node *node, bool *named)
{
    for (; node != NULL; node = node->next) {
        if (named_kind[node->code] != NO_KIND)
            named[node->n1] = true;
        mark_named(node->first, named);
        mark_named(node->second, named);
    }
}

/* Takes out the orphans of one round; whether there were any. */
static bool take_orphans_out(bool there[], bool named[][INDICES])
{
    bool closed[TEMPLATES] = { true }, any = false;
    for (unsigned t = 0; t < templates; t++)
        for (unsigned n = 1; there[t] && n < INDICES; n++)
            if (named[t][n] && kinds[t][n] == TEMPLATE_NUMBER)
                closed[held[t][n]] = true;
    for (unsigned t = 0; t < templates; t++)
        if (there[t] && !closed[t]) {
            there[t] = false;
            any = true;
        }
    return any;
}

static unsigned entry_width(uint64_t place)
{
    if (bits_at(place, 2) != CONSTANT)
        return 10;
    uint64_t tag = bits_at(place + 2, 3);
    return tag == NARROW_TAG ? 5 + NARROW_BITS : tag == WIDE_TAG ? 5 + INTEGER_BITS : 5;
}

static void renumber_list(Node *node, const unsigned *new_index)
{
    for (; node != NULL; node = node->next) {
        if (named_kind[node->code] != NO_KIND)
            node->n1 = (uint8_t)new_index[node->n1];
        renumber_list(node->first, new_index);
        renumber_list(node->second, new_index);
    }
}

static uint8_t *put_list_line(uint8_t *to, unsigned template, unsigned entry, bool stays, unsigned number)
{
    char line[32];
    int length = stays ? snprintf(line, sizeof line, "%u %u %u\n", template, entry, number) : snprintf(line, sizeof line, "%u %u gone\n", template, entry);
    memcpy(to, line, (size_t)length);
    return to + length;
}

static size_t write_trimmed(const uint8_t *file, const bool there[], bool named[][INDICES])
{
    unsigned new_number[TEMPLATES], count = 0;
    uint8_t *line = trim_list;
    for (unsigned t = 0; t < templates; t++)
        new_number[t] = there[t] ? count++ : 0;
    begin_tree_file(count);
    for (unsigned t = 0; t < templates; t++) {
        unsigned entries = (unsigned)bits_at(trees[t].entries_from - 8, 8), left = 0, new_index[INDICES] = { 0 };
        for (unsigned n = 1; n <= entries; n++)
            if (named[t][n])
                new_index[n] = ++left;
        line = put_list_line(line, t, 0, there[t], new_number[t]);
        for (unsigned n = 1; n <= entries; n++)
            line = put_list_line(line, t, n, there[t] && named[t][n], new_index[n]);
        if (!there[t])
            continue;
        put_bits(left, 8);
        uint64_t place = trees[t].entries_from;
        for (unsigned n = 1; n <= entries; place += entry_width(place), n++) {
            if (!named[t][n])
                continue;
            if (kinds[t][n] == TEMPLATE_NUMBER) {
                put_bits(TEMPLATE_NUMBER, 2);
                put_bits(new_number[held[t][n]], 8);
            } else {
                copy_file_bits(file, place, place + entry_width(place));
            }
        }
        renumber_list(trees[t].code.head, new_index);
        put_list(trees[t].code.head);
    }
    return (size_t)(line - trim_list);
}

void plain_trim(TRIM_LENT)
{
    if (result_len < 3)
        return;
    bool there[TEMPLATES], named[TEMPLATES][INDICES] = { { false } };
    size_t length = 0, bytes = 0;
    node_count = 0;
    bool fits = read_templates(file, file_len) && all_closed() && all_indices_fit();
    if (fits) {
        for (unsigned t = 0; t < templates; t++) {
            there[t] = true;
            mark_named(trees[t].code.head, named[t]);
        }
        while (take_orphans_out(there, named))
            ;
        bytes = write_trimmed(file, there, named);
        length = tree_length();
        fits = (length <= out_len || refuse(9, length)) && (bytes <= list_len || refuse(9, bytes));
    }
    result[0] = fits ? 0 : refusal;
    result[1] = fits ? length : refusal_place;
    result[2] = fits ? bytes : 0;
    if (fits) {
        memcpy(out, tree_file, length);
        memcpy(list, trim_list, bytes);
    }
}

/* Linear files */

typedef struct {
    const uint8_t *code;
    uint32_t length;
    const uint8_t *kinds;
    const Cell *held;
    uint64_t entries, entries_end; /* the bits of E and the entries */
} Linear;

static Linear linears[TEMPLATES];

static bool read_code(unsigned t)
{
    Linear *linear = &linears[t];
    if (!field(24, &linear->length))
        return false;
    if (file_bits - at < 8 * (uint64_t)linear->length)
        return refuse(2, file_bits);
    linear->code = file_bytes + at / 8;
    linear->kinds = kinds[t];
    linear->held = held[t];
    at += 8 * (uint64_t)linear->length;
    return true;
}

static bool read_linear(const uint8_t *file, size_t len)
{
    if (!open_file(file, len, LINEAR_LIMIT) || !read_count_of_templates())
        return false;
    for (unsigned t = 0; t < templates; t++) {
        linears[t].entries = at;
        if (!read_entries(t))
            return false;
        linears[t].entries_end = at;
        if (!padding() || !read_code(t))
            return false;
    }
    return nothing_more();
}

/* Rules: each answers 0, or the wrong number and then has changed nothing. They stand inline in both machines, which keep
   their registers in the processor's that way. Counts are small, so cells are moved in loops. */

#define RULE static inline __attribute__((always_inline))

typedef enum { HALTED, WRONG, OUT_OF_BUDGET, REFUSED } End;

typedef struct {
    Cell *globals, *stack, *store, *frames;
    uint32_t on_stack, in_store, in_frames;
    Cell v;
    uint32_t template, environment;
    bool vendor; /* whose run it is: a vendor's, or the house's */
    uint64_t steps;
    End end;
    unsigned wrong;
} Machine;

RULE void empty_stack(Machine *m)
{
    for (uint32_t i = 0; i < m->on_stack; i++)
        m->stack[i] = 0;
    m->on_stack = 0;
}

RULE unsigned make_closure(Machine *m, Cell template)
{
    if (m->in_store == STORE)
        return 18;
    m->store[m->in_store] = tagged(NOT_SPECIFIED_TAG);
    m->v = closure_cell(template, m->environment, m->in_store);
    m->in_store++;
    return 0;
}

/* Owners (document 02, request 12): the house reads and sets its own alone, a vendor reads all and sets its own alone. */

RULE bool is_the_house_s(Cell number)
{
    return number < HOUSE_GLOBALS;
}

RULE unsigned get_global(Machine *m, Cell number)
{
    if (!m->vendor && !is_the_house_s(number))
        return 25;
    if (m->globals[number] == tagged(UNDEFINED_TAG))
        return 12;
    m->v = m->globals[number];
    return 0;
}

RULE unsigned set_global(Machine *m, Cell number)
{
    if (m->vendor == is_the_house_s(number))
        return 25;
    m->globals[number] = m->v;
    m->v = tagged(NOT_SPECIFIED_TAG);
    return 0;
}

/* The local's cell, or NULL where there is none. An environment is its layer's location + 1, and 0 is empty. */
RULE Cell *find_local(const Machine *m, unsigned n1, unsigned n2)
{
    uint32_t environment = m->environment;
    for (; n1 > 0 && environment != 0; n1--)
        environment = m->store[environment - 1] >> 44 & 0xffff;
    if (environment == 0 || n2 >= (m->store[environment - 1] >> 36 & 0xff))
        return NULL;
    return &m->store[environment + n2];
}

RULE unsigned get_local(Machine *m, unsigned n1, unsigned n2)
{
    const Cell *cell = find_local(m, n1, n2);
    if (cell == NULL)
        return 13;
    if (*cell == tagged(UNDEFINED_TAG))
        return 12;
    m->v = *cell;
    return 0;
}

RULE unsigned set_local(Machine *m, unsigned n1, unsigned n2)
{
    Cell *cell = find_local(m, n1, n2);
    if (cell == NULL)
        return 13;
    *cell = m->v;
    m->v = tagged(NOT_SPECIFIED_TAG);
    return 0;
}

RULE unsigned push(Machine *m)
{
    if (m->on_stack == STACK)
        return 17;
    m->stack[m->on_stack++] = m->v;
    return 0;
}

RULE unsigned make_env(Machine *m, unsigned n)
{
    if (m->on_stack != n)
        return 10;
    if (STORE - m->in_store < n + 1)
        return 18;
    uint32_t layer = m->in_store;
    m->store[layer] = layer_cell(m->environment, n);
    for (unsigned i = 0; i < n; i++)
        m->store[layer + 1 + i] = m->stack[n - 1 - i];
    m->in_store += n + 1;
    m->environment = layer + 1;
    empty_stack(m);
    return 0;
}

RULE unsigned cons(Machine *m)
{
    if (m->on_stack < 2)
        return 10;
    if (STORE - m->in_store < 2)
        return 18;
    m->store[m->in_store] = m->stack[m->on_stack - 2];
    m->store[m->in_store + 1] = m->stack[m->on_stack - 1];
    m->v = pair_cell(m->in_store, m->in_store + 1);
    m->in_store += 2;
    empty_stack(m);
    return 0;
}

RULE unsigned part_of_pair(Machine *m, unsigned shift)
{
    if (m->on_stack < 1)
        return 10;
    Cell top = m->stack[m->on_stack - 1];
    if (tag_of(top) != PAIR_TAG)
        return 14;
    m->v = m->store[top >> shift & 0xffff];
    empty_stack(m);
    return 0;
}

RULE unsigned eqv(Machine *m)
{
    if (m->on_stack < 2)
        return 10;
    m->v = tagged(m->stack[m->on_stack - 1] == m->stack[m->on_stack - 2] ? TRUE_TAG : FALSE_TAG);
    empty_stack(m);
    return 0;
}

/* An integer as a primitive's value; 15 out of range. A total of 256 integers is within 64 bits. */
RULE unsigned integer_result(Machine *m, int64_t value)
{
    if (value < least_integer || value > greatest_integer)
        return 15;
    m->v = integer_cell(value);
    empty_stack(m);
    return 0;
}

RULE unsigned add(Machine *m)
{
    int64_t total = 0;
    for (uint32_t i = 0; i < m->on_stack; i++) {
        if (tag_of(m->stack[i]) != INTEGER_TAG)
            return 14;
        total += integer_value(m->stack[i]);
    }
    return integer_result(m, total);
}

/* Exactly two integers, the left operand below the top. */
RULE unsigned two_integers(const Machine *m, int64_t *left, int64_t *right)
{
    if (m->on_stack != 2)
        return 10;
    if (tag_of(m->stack[0]) != INTEGER_TAG || tag_of(m->stack[1]) != INTEGER_TAG)
        return 14;
    *left = integer_value(m->stack[0]);
    *right = integer_value(m->stack[1]);
    return 0;
}

RULE unsigned sub(Machine *m)
{
    int64_t left = 0, right = 0;
    unsigned wrong = two_integers(m, &left, &right);
    return wrong != 0 ? wrong : integer_result(m, left - right);
}

RULE unsigned less(Machine *m)
{
    int64_t left = 0, right = 0;
    unsigned wrong = two_integers(m, &left, &right);
    if (wrong != 0)
        return wrong;
    m->v = tagged(left < right ? TRUE_TAG : FALSE_TAG);
    empty_stack(m);
    return 0;
}

/* Toward minus infinity: the remainder has the divisor's sign. */
RULE unsigned floor_div(Machine *m)
{
    int64_t left = 0, right = 0;
    unsigned wrong = two_integers(m, &left, &right);
    if (wrong != 0)
        return wrong;
    if (right == 0)
        return 23;
    int64_t remainder = left % right;
    if (remainder != 0 && (remainder < 0) != (right < 0))
        remainder += right;
    return integer_result(m, (left - remainder) / right);
}

RULE unsigned enter_closure(Machine *m, unsigned n)
{
    if (m->on_stack != n)
        return 10;
    if (tag_of(m->v) != CLOSURE_TAG)
        return 11;
    m->template = m->v >> 52 & 0xff;
    m->environment = m->v >> 36 & 0xffff;
    return 0;
}

RULE unsigned save_frame(Machine *m, unsigned n, uint32_t place)
{
    if (m->on_stack != n)
        return 10;
    if (FRAMES - m->in_frames < n + 1)
        return 18;
    for (unsigned i = 0; i < n; i++)
        m->frames[m->in_frames + i] = m->stack[i];
    m->frames[m->in_frames + n] = frame_cell(n, m->template, m->environment, place);
    m->in_frames += n + 1;
    empty_stack(m);
    return 0;
}

/* Takes the last frame back and answers its code place. */
RULE uint32_t restore_frame(Machine *m)
{
    Cell frame = m->frames[m->in_frames - 1];
    uint32_t n = frame >> 52 & 0xff;
    m->in_frames -= n + 1;
    empty_stack(m);
    for (unsigned i = 0; i < n; i++) {
        m->stack[i] = m->frames[m->in_frames + i];
        m->frames[m->in_frames + i] = 0;
    }
    m->frames[m->in_frames + n] = 0;
    m->on_stack = n;
    m->template = frame >> 44 & 0xff;
    m->environment = frame >> 28 & 0xffff;
    return frame >> 4 & 0xffffff;
}

/* The tree machine */

static Node *standing_at[TREE_LIMIT * 8]; /* at the first bit of a saved list; nothing else is asked for */

static void link_list(Node *node, Node *after)
{
    while (node != NULL) {
        Node *in_list = node->next;
        if (in_list == NULL)
            node->next = after;
        if (node->code == CONDITIONAL) {
            link_list(node->first, node->next);
            link_list(node->second, node->next);
        } else if (node->code == MAKE_CONT) {
            link_list(node->first, after);
            standing_at[node->saved_place] = node->first != NULL ? node->first : after;
        }
        node = in_list;
    }
}

static void run_tree(Machine *machine, uint64_t budget)
{
    Machine m = *machine;
    const Node *node = trees[0].code.head;
    uint64_t firsts = 0, steps = 0;
    for (unsigned t = 0; t < templates; t++)
        link_list(trees[t].code.head, NULL);
    while (steps < budget) {
        const Node *next = node->next;
        unsigned wrong = 0;
        switch (node->code) {
        case RETURN:
            if (m.in_frames == 0) {
                steps++;
                m.end = HALTED;
                goto ended;
            }
            next = standing_at[restore_frame(&m)];
            break;
        case CALL:
            wrong = enter_closure(&m, node->n1);
            next = trees[m.template].code.head;
            break;
        case CONDITIONAL:
            if (m.v == tagged(FALSE_TAG)) {
                next = node->second;
            } else {
                next = node->first;
                firsts += node->open_arms;
            }
            break;
        case MAKE_CONT:
            wrong = save_frame(&m, node->n1, node->saved_place);
            break;
        case LITERAL: m.v = node->held; break;
        case CLOSURE: wrong = make_closure(&m, node->held); break;
        case GLOBAL: wrong = get_global(&m, node->held); break;
        case SET_GLOBAL: wrong = set_global(&m, node->held); break;
        case LOCAL: wrong = get_local(&m, node->n1, node->n2); break;
        case SET_LOCAL: wrong = set_local(&m, node->n1, node->n2); break;
        case PUSH: wrong = push(&m); break;
        case MAKE_ENV: wrong = make_env(&m, node->n1); break;
        case UNSPECIFIED: m.v = tagged(NOT_SPECIFIED_TAG); break;
        case CHECKARGS: wrong = m.on_stack == node->n1 ? 0 : 10; break;
        case CONS: wrong = cons(&m); break;
        case CAR: wrong = part_of_pair(&m, 44); break;
        case CDR: wrong = part_of_pair(&m, 28); break;
        case EQV: wrong = eqv(&m); break;
        case ADD: wrong = add(&m); break;
        case SUB: wrong = sub(&m); break;
        case LESS: wrong = less(&m); break;
        case FLOOR_DIV: wrong = floor_div(&m); break;
        }
        if (wrong != 0) {
            m.end = WRONG;
            m.wrong = wrong;
            goto ended;
        }
        steps++;
        node = next;
    }
    m.end = OUT_OF_BUDGET;
    m.wrong = 19;
ended:
    m.steps = steps;
    plain_firsts = firsts;
    *machine = m;
}

/* The linear machine */

static uint32_t offset_of(const uint8_t *operands)
{
    return operands[0] * 256u + operands[1];
}

static inline bool stands(const Linear *here, uint32_t position)
{
    if (position >= here->length)
        return false;
    const uint8_t *instruction = here->code + position;
    unsigned code = instruction[0];
    if (code > LAST_CODE || linear_size[code] == 0 || here->length - position < linear_size[code])
        return false;
    return named_kind[code] == NO_KIND || here->kinds[instruction[1]] == named_kind[code];
}

static void run_linear(Machine *machine, uint64_t budget)
{
    Machine m = *machine;
    const Linear *here = &linears[0];
    uint32_t position = 0;
    uint64_t jumps = 0, steps = 0;
    while (steps < budget) {
        unsigned wrong = 0;
        if (!stands(here, position)) {
            m.end = WRONG;
            m.wrong = 16;
            goto ended;
        }
        const uint8_t *instruction = here->code + position;
        unsigned n1 = instruction[1], n2 = instruction[2]; /* what stands there, also where it is no operand */
        Cell entry = here->held[n1];
        switch (instruction[0]) {
        case RETURN:
            if (m.in_frames == 0) {
                steps++;
                m.end = HALTED;
                goto ended;
            }
            position = restore_frame(&m);
            here = &linears[m.template];
            break;
        case CALL:
            wrong = enter_closure(&m, n1);
            here = &linears[m.template];
            position = 0;
            break;
        case CONDITIONAL:
            position += 3;
            if (m.v == tagged(FALSE_TAG))
                position += offset_of(instruction + 1);
            break;
        case MAKE_CONT:
            position += 4;
            wrong = save_frame(&m, instruction[3], position + offset_of(instruction + 1));
            break;
        case JUMP:
            position += 3 + offset_of(instruction + 1);
            jumps++;
            break;
        case LITERAL: position += 2; m.v = entry; break;
        case CLOSURE: position += 2; wrong = make_closure(&m, entry); break;
        case GLOBAL: position += 2; wrong = get_global(&m, entry); break;
        case SET_GLOBAL: position += 2; wrong = set_global(&m, entry); break;
        case LOCAL: position += 3; wrong = get_local(&m, n1, n2); break;
        case SET_LOCAL: position += 3; wrong = set_local(&m, n1, n2); break;
        case PUSH: position += 1; wrong = push(&m); break;
        case MAKE_ENV: position += 2; wrong = make_env(&m, n1); break;
        case UNSPECIFIED: position += 1; m.v = tagged(NOT_SPECIFIED_TAG); break;
        case CHECKARGS: position += 2; wrong = m.on_stack == n1 ? 0 : 10; break;
        case CONS: position += 1; wrong = cons(&m); break;
        case CAR: position += 1; wrong = part_of_pair(&m, 44); break;
        case CDR: position += 1; wrong = part_of_pair(&m, 28); break;
        case EQV: position += 1; wrong = eqv(&m); break;
        case ADD: position += 1; wrong = add(&m); break;
        case SUB: position += 1; wrong = sub(&m); break;
        case LESS: position += 1; wrong = less(&m); break;
        case FLOOR_DIV: position += 1; wrong = floor_div(&m); break;
        }
        if (wrong != 0) {
            m.end = WRONG;
            m.wrong = wrong;
            goto ended;
        }
        steps++;
    }
    m.end = OUT_OF_BUDGET;
    m.wrong = 19;
ended:
    m.steps = steps;
    plain_jumps = jumps;
    *machine = m;
}

/* Runs */

static bool may_start(bool lengths_fit, uint64_t budget, uint64_t largest_budget, uint64_t owner, const Cell *globals)
{
    if (!lengths_fit)
        return refuse(20, 0);
    if (budget > largest_budget)
        return refuse(21, 0);
    if (owner != HOUSE && owner != VENDOR)
        return refuse(31, 0);
    for (unsigned g = 0; g < GLOBALS; g++)
        if (!is_starting_global(globals[g]))
            return refuse(22, g);
    return true;
}

static void start(Machine *m)
{
    memset(m->stack, 0, STACK * sizeof(Cell));
    memset(m->store, 0, STORE * sizeof(Cell));
    memset(m->frames, 0, FRAMES * sizeof(Cell));
    m->v = tagged(NOT_SPECIFIED_TAG);
}

static void tell_refused(uint64_t *result)
{
    memset(result, 0, 8 * sizeof result[0]);
    result[0] = REFUSED;
    result[1] = refusal;
    result[2] = refusal_place;
}

static void tell_ended(const Machine *m, uint64_t *result)
{
    result[0] = m->end;
    result[1] = m->end == HALTED ? 0 : m->wrong;
    result[2] = 0;
    result[3] = m->end == HALTED ? m->v : 0;
    result[4] = m->steps;
    result[5] = m->on_stack;
    result[6] = m->in_store;
    result[7] = m->in_frames;
}

/* Reads the file and runs it; largest is the largest budget. */
static void run_file(bool (*read)(const uint8_t *, size_t), void (*machine)(Machine *, uint64_t), uint64_t largest, RUN_LENT)
{
    bool lengths_fit = globals_len == GLOBALS && stack_len == STACK && store_len == STORE && frames_len == FRAMES;
    Machine m = { .globals = globals, .stack = stack, .store = store, .frames = frames, .vendor = owner == VENDOR };
    if (result_len < 8)
        return;
    if (!may_start(lengths_fit, budget, largest, owner, globals) || !read(file, file_len)) {
        tell_refused(result);
        return;
    }
    start(&m);
    machine(&m, budget);
    tell_ended(&m, result);
}

void plain_run_tree(RUN_LENT)
{
    run_file(read_tree, run_tree, TREE_BUDGET, RUN_GIVEN);
}

/* The nodes of a basic file are a tree's; a saved place is a bit number in the basic file. */
void plain_run_basic(RUN_LENT)
{
    run_file(read_basic, run_tree, TREE_BUDGET, RUN_GIVEN);
}

void plain_run_linear(RUN_LENT)
{
    run_file(read_linear, run_linear, LINEAR_BUDGET, RUN_GIVEN);
}

/* The pull list (document 02, Ask 9) */

enum { CLIP_WORDS = 8, MOST_CLIPS = 256, BYTES_A_CLIP = 48, INPUTS = 6 };
enum { DENOMINATOR = 3, MEDIA_FIRST = 6, MEDIA_LAST = 7 };  /* words of a clip */
enum { SOURCE_IN = 6, SOURCE_OUT = 7 };                     /* globals */

static bool may_pull(const int32_t *clips, size_t words, size_t list_len, uint64_t budget)
{
    if (words % CLIP_WORDS != 0 || words / CLIP_WORDS > MOST_CLIPS)
        return refuse(27, 0);
    for (size_t k = 0; k < words / CLIP_WORDS; k++)
        if (clips[CLIP_WORDS * k + DENOMINATOR] < 1)
            return refuse(28, k);
    if (list_len < BYTES_A_CLIP * (words / CLIP_WORDS))
        return refuse(29, 0);
    return budget <= LINEAR_BUDGET || refuse(21, 0);
}

static char *put_text(char *to, const char *text)
{
    while (*text != 0)
        *to++ = *text++;
    return to;
}

static char *put_value(char *to, int64_t value)
{
    char digits[20];
    unsigned count = 0;
    uint64_t left = value < 0 ? 0 - (uint64_t)value : (uint64_t)value;
    do {
        digits[count++] = (char)('0' + left % 10);
        left /= 10;
    } while (left > 0);
    if (value < 0)
        *to++ = '-';
    while (count > 0)
        *to++ = digits[--count];
    return to;
}

/* A clip's word as an integer: the one place that knows an integer's width here. */
static Cell word_cell(int32_t word)
{
    return integer_cell(word);
}

static const char *verdict(int64_t in, int64_t out, const int32_t *clip)
{
    if (in > out)
        return " order ";
    if (in < clip[MEDIA_FIRST])
        return " low ";
    if (out > clip[MEDIA_LAST])
        return " high ";
    return " ok ";
}

/* What stands behind the clip's number. */
static char *put_end(char *to, const Machine *m, const int32_t *clip)
{
    if (m->end != HALTED)
        return put_value(put_text(to, " wrong "), m->wrong);
    if (tag_of(m->globals[SOURCE_IN]) != INTEGER_TAG || tag_of(m->globals[SOURCE_OUT]) != INTEGER_TAG)
        return put_text(to, " none");
    int64_t in = integer_value(m->globals[SOURCE_IN]), out = integer_value(m->globals[SOURCE_OUT]);
    to = put_value(put_text(to, verdict(in, out, clip)), in);
    return put_value(put_text(to, " "), out);
}

/* The file is read already. */
static char *pull_clip(char *to, size_t k, const int32_t *clip, uint64_t budget)
{
    static Cell globals[GLOBALS], stack[STACK], store[STORE], frames[FRAMES];
    Machine m = { .globals = globals, .stack = stack, .store = store, .frames = frames };
    for (unsigned g = 0; g < GLOBALS; g++)
        globals[g] = g < INPUTS ? word_cell(clip[g]) : tagged(UNDEFINED_TAG);
    start(&m);
    run_linear(&m, budget);
    to = put_value(to, (int64_t)k);
    to = put_end(to, &m, clip);
    return put_text(to, "\n");
}

void plain_pull_list(PULL_LENT)
{
    char *to = (char *)list;
    if (result_len < 2)
        return;
    if (!may_pull(clips, clips_len, list_len, budget) || !read_linear(file, file_len)) {
        result[0] = refusal;
        result[1] = refusal_place;
        return;
    }
    for (size_t k = 0; k < clips_len / CLIP_WORDS; k++)
        to = pull_clip(to, k, clips + CLIP_WORDS * k, budget);
    result[0] = 0;
    result[1] = (uint64_t)(to - (char *)list);
}

/* The way back (request 13). The offsets cut the code into regions from outside in. A list is closed, or it is open or empty. Its tree is written while it is
   read, and thrown away where there is none. */

static uint32_t offset_at(const uint8_t *code, uint32_t place)
{
    return 256u * code[place] + code[place + 1];
}

static bool whole_instruction(const uint8_t *code, uint32_t from, uint32_t to)
{
    return code[from] <= LAST_CODE && linear_size[code[from]] != 0 && linear_size[code[from]] <= to - from;
}

static bool ends_in_jump(const uint8_t *code, uint32_t from, uint32_t to)
{
    uint8_t last = END;
    for (; from < to; from += linear_size[last]) {
        if (!whole_instruction(code, from, to))
            return false;
        last = code[from];
    }
    return last == JUMP;
}

static bool back_list(const Linear *in, uint32_t from, uint32_t to, bool closed, unsigned level);

/* The arms of the conditional at `from`; where the rest of its list begins, and whether its arms are closed. */
static bool back_arms(const Linear *in, uint32_t from, uint32_t to, bool closed, unsigned level, uint32_t *rest, bool *shut)
{
    uint32_t first = from + 3, length = offset_at(in->code, from + 1);
    if (length > to - first)
        return false;
    uint32_t turn = first + length;
    *shut = !ends_in_jump(in->code, first, turn);
    if (*shut) {
        *rest = to;
        return closed && back_list(in, first, turn, true, level + 1) && back_list(in, turn, to, true, level + 1);
    }
    uint32_t over = offset_at(in->code, turn - 2);
    if (length < 4 || over < 1 || over > to - turn)
        return false;
    *rest = turn + over;
    return back_list(in, first, turn - 3, false, level + 1) && back_list(in, turn, *rest, false, level + 1);
}

static bool back_list(const Linear *in, uint32_t from, uint32_t to, bool closed, unsigned level)
{
    if (level > LAST_LEVEL)
        return false;
    while (from < to) {
        const uint8_t *code = in->code + from;
        if (!whole_instruction(in->code, from, to) || *code == JUMP)
            return false;
        put_bits(*code, 5);
        if (*code == CONDITIONAL) {
            bool shut;
            if (!back_arms(in, from, to, closed, level, &from, &shut))
                return false;
            closed = closed && !shut;
        } else if (*code == MAKE_CONT) {
            uint32_t rest = from + 4, length = offset_at(in->code, from + 1);
            put_bits(code[3], 8);
            if (length > to - rest || !back_list(in, rest + length, to, closed, level + 1))
                return false;
            from = rest;
            to = rest + length;
            closed = true;
        } else {
            unsigned size = linear_size[*code];
            if (named_kind[*code] != NO_KIND && in->kinds[code[1]] != named_kind[*code])
                return false;
            if (*code < LITERAL && (!closed || size != to - from))
                return false;
            closed = closed && *code >= LITERAL;
            for (unsigned n = 1; n < size; n++)
                put_bits(code[n], 8);
            from += size;
        }
    }
    put_bits(END, 5);
    return !closed;
}

static bool back_templates(void)
{
    begin_tree_file(templates);
    for (unsigned t = 0; t < templates; t++) {
        for (uint64_t place = linears[t].entries; place < linears[t].entries_end; place++)
            put_bits(bits_at(place, 1), 1);
        if (!back_list(&linears[t], 0, linears[t].length, true, 1))
            return refuse(32, t);
    }
    return tree_bits <= 8 * TREE_LIMIT || refuse(32, 0);
}

void plain_back(FILE_LENT)
{
    if (result_len < 2)
        return;
    bool made = read_linear(file, file_len) && back_templates();
    tell_written(made, tree_file, tree_length(), out, out_len, result);
}
