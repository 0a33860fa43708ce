#include "generate.h"

#include <string.h>

/* Numbers */

uint64_t draw(Random *random)
{
    uint64_t z = random->state += UINT64_C(0x9e3779b97f4a7c15);
    z = (z ^ z >> 30) * UINT64_C(0xbf58476d1ce4e5b9);
    z = (z ^ z >> 27) * UINT64_C(0x94d049bb133111eb);
    return z ^ z >> 31;
}

unsigned below(Random *random, unsigned limit)
{
    return (unsigned)(draw(random) % limit);
}

bool chance(Random *random, unsigned percent)
{
    return below(random, 100) < percent;
}

/* Owners and their globals: each has its own 64 first ones, and now and then a file names any. */

enum { HOUSE, VENDOR };

uint64_t generate_owner(Random *random)
{
    bool vendor = chance(random, 40);
    random->first_global = vendor ? 64 : 0;
    return (chance(random, 95) ? vendor : !vendor) ? VENDOR : HOUSE;
}

uint64_t bad_owner(Random *random)
{
    return chance(random, 50) ? 2 + below(random, 300) : 2 + draw(random) % (UINT64_MAX - 1);
}

static unsigned own_global(const Random *random, unsigned n)
{
    return random->first_global + n;
}

/* One of the first few of its owner, or one at the border, or any. */
static unsigned some_global(Random *random, unsigned few)
{
    return chance(random, 90) ? own_global(random, below(random, few)) : chance(random, 30) ? 62 + below(random, 4) : below(random, 256);
}

static const int64_t greatest = INT64_C(0x7fffffffffff), least = -INT64_C(0x800000000000);

/* Near the ends of both widths, of either width, or small. */
static int64_t some_integer(Random *random)
{
    const int64_t ends[] = { greatest, least, greatest - 1, least + 1, INT64_C(1) << 46, -(INT64_C(1) << 46),
                             INT32_MAX, INT32_MIN, INT64_C(1) + INT32_MAX, INT64_C(-1) + INT32_MIN, UINT32_MAX, 1 << 30, -(1 << 30), 0, 1, -1 };
    switch (below(random, 6)) {
    case 0: return ends[below(random, sizeof ends / sizeof ends[0])];
    case 1: return (int64_t)(draw(random) >> 16) + least;
    case 2: return (int32_t)(uint32_t)draw(random);
    default: return (int64_t)below(random, 21) - 10;
    }
}

/* With either tag where both have it. */
static void put_either(Random *random, Sheet *sheet, int64_t value)
{
    if (value >= INT32_MIN && value <= INT32_MAX && chance(random, 60))
        put_integer(sheet, (int32_t)value);
    else
        put_wide(sheet, value);
}

static uint64_t integer_cell(int64_t value)
{
    return UINT64_C(6) << 60 | (uint64_t)value << 16 >> 4;
}

/* Sheets that mostly make sense. The writer follows one path through the code and keeps a guess of what the machine holds
   there, so that runs get far; a guess may be wrong, and a careless sheet ignores it now and then. */

typedef enum { ANYTHING, INTEGER, PAIR, PROCEDURE } Guess;

enum { ENTRIES = 256, LAYERS = 40, LAST_LEVEL = 16 };

typedef struct {
    unsigned template, level;
    unsigned depth; /* cells on the stack */
    bool integers;  /* all of them are */
    Guess top, value;
    unsigned of;    /* the template of a procedure that is the value */
    unsigned layers, count[LAYERS];
    bool keep;      /* leave stack and layers as they are */
} Path;

typedef struct {
    Random *random;
    Sheet sheet;
    unsigned templates, careless, confused, size; /* careless of counts and indices, confused about open and closed */
    unsigned arity[64];
    unsigned parent[64]; /* the template whose closure surely names this one; itself where none need do */
    bool has_home[64];
    Path home[64]; /* the layers that a template's closure was made in */
    unsigned entries;
    uint8_t kind[ENTRIES], number[ENTRIES]; /* of the template being written; number 1 for an integer constant */
    Guess global[ENTRIES];
    unsigned global_of[ENTRIES];
} Writer;

static bool slip(Writer *w)
{
    return chance(w->random, w->careless);
}

static bool mistaken(Writer *w)
{
    return chance(w->random, w->confused);
}

static void write_entry(Writer *w, unsigned n, unsigned kind, unsigned t)
{
    if (kind == TEMPLATE_ENTRY && t + 1 == w->templates)
        kind = CONSTANT_ENTRY;
    w->kind[n] = (uint8_t)kind;
    if (kind == CONSTANT_ENTRY) {
        w->number[n] = chance(w->random, 65);
        if (w->number[n])
            put_either(w->random, &w->sheet, some_integer(w->random));
        else
            put_constant(&w->sheet, below(w->random, 4));
        return;
    }
    w->number[n] = (uint8_t)(kind == GLOBAL_ENTRY ? some_global(w->random, 6)
                                                  : t + 1 + below(w->random, w->templates - t - 1));
    put_number(&w->sheet, kind, w->number[n]);
}

static unsigned children_of(const Writer *w, unsigned t)
{
    unsigned count = 0;
    for (unsigned child = t + 1; child < w->templates; child++)
        count += w->parent[child] == t;
    return count;
}

/* The entries of a template's children come last. */
static void write_entries(Writer *w, unsigned t)
{
    static const uint8_t first_kinds[] = { CONSTANT_ENTRY, GLOBAL_ENTRY, TEMPLATE_ENTRY, GLOBAL_ENTRY };
    unsigned count = chance(w->random, 2) ? 255 : chance(w->random, 5) ? below(w->random, 4) : 4 + below(w->random, 8);
    memset(w->kind, 0, sizeof w->kind);
    unsigned children = children_of(w, t);
    count = count + children > 255 ? 255 - children : count;
    w->entries = count + children;
    put_field(&w->sheet, 8, w->entries);
    for (unsigned n = 1; n <= count; n++)
        write_entry(w, n, n <= 4 ? first_kinds[n - 1] : 1 + below(w->random, 3), t);
    for (unsigned child = t + 1, n = count + 1; child < w->templates; child++)
        if (w->parent[child] == t) {
            w->kind[n] = TEMPLATE_ENTRY;
            w->number[n] = (uint8_t)child;
            put_number(&w->sheet, TEMPLATE_ENTRY, child);
            n++;
        }
}

/* An index of that kind, or 0 where the template has none. */
static unsigned some_index(Writer *w, unsigned kind)
{
    if (w->entries == 0)
        return 0;
    unsigned from = below(w->random, w->entries);
    for (unsigned i = 0; i < w->entries; i++) {
        unsigned n = 1 + (from + i) % w->entries;
        if (w->kind[n] == kind)
            return n;
    }
    return 0;
}

static unsigned misnamed(Writer *w, unsigned n)
{
    return w->careless > 0 && chance(w->random, 1) ? below(w->random, 256) : n;
}

static unsigned miscounted(Writer *w, unsigned n)
{
    return slip(w) ? below(w->random, 4) : n;
}

static void now_empty(Path *p, Guess value)
{
    p->depth = 0;
    p->integers = true;
    p->value = value;
}

static void write_literal(Writer *w, Path *p)
{
    unsigned n = some_index(w, CONSTANT_ENTRY);
    if (n == 0) {
        put0(&w->sheet, UNSPECIFIED);
        p->value = ANYTHING;
        return;
    }
    p->value = w->number[n] ? INTEGER : ANYTHING;
    put1(&w->sheet, LITERAL, misnamed(w, n));
}

static void write_push(Writer *w, Path *p)
{
    put0(&w->sheet, PUSH);
    p->depth++;
    p->top = p->value;
    p->integers = p->integers && p->value == INTEGER;
}

static void put_closure(Writer *w, Path *p, unsigned n)
{
    unsigned t = w->number[n];
    if (!w->has_home[t] || chance(w->random, 30)) {
        w->has_home[t] = true;
        w->home[t] = *p;
    }
    put1(&w->sheet, CLOSURE, misnamed(w, n));
    p->value = PROCEDURE;
    p->of = t;
}

static void put_global(Writer *w, Path *p, unsigned n)
{
    put1(&w->sheet, GLOBAL, misnamed(w, n));
    p->value = w->global[w->number[n]];
    p->of = w->global_of[w->number[n]];
}

static bool write_closure(Writer *w, Path *p)
{
    unsigned n = some_index(w, TEMPLATE_ENTRY);
    if (n != 0)
        put_closure(w, p, n);
    return n != 0;
}

static bool write_global(Writer *w, Path *p)
{
    unsigned n = some_index(w, GLOBAL_ENTRY);
    if (n != 0)
        put_global(w, p, n);
    return n != 0;
}

static bool write_set_global(Writer *w, Path *p)
{
    unsigned n = some_index(w, GLOBAL_ENTRY);
    if (n == 0)
        return false;
    put1(&w->sheet, SET_GLOBAL, misnamed(w, n));
    w->global[w->number[n]] = p->value;
    w->global_of[w->number[n]] = p->of;
    p->value = ANYTHING;
    return true;
}

static bool write_local(Writer *w, Path *p, unsigned code)
{
    unsigned n1 = p->layers > 0 ? below(w->random, p->layers) : 0;
    unsigned count = p->layers > 0 ? p->count[p->layers - 1 - n1] : 0;
    if (count == 0 && !slip(w))
        return false;
    unsigned n2 = count > 0 ? below(w->random, count) : 0;
    if (slip(w)) {
        n1 += below(w->random, 3);
        n2 += below(w->random, 3);
    }
    put2(&w->sheet, code, n1, n2);
    p->value = ANYTHING;
    return true;
}

static bool write_make_env(Writer *w, Path *p)
{
    if (p->layers == LAYERS)
        return false;
    put1(&w->sheet, MAKE_ENV, miscounted(w, p->depth));
    p->count[p->layers++] = p->depth;
    p->depth = 0;
    p->integers = true;
    return true;
}

static bool write_primitive(Writer *w, Path *p, unsigned code)
{
    bool fits = code == ADD ? p->integers
        : code >= SUB && code <= FLOOR_DIV ? p->depth == 2 && p->integers
        : code == CAR || code == CDR ? p->depth >= 1 && p->top == PAIR : p->depth >= 2;
    if (!fits && !slip(w))
        return false;
    put0(&w->sheet, code);
    now_empty(p, code == ADD || code == SUB || code == FLOOR_DIV ? INTEGER : code == CONS ? PAIR : ANYTHING);
    return true;
}

static void write_open_list(Writer *w, Path *p);
static void write_closed_list(Writer *w, Path *p);

static void write_arm(Writer *w, Path *p, bool open)
{
    if (mistaken(w) && chance(w->random, 50))
        put0(&w->sheet, END);
    else if (open != mistaken(w))
        write_open_list(w, p);
    else
        write_closed_list(w, p);
}

static bool may_nest(Writer *w, const Path *p)
{
    return w->size > 0 && (p->level < LAST_LEVEL || (w->careless > 0 && chance(w->random, 2)));
}

static void write_open_conditional(Writer *w, Path *p)
{
    Path first = *p, second = *p;
    put0(&w->sheet, UNLESS_FALSE);
    first.level = second.level = p->level + 1;
    first.keep = second.keep = p->keep || chance(w->random, 80);
    write_arm(w, &first, true);
    write_arm(w, &second, true);
    unsigned level = p->level;
    bool keep = p->keep;
    *p = chance(w->random, 50) ? first : second;
    p->level = level;
    p->keep = keep;
    if (first.value != second.value)
        p->value = ANYTHING;
}

/* Writes the instruction if it makes sense here. */
static bool write_neutral_of(Writer *w, Path *p, unsigned choice)
{
    switch (choice) {
    case 0: case 1: write_literal(w, p); return true;
    case 2: return write_closure(w, p);
    case 3: case 4: return write_global(w, p);
    case 5: case 6: return write_set_global(w, p);
    case 7: case 8: return write_local(w, p, LOCAL);
    case 9: return write_local(w, p, SET_LOCAL);
    case 10: put0(&w->sheet, UNSPECIFIED); p->value = ANYTHING; return true;
    case 11: put1(&w->sheet, CHECKARGS, miscounted(w, p->depth)); return true;
    case 12: case 13:
        if (!may_nest(w, p))
            return false;
        write_open_conditional(w, p);
        return true;
    }
    if (p->keep)
        return false;
    switch (choice) {
    case 14: case 15: case 16: case 17: write_push(w, p); return true;
    case 18: return write_make_env(w, p);
    case 19: return write_primitive(w, p, CONS);
    case 20: return write_primitive(w, p, CAR);
    case 21: return write_primitive(w, p, CDR);
    case 22: return write_primitive(w, p, EQV);
    case 23: return write_primitive(w, p, SUB + below(w->random, 3));
    default: return write_primitive(w, p, ADD);
    }
}

static void write_neutral(Writer *w, Path *p)
{
    if (w->size > 0)
        w->size--;
    for (unsigned tries = 0; tries < 4; tries++)
        if (write_neutral_of(w, p, below(w->random, 25)))
            return;
    write_literal(w, p);
}

static void write_neutrals(Writer *w, Path *p, unsigned count)
{
    while (count-- > 0)
        write_neutral(w, p);
}

/* make-cont and its saved list; p is then the path of the rest. */
static void write_make_cont(Writer *w, Path *p, bool open)
{
    Path saved = *p;
    saved.level++;
    saved.value = ANYTHING;
    put1(&w->sheet, MAKE_CONT, miscounted(w, p->depth));
    if (open == mistaken(w))
        write_closed_list(w, &saved);
    else if (chance(w->random, 30))
        put0(&w->sheet, END);
    else
        write_open_list(w, &saved);
    now_empty(p, p->value);
    p->keep = false;
}

/* Brings the stack to that many cells. */
static void write_arguments(Writer *w, Path *p, unsigned count)
{
    if (p->depth > count && p->depth >= 2) {
        put0(&w->sheet, EQV);
        now_empty(p, ANYTHING);
    }
    if (p->depth > count)
        write_make_env(w, p);
    while (p->depth < count) {
        write_literal(w, p);
        write_push(w, p);
    }
}

static void write_call(Writer *w, Path *p)
{
    unsigned of_closure = some_index(w, TEMPLATE_ENTRY), of_global = some_index(w, GLOBAL_ENTRY);
    bool known = of_global != 0 && w->global[w->number[of_global]] == PROCEDURE;
    if (p->value == PROCEDURE && p->depth == w->arity[p->of]) {
        put1(&w->sheet, CALL, miscounted(w, p->depth));
    } else if (known && (of_closure == 0 || chance(w->random, 50))) {
        write_arguments(w, p, w->arity[w->global_of[w->number[of_global]]]);
        put_global(w, p, of_global);
        put1(&w->sheet, CALL, miscounted(w, p->depth));
    } else if (of_closure != 0) {
        write_arguments(w, p, w->arity[w->number[of_closure]]);
        put_closure(w, p, of_closure);
        put1(&w->sheet, CALL, miscounted(w, p->depth));
    } else if (slip(w)) {
        put1(&w->sheet, CALL, p->depth);
    } else {
        put0(&w->sheet, RETURN);
    }
}

static void write_close(Writer *w, Path *p)
{
    unsigned choice = below(w->random, 100);
    if (mistaken(w)) {
        write_neutral(w, p);
    } else if (choice < 15 && may_nest(w, p)) {
        Path first = *p, second = *p;
        first.level = second.level = p->level + 1;
        put0(&w->sheet, UNLESS_FALSE);
        write_arm(w, &first, false);
        write_arm(w, &second, false);
    } else if (choice < 35 && may_nest(w, p)) {
        write_make_cont(w, p, false);
        write_neutrals(w, p, below(w->random, 3));
        write_close(w, p);
    } else if (choice < 70) {
        write_call(w, p);
    } else {
        put0(&w->sheet, RETURN);
    }
}

static void write_open_list(Writer *w, Path *p)
{
    Path rest;
    bool cont = chance(w->random, 25) && may_nest(w, p);
    write_neutrals(w, p, !cont + below(w->random, w->size / 4 + 2 < 6 ? w->size / 4 + 2 : 6));
    if (cont) {
        rest = *p;
        write_make_cont(w, &rest, true);
        write_neutrals(w, &rest, below(w->random, 3));
        write_close(w, &rest);
        p->value = ANYTHING;
    }
    put0(&w->sheet, END);
}

static void write_closed_list(Writer *w, Path *p)
{
    write_neutrals(w, p, below(w->random, w->size / 2 + 2 < 12 ? w->size / 2 + 2 : 12));
    write_close(w, p);
    if (mistaken(w))
        write_neutral(w, p);
    put0(&w->sheet, END);
}

static void write_template(Writer *w, unsigned t)
{
    Path p = { 0 };
    if (w->has_home[t])
        p = w->home[t];
    p.template = t;
    p.level = 1;
    p.keep = false;
    p.depth = w->arity[t];
    p.integers = p.depth == 0;
    p.top = p.value = ANYTHING;
    w->size = chance(w->random, 5) ? 200 : 10 + below(w->random, 30);
    write_entries(w, t);
    if (t > 0 && chance(w->random, 20))
        put1(&w->sheet, CHECKARGS, miscounted(w, p.depth));
    if (t > 0 && chance(w->random, 70))
        write_make_env(w, &p);
    for (unsigned n = w->entries - children_of(w, t) + 1; n <= w->entries; n++)
        put_closure(w, &p, n);
    write_closed_list(w, &p);
}

static void write_sensible_sheet(Writer *w)
{
    w->templates = chance(w->random, 3) ? 64 : 1 + below(w->random, 6);
    w->careless = chance(w->random, 60) ? 0 : 1 + below(w->random, 8);
    w->confused = chance(w->random, 90) ? 0 : 4;
    unsigned orphans = chance(w->random, 90) ? 0 : 40; /* of a hundred templates; such a one may be named all the same */
    for (unsigned t = 1; t < w->templates; t++) {
        w->arity[t] = below(w->random, 4);
        w->parent[t] = chance(w->random, orphans) ? t : below(w->random, t);
    }
    sheet_begin(&w->sheet, w->templates);
    for (unsigned t = 0; t < w->templates; t++)
        write_template(w, t);
}

/* Sheets with one thing to show */

static void put_many(Sheet *s, unsigned code, unsigned count)
{
    while (count-- > 0)
        put0(s, code);
}

static void put_end(Sheet *s)
{
    put0(s, RETURN);
    put0(s, END);
}

/* One step of a loop, by the memory it burns: none, store by closure, layer or pair, or frames. */
static void write_burn(Random *random, Sheet *s, unsigned burn)
{
    switch (burn) {
    case 1: put1(s, CLOSURE, 5); break;
    case 2:
        for (unsigned n = below(random, 3); n > 0; n--) {
            put1(s, LITERAL, 2);
            put0(s, PUSH);
        }
        put0(s, PUSH);
        put0(s, PUSH);
        put0(s, CONS);
        break;
    case 3: put0(s, PUSH); put1(s, MAKE_ENV, 1); break;
    case 4:
        put0(s, PUSH);
        put1(s, MAKE_CONT, 1);
        put0(s, UNSPECIFIED);
        put0(s, RETURN);
        put0(s, END);
        break;
    }
}

/* A loop through a procedure in a global, which counts another global down. */
static void write_loop(Random *random, Sheet *s)
{
    static const unsigned rounds[] = { 3, 60, 700, 2200 };
    unsigned burn = below(random, 5), stop = !chance(random, 25);
    sheet_begin(s, 3);
    put_field(s, 8, 5);
    put_integer(s, (int32_t)(1 + below(random, rounds[below(random, 4)])));
    put_number(s, GLOBAL_ENTRY, own_global(random, 7));
    put_number(s, TEMPLATE_ENTRY, 1);
    put_number(s, GLOBAL_ENTRY, own_global(random, 63));
    put_number(s, TEMPLATE_ENTRY, 2);
    put1(s, CLOSURE, 5); /* template 1 may name template 2 or not */
    put1(s, LITERAL, 1);
    put1(s, SET_GLOBAL, 2);
    for (unsigned n = 1 + below(random, 4); n > 0; n--)
        put1(s, CLOSURE, 3); /* so that the store's last cells are met from each side */
    put1(s, SET_GLOBAL, 4);
    put1(s, GLOBAL, 4);
    put1(s, CALL, 0);
    put0(s, END);

    put_field(s, 8, 5);
    put_number(s, GLOBAL_ENTRY, own_global(random, 7));
    put_integer(s, -1);
    put_integer(s, 0);
    put_number(s, GLOBAL_ENTRY, own_global(random, 63));
    put_number(s, TEMPLATE_ENTRY, 2);
    put1(s, CHECKARGS, 0);
    put1(s, GLOBAL, 1);
    put0(s, PUSH);
    put1(s, LITERAL, 2);
    put0(s, PUSH);
    put0(s, ADD);
    put1(s, SET_GLOBAL, 1);
    for (unsigned n = 1 + below(random, 8); n > 0; n--)
        write_burn(random, s, burn);
    if (stop) {
        put1(s, GLOBAL, 1);
        put0(s, PUSH);
        put1(s, LITERAL, 3);
        put0(s, PUSH);
        put0(s, EQV);
        put0(s, UNLESS_FALSE);
        put0(s, RETURN);
        put0(s, END);
    }
    put1(s, GLOBAL, 4);
    put1(s, CALL, 0);
    put0(s, END);
    if (stop)
        put0(s, END);

    put_field(s, 8, 0);
    put_end(s);
}

static void write_nest(Random *random, Sheet *s, unsigned level, unsigned last, bool open)
{
    unsigned shape = below(random, 4);
    if (level >= last) {
        put0(s, open ? UNSPECIFIED : RETURN);
    } else if (shape < 2) {
        put0(s, UNLESS_FALSE);
        if (shape == 0)
            write_nest(random, s, level + 1, last, open);
        put0(s, open ? UNSPECIFIED : RETURN);
        put0(s, END);
        if (shape == 1)
            write_nest(random, s, level + 1, last, open);
    } else {
        put1(s, MAKE_CONT, 0);
        if (open && level + 1 == last && chance(random, 50))
            put0(s, END);
        else
            write_nest(random, s, level + 1, last, open);
        put_many(s, UNSPECIFIED, below(random, 2));
        if (shape == 3 && level + 1 < last && chance(random, 50)) {
            put1(s, MAKE_CONT, 0);
            put_end(s);
        }
        put0(s, RETURN);
    }
    put0(s, END);
}

static void write_deep(Random *random, Sheet *s)
{
    unsigned last = 13 + below(random, 5);
    bool open = chance(random, 50);
    sheet_begin(s, 1);
    put_field(s, 8, 0);
    if (open) {
        put0(s, UNLESS_FALSE);
        write_nest(random, s, 2, last, true);
        write_nest(random, s, 2, chance(random, 50) ? last : 3, true);
        put_end(s);
    } else {
        write_nest(random, s, 1, last, false);
    }
}

/* A list of nothing but make-conts, whose saved lists run backwards. */
static void write_chain(Random *random, Sheet *s)
{
    static const unsigned lengths[] = { 3, 20, 200, 2100 };
    unsigned length = 1 + below(random, lengths[below(random, 4)]), open = chance(random, 50);
    unsigned wrong = chance(random, 20) ? below(random, length) : length; /* its saved list is of the other category */
    sheet_begin(s, 1);
    put_field(s, 8, 2);
    put_integer(s, 1);
    put_integer(s, 2);
    if (open)
        put0(s, UNLESS_FALSE);
    for (unsigned i = 0; i < length; i++) {
        put1(s, MAKE_CONT, 0);
        if (chance(random, 50))
            put1(s, LITERAL, 1 + below(random, 2));
        if ((i > 0 || !open) != (i == wrong))
            put0(s, RETURN);
        put0(s, END);
    }
    put_end(s);
    if (open) {
        put1(s, LITERAL, 1);
        put0(s, END);
        put0(s, PUSH);
        put_end(s);
    }
}

static void write_full_stack(Random *random, Sheet *s)
{
    static const uint8_t last[] = { MAKE_ENV, CHECKARGS, MAKE_CONT, CONS, EQV, ADD, SUB, LESS, FLOOR_DIV, RETURN };
    unsigned code = last[below(random, sizeof last)], pushes = 250 + below(random, 8);
    sheet_begin(s, 1);
    put_field(s, 8, 1);
    put_either(random, s, some_integer(random));
    put1(s, LITERAL, 1);
    put_many(s, PUSH, pushes);
    if (code == MAKE_CONT) {
        put1(s, MAKE_CONT, pushes % 256);
        put_end(s);
    } else if (code == MAKE_ENV || code == CHECKARGS) {
        put1(s, code, pushes % 256);
    } else if (code != RETURN) {
        put0(s, code);
    }
    put_end(s);
}

/* A sum whose total is at an end of the range, or one beyond, whatever the partial totals are. */
static void write_sum(Random *random, Sheet *s)
{
    const int64_t totals[] = { greatest, greatest + 1, least, least - 1, INT64_C(1) + INT32_MAX, INT64_C(-1) + INT32_MIN, 0 };
    int64_t left = totals[below(random, sizeof totals / sizeof totals[0])];
    int64_t terms[40];
    unsigned count = 0, wanted = below(random, 30);
    while (count < wanted) {
        terms[count] = some_integer(random);
        left -= terms[count++];
    }
    for (; left > greatest && count < 39; left -= greatest)
        terms[count++] = greatest;
    for (; left < least && count < 39; left -= least)
        terms[count++] = least;
    terms[count++] = left > greatest ? greatest : left < least ? least : left;
    sheet_begin(s, 1);
    put_field(s, 8, count + 1);
    for (unsigned i = 0; i < count; i++)
        put_either(random, s, terms[i]);
    put_constant(s, below(random, 4));
    for (unsigned i = 0; i < count; i++) {
        put1(s, LITERAL, i + 1);
        put0(s, PUSH);
    }
    if (chance(random, 10)) {
        put1(s, LITERAL, count + 1);
        put0(s, PUSH);
    }
    put0(s, ADD);
    put_end(s);
}

/* Two numbers, or one or three, or no numbers, subtracted, compared and divided: at the range's ends and about zero. */
static void write_retime(Random *random, Sheet *s)
{
    unsigned rounds = 1 + below(random, 12);
    sheet_begin(s, 1);
    put_field(s, 8, 9);
    for (unsigned i = 0; i < 7; i++)
        put_either(random, s, i == 0 ? 0 : i < 3 ? (int64_t)below(random, 7) - 3 : some_integer(random));
    put_constant(s, below(random, 4));
    put_number(s, GLOBAL_ENTRY, some_global(random, 8));
    for (unsigned round = 0; round < rounds; round++) {
        for (unsigned n = chance(random, 95) ? 2 : below(random, 4); n > 0; n--) {
            if (round == 0 || n > 1 || chance(random, 60))
                put1(s, LITERAL, chance(random, 97) ? 1 + below(random, 7) : 8);
            put0(s, PUSH);
        }
        put0(s, SUB + below(random, 3));
        if (chance(random, 30))
            put1(s, SET_GLOBAL, 9);
    }
    put_end(s);
}

/* Pairs and procedures, taken apart and compared. Its owner's globals 0 to 3 hold pairs, 8 and above what came of it. */
static void write_values(Random *random, Sheet *s)
{
    static const uint8_t primitives[] = { CONS, CONS, CAR, CDR, CAR, CDR, EQV, EQV, ADD };
    unsigned rounds = 4 + below(random, 30);
    sheet_begin(s, 2);
    put_field(s, 8, 12);
    for (unsigned g = 0; g < 4; g++)
        put_number(s, GLOBAL_ENTRY, own_global(random, g));
    int64_t value = some_integer(random); /* and again, so that %%eqv meets equal numbers with either tag */
    put_either(random, s, value);
    put_either(random, s, chance(random, 50) ? value : 1);
    put_constant(s, below(random, 4));
    put_number(s, TEMPLATE_ENTRY, 1);
    for (unsigned g = 8; g < 12; g++)
        put_number(s, GLOBAL_ENTRY, own_global(random, g));
    put1(s, CLOSURE, 8);
    for (unsigned round = 0; round < rounds; round++) {
        unsigned code = round < 4 ? CONS : primitives[below(random, sizeof primitives)];
        for (unsigned n = code == CONS || code == EQV ? 2 + chance(random, 10) : 1; n > 0; n--) {
            if (code == ADD)
                put1(s, LITERAL, 5 + below(random, 2));
            else if (code == CAR || code == CDR || (round >= 4 && chance(random, 30)))
                put1(s, GLOBAL, 1 + below(random, 4));
            else if (chance(random, 30))
                put1(s, CLOSURE, 8);
            else if (chance(random, 60))
                put1(s, LITERAL, 5 + below(random, 3));
            put0(s, PUSH);
        }
        put0(s, code);
        if (round < 4 || (code == CONS && chance(random, 60)))
            put1(s, SET_GLOBAL, 1 + round % 4);
        else if (code != CONS && chance(random, 60))
            put1(s, SET_GLOBAL, 9 + round % 4);
    }
    put_end(s);
    put_field(s, 8, 0);
    put_end(s);
}

/* Layers within layers, read and set at all their ends. */
static void write_layers(Random *random, Sheet *s)
{
    unsigned layers = 1 + below(random, 20), reads = 5 + below(random, 20), counts[20];
    sheet_begin(s, 1);
    put_field(s, 8, 2);
    put_integer(s, 5);
    put_constant(s, TRUE_CONSTANT);
    for (unsigned i = 0; i < layers; i++) {
        counts[i] = below(random, chance(random, 5) ? 200 : 4);
        for (unsigned n = 0; n < counts[i]; n++) {
            put1(s, LITERAL, 1 + below(random, 2));
            put0(s, PUSH);
        }
        put1(s, MAKE_ENV, counts[i]);
    }
    while (reads-- > 0) {
        unsigned out = below(random, layers), count = counts[layers - 1 - out];
        unsigned beyond = chance(random, 3), n2 = count > 0 && !beyond ? below(random, count) : count;
        if (count > 0 || beyond)
            put2(s, chance(random, 60) ? LOCAL : SET_LOCAL, out + (chance(random, 1) ? layers : 0), n2);
        if (chance(random, 30))
            put0(s, PUSH);
    }
    put_end(s);
}

/* Neutrals that flatten to that many bytes, a fifth of them open conditionals (8 bytes for 25 bits). */
static void put_body(Random *random, Sheet *s, unsigned bytes)
{
    while (bytes >= 8) {
        if (chance(random, 20)) {
            put0(s, UNLESS_FALSE);
            put0(s, chance(random, 50) ? PUSH : UNSPECIFIED);
            put0(s, END);
            put0(s, UNSPECIFIED);
            put0(s, END);
            bytes -= 8;
        } else if (chance(random, 3)) {
            put1(s, CHECKARGS, 0);
            bytes -= 2;
        } else {
            put0(s, UNSPECIFIED);
            bytes--;
        }
    }
    put_many(s, UNSPECIFIED, bytes);
}

/* A closed list with an offset of that many bytes, of one of the four kinds. */
static void put_offset_list(Random *random, Sheet *s, unsigned kind, unsigned offset)
{
    if (kind == 3) {
        put1(s, MAKE_CONT, 0);
        put_end(s);
        put_body(random, s, offset - 1);
        put_end(s);
        return;
    }
    put0(s, UNLESS_FALSE);
    if (kind == 2) {
        put_body(random, s, offset - 1);
        put_end(s);
        put_end(s);
        put0(s, END);
        return;
    }
    put_body(random, s, kind == 0 ? offset - 3 : 1);
    put0(s, END);
    put_body(random, s, kind == 0 ? 1 : offset);
    put0(s, END);
    put_end(s);
}

/* Closures of all the templates, by template 0; a sheet that leaves one out has an orphan. */
static void put_closures(Sheet *s, unsigned templates, unsigned without)
{
    put_field(s, 8, templates - 1);
    for (unsigned t = 1; t < templates; t++)
        put_number(s, TEMPLATE_ENTRY, t);
    for (unsigned t = 1; t < templates; t++)
        if (t != without)
            put1(s, CLOSURE, t);
}

/* Offsets of all four kinds, one below their limit to two beyond, in any of a few templates; some sheets have two of them, some an
   orphan as well. */
static void write_large_offset(Random *random, Sheet *s)
{
    unsigned count = 1 + below(random, 4), large = below(random, count), second = chance(random, 30) ? below(random, count) : large;
    sheet_begin(s, count);
    put_closures(s, count, chance(random, 10) ? 1 : 0);
    for (unsigned t = 0; t < count; t++) {
        if (t > 0)
            put_field(s, 8, 0);
        if (t == large || t == second)
            put_offset_list(random, s, below(random, 4), 65534 + below(random, 4));
        else
            put_end(s);
    }
}

/* Two bytes shorter than the longest to two bytes longer. */
static void write_longest(Random *random, Sheet *s)
{
    size_t bits = 8 * (size_t)(65534 + below(random, 5));
    sheet_begin(s, 1);
    put_field(s, 8, 0);
    while (s->bits + 15 <= bits)
        put0(s, UNSPECIFIED);
    put_end(s);
    if (s->bits + 7 < bits)
        put_field(s, 8, 0);
}

/* Instructions in any order: nearly always refused with 6 or 7. */
static void write_any_list(Random *random, Sheet *s, unsigned level, unsigned *left)
{
    static const uint8_t codes[] = { RETURN, CALL, UNLESS_FALSE, MAKE_CONT, LITERAL, CLOSURE, GLOBAL, SET_GLOBAL, LOCAL,
                                     SET_LOCAL, PUSH, MAKE_ENV, UNSPECIFIED, CHECKARGS, CONS, CAR, CDR, EQV, ADD, SUB, LESS,
                                     FLOOR_DIV };
    for (unsigned count = below(random, 4); count > 0 && *left > 0; count--) {
        unsigned code = codes[below(random, sizeof codes)];
        (*left)--;
        put0(s, code);
        if (code == LOCAL || code == SET_LOCAL)
            put_field(s, 16, below(random, 65536));
        else if (code == CALL || code == MAKE_CONT || (code >= LITERAL && code <= SET_GLOBAL) || code == MAKE_ENV
                 || code == CHECKARGS)
            put_field(s, 8, below(random, 3));
        if (code == MAKE_CONT || code == UNLESS_FALSE)
            write_any_list(random, s, level + 1, left);
        if (code == UNLESS_FALSE)
            write_any_list(random, s, level + 1, left);
    }
    if (level == 1 && chance(random, 60))
        put0(s, RETURN);
    put0(s, END);
}

static void write_any(Random *random, Sheet *s)
{
    unsigned count = 1 + below(random, 3);
    sheet_begin(s, count);
    for (unsigned t = 0; t < count; t++) {
        unsigned left = 30;
        put_field(s, 8, 2);
        put_constant(s, TRUE_CONSTANT);
        put_number(s, GLOBAL_ENTRY, below(random, 256));
        write_any_list(random, s, 1, &left);
    }
}

/* An entry of template t, of so many; the code that names it. */
static unsigned put_some_entry(Random *random, Sheet *s, unsigned t, unsigned templates)
{
    if (t + 1 < templates && chance(random, 50)) {
        put_number(s, TEMPLATE_ENTRY, t + 1 + below(random, templates - t - 1));
        return CLOSURE;
    }
    if (chance(random, 40)) {
        put_number(s, GLOBAL_ENTRY, below(random, 64));
        return chance(random, 50) ? GLOBAL : SET_GLOBAL;
    }
    if (chance(random, 50))
        put_integer(s, (int32_t)below(random, 3));
    else
        put_constant(s, below(random, 4));
    return LITERAL;
}

/* What trimming takes out: templates that no closure names, or that only such templates' closures name, and entries that no instruction does; some
   sheets name all their entries. */
static void write_to_trim(Random *random, Sheet *s)
{
    unsigned templates = 2 + below(random, 9), named = chance(random, 20) ? 100 : 45;
    sheet_begin(s, templates);
    for (unsigned t = 0; t < templates; t++) {
        unsigned codes[8], entries = below(random, 8);
        put_field(s, 8, entries);
        for (unsigned n = 1; n <= entries; n++)
            codes[n] = put_some_entry(random, s, t, templates);
        for (unsigned n = 1; n <= entries; n++)
            if (chance(random, named))
                put1(s, codes[n], n);
        put_end(s);
    }
}

static void write_noise(Random *random, Sheet *s)
{
    sheet_begin(s, 1 + below(random, 3));
    for (unsigned n = below(random, 60); n > 0; n--)
        put_field(s, 8, below(random, 256));
}

static void write_sensible(Random *random, Sheet *s)
{
    static Writer writer;
    memset(&writer, 0, sizeof writer);
    writer.random = random;
    write_sensible_sheet(&writer);
    *s = writer.sheet;
}

void write_one_of(Random *random, Sheet *sheet, const Kind *kinds, size_t count)
{
    unsigned all = 0, choice;
    for (size_t i = 0; i < count; i++)
        all += kinds[i].share;
    for (choice = below(random, all); choice >= kinds->share; kinds++)
        choice -= kinds->share;
    kinds->write(random, sheet);
}

static void write_sheet(Random *random, Sheet *s)
{
    static const Kind kinds[] = {
        { 14, write_large_offset }, { 22, write_longest }, { 54, write_loop }, { 40, write_deep }, { 30, write_chain }, { 70, write_full_stack },
        { 50, write_sum }, { 40, write_layers }, { 50, write_values }, { 15, write_retime }, { 15, write_any }, { 10, write_noise }, { 30, write_to_trim },
        { 560, write_sensible }
    };
    write_one_of(random, s, kinds, sizeof kinds / sizeof kinds[0]);
}

void take_sheet(const Sheet *sheet, File *file)
{
    file->len = sheet_length(sheet);
    memcpy(file->bytes, sheet->bytes, file->len);
}

void generate_tree(Random *random, File *file)
{
    static Sheet sheet;
    write_sheet(random, &sheet);
    take_sheet(&sheet, file);
    if (chance(random, 1))
        file->len = 0;
    else if (chance(random, 20))
        damage(random, file);
}

/* Prologues (request 10): one template and an open list */

static void write_sensible_prologue(Random *random, Sheet *s)
{
    static Writer writer;
    Writer *w = &writer;
    Path p = { .level = 1 };
    memset(w, 0, sizeof *w);
    w->random = random;
    w->templates = 1;
    w->careless = chance(random, 80) ? 0 : 1 + below(random, 8);
    w->confused = chance(random, 95) ? 0 : 4;
    w->size = 4 + below(random, 40);
    sheet_begin(&w->sheet, 1);
    write_entries(w, 0);
    write_open_list(w, &p);
    *s = w->sheet;
}

/* Saved lists in saved lists down to a level: neutrals there, or nothing. */
static void write_deep_prologue(Random *random, Sheet *s)
{
    unsigned last = 2 + below(random, 15);
    sheet_begin(s, 1);
    put_field(s, 8, 0);
    for (unsigned level = 1; level < last; level++) {
        put_many(s, UNSPECIFIED, below(random, 3));
        put1(s, MAKE_CONT, 0);
    }
    put_many(s, UNSPECIFIED, below(random, 3));
    put0(s, END);
    for (unsigned level = 1; level < last; level++) {
        put_many(s, PUSH, below(random, 2));
        put_end(s);
    }
}

/* Many bytes, or many entries. */
static void write_large_prologue(Random *random, Sheet *s)
{
    unsigned entries = chance(random, 50) ? 0 : 255 - below(random, 12);
    sheet_begin(s, 1);
    put_field(s, 8, entries);
    for (unsigned n = 0; n < entries; n++)
        put_number(s, GLOBAL_ENTRY, below(random, 256));
    put_many(s, UNSPECIFIED, entries > 0 ? 1 + below(random, 9) : 40000 + below(random, 60000));
    put0(s, END);
}

void generate_prologue(Random *random, File *file)
{
    static const Kind kinds[] = { { 25, write_deep_prologue }, { 7, write_large_prologue }, { 4, write_sheet }, { 64, write_sensible_prologue } };
    static Sheet sheet;
    write_one_of(random, &sheet, kinds, sizeof kinds / sizeof kinds[0]);
    take_sheet(&sheet, file);
    if (chance(random, 10))
        damage(random, file);
}

/* Damage */

static void append(Random *random, File *file)
{
    unsigned count = 1 + below(random, 3);
    bool zeros = chance(random, 50);
    while (count-- > 0 && file->len < FILE_ROOM)
        file->bytes[file->len++] = (uint8_t)(zeros ? 0 : below(random, 256));
}

void damage(Random *random, File *file)
{
    if (file->len == 0) {
        append(random, file);
        return;
    }
    /* Small changes near the beginning meet the entries, anywhere else mostly the code. */
    size_t reach = chance(random, 30) && file->len > 8 ? 8 : file->len;
    size_t place = draw(random) % reach;
    switch (below(random, 8)) {
    case 0: file->len = place; break;
    case 1: file->len -= 1; break;
    case 2: append(random, file); break;
    case 3: file->bytes[file->len - 1] |= (uint8_t)(1 << below(random, 8)); break;
    case 4: file->bytes[place] = (uint8_t)below(random, chance(random, 50) ? 32 : 256); break;
    default:
        for (unsigned flips = chance(random, 70) ? 1 : 3; flips > 0; flips--)
            file->bytes[draw(random) % reach] ^= (uint8_t)(1 << below(random, 8));
    }
}

/* Linear files with code of their own */

static void add_byte(File *file, unsigned byte)
{
    if (file->len < FILE_ROOM)
        file->bytes[file->len++] = (uint8_t)byte;
}

static void add_linear_entries(Random *random, File *file, unsigned t, unsigned count_of_templates)
{
    static Sheet packed; /* its first byte is E */
    unsigned count = chance(random, 5) ? 0 : 3 + below(random, 3);
    sheet_begin(&packed, count);
    for (unsigned n = 1; n <= count; n++) {
        if (n % 3 == 0 && t + 1 < count_of_templates)
            put_number(&packed, TEMPLATE_ENTRY, t + 1 + below(random, count_of_templates - t - 1));
        else if (n % 3 == 2)
            put_number(&packed, GLOBAL_ENTRY, some_global(random, 4));
        else if (chance(random, 70))
            put_either(random, &packed, some_integer(random));
        else
            put_constant(&packed, below(random, 4));
    }
    for (size_t i = 0; i < sheet_length(&packed); i++)
        add_byte(file, packed.bytes[i]);
}

static void add_linear_instruction(Random *random, File *file)
{
    static const uint8_t codes[] = { RETURN, CALL, UNLESS_FALSE, UNLESS_FALSE, MAKE_CONT, MAKE_CONT, MAKE_CONT, JUMP, JUMP,
                                     LITERAL, LITERAL, CLOSURE, CLOSURE, GLOBAL, SET_GLOBAL, LOCAL, SET_LOCAL, PUSH, PUSH, MAKE_ENV,
                                     UNSPECIFIED, CHECKARGS, CONS, CAR, CDR, EQV, ADD, SUB, LESS, FLOOR_DIV };
    unsigned code = chance(random, 2) ? below(random, 256) : codes[below(random, sizeof codes)];
    add_byte(file, code);
    switch (code) {
    case UNLESS_FALSE: case JUMP: case MAKE_CONT:
        add_byte(file, chance(random, 2) ? below(random, 256) : 0);
        add_byte(file, below(random, chance(random, 90) ? 12 : 256));
        if (code == MAKE_CONT)
            add_byte(file, chance(random, 80) ? 0 : below(random, 3));
        break;
    case LITERAL: add_byte(file, chance(random, 95) ? 1 : below(random, 8)); break;
    case GLOBAL: case SET_GLOBAL: add_byte(file, chance(random, 95) ? 2 : below(random, 8)); break;
    case CLOSURE: add_byte(file, chance(random, 95) ? 3 : below(random, 8)); break;
    case LOCAL: case SET_LOCAL: add_byte(file, below(random, 2)); add_byte(file, below(random, 2)); break;
    case CALL: case MAKE_ENV: case CHECKARGS: add_byte(file, chance(random, 70) ? 0 : below(random, 3)); break;
    }
}

/* Most of these lines keep the stack in order, so that a run gets past the first few instructions. */
static void add_linear_line(Random *random, File *file)
{
    static const uint8_t lines[][8] = {
        { 6, LITERAL, 1, PUSH, LITERAL, 1, ADD }, { 5, PUSH, CONS, 0, 0, 0 }, { 5, LITERAL, 1, PUSH, PUSH, EQV },
        { 5, LITERAL, 1, PUSH, PUSH, SUB }, { 5, LITERAL, 1, PUSH, PUSH, LESS }, { 5, LITERAL, 1, PUSH, PUSH, FLOOR_DIV },
        { 5, PUSH, MAKE_ENV, 1, CLOSURE, 3 }, { 4, CLOSURE, 3, CALL, 0 }, { 4, CLOSURE, 3, SET_GLOBAL, 2 },
        { 4, GLOBAL, 2, CALL, 0 }, { 5, PUSH, PUSH, CONS, PUSH, CDR }, { 4, MAKE_CONT, 0, 1, 0 },
        { 3, LITERAL, 1, PUSH }, { 3, LOCAL, 0, 0 }, { 3, SET_LOCAL, 0, 0 }
    };
    const uint8_t *line = lines[below(random, sizeof lines / sizeof lines[0])];
    for (unsigned i = 1; i <= line[0]; i++)
        add_byte(file, line[i]);
}

static void add_linear_code(Random *random, File *file)
{
    size_t from = file->len, wanted = chance(random, 5) ? 0 : chance(random, 5) ? 400 : below(random, 60);
    file->len += 3;
    while (file->len < from + 3 + wanted) {
        if (chance(random, 50))
            add_linear_line(random, file);
        else
            add_linear_instruction(random, file);
    }
    size_t length = file->len - from - 3;
    if (chance(random, 20) && length > 0) {
        length--;
        file->len--;
    }
    file->bytes[from] = (uint8_t)(length >> 16);
    file->bytes[from + 1] = (uint8_t)(length >> 8);
    file->bytes[from + 2] = (uint8_t)length;
}

static void longest_linear(Random *random, File *file)
{
    size_t length = 262144 - 5 - 2 + below(random, 6);
    file->len = length + 5;
    memset(file->bytes, UNSPECIFIED, file->len);
    file->bytes[0] = 1;
    file->bytes[1] = 0;
    file->bytes[2] = (uint8_t)(length >> 16);
    file->bytes[3] = (uint8_t)(length >> 8);
    file->bytes[4] = (uint8_t)length;
    if (chance(random, 50))
        file->bytes[file->len - 1] = RETURN;
}

void generate_linear(Random *random, File *file)
{
    unsigned count = chance(random, 2) ? 64 : 1 + below(random, 4);
    file->len = 0;
    if (below(random, 1000) < 20) {
        longest_linear(random, file);
        return;
    }
    add_byte(file, count);
    for (unsigned t = 0; t < count; t++) {
        add_linear_entries(random, file, t, count);
        add_linear_code(random, file);
    }
    if (chance(random, 15))
        damage(random, file);
}

/* Starts */

static uint64_t good_global(Random *random)
{
    unsigned tag = 1 + below(random, 6);
    return tag == 6 ? integer_cell(some_integer(random)) : (uint64_t)tag << 60;
}

void generate_globals(Random *random, uint64_t *globals)
{
    bool undefined = chance(random, 20), integers = chance(random, 50);
    for (unsigned g = 0; g < 256; g++)
        globals[g] = undefined ? UINT64_C(5) << 60
            : integers ? integer_cell(some_integer(random)) : good_global(random);
}

uint64_t bad_global(Random *random)
{
    switch (below(random, 4)) {
    case 0: return 0;
    case 1: return (uint64_t)(7 + below(random, 9)) << 60;
    case 2: return UINT64_C(6) << 60 | UINT64_C(1) << (chance(random, 30) ? 11 : below(random, 12));
    default: return (uint64_t)(1 + below(random, 5)) << 60 | UINT64_C(1) << (chance(random, 30) ? 59 : below(random, 60));
    }
}

uint64_t generate_budget(Random *random, uint64_t largest)
{
    unsigned choice = below(random, 100);
    uint64_t limit = choice < 30 ? 50 : choice < 60 ? 3000 : choice < 97 ? 40000 : largest;
    return chance(random, 1) ? limit : draw(random) % (limit + 1);
}
