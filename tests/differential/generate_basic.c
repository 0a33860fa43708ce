/* Basic files (document 02, request 6): sheets with their entries written into the instructions that name them, and files with one thing to show. */
#include "generate.h"

#include <string.h>

/* From sheets. Behind a sheet's end all bits are read as zeros, which end every list. */

typedef struct {
    unsigned entries;
    size_t entry[256]; /* where each begins */
    size_t code;
} Template;

typedef struct {
    Random *random;
    const File *sheet;
    Sheet *basic;
    size_t at;
    unsigned templates;
    Template template[64];
    unsigned closures_left; /* a list may stand for a template many times over: from some closure on a return stands for it */
    unsigned faulty;        /* of a hundred instructions */
} Expansion;

enum { DEEPEST = 40, LAST_CODE = FLOOR_DIV };

static const uint8_t operand_bits[LAST_CODE + 1] = {
    [CALL] = 8, [MAKE_CONT] = 8, [LITERAL] = 8, [CLOSURE] = 8, [GLOBAL] = 8, [SET_GLOBAL] = 8, [LOCAL] = 16, [SET_LOCAL] = 16, [MAKE_ENV] = 8, [CHECKARGS] = 8
};

static const uint8_t inner_lists[LAST_CODE + 1] = { [UNLESS_FALSE] = 2, [MAKE_CONT] = 1 };

static uint64_t bits_at(const File *file, size_t at, unsigned width)
{
    uint64_t value = 0;
    for (; width > 0; width--, at++)
        value = value << 1 | (at / 8 < file->len ? file->bytes[at / 8] >> (7 - at % 8) & 1 : 0);
    return value;
}

static unsigned next_bits(Expansion *e, unsigned width)
{
    e->at += width;
    return (unsigned)bits_at(e->sheet, e->at - width, width);
}

static unsigned entry_width(const File *sheet, size_t at)
{
    if (bits_at(sheet, at, 2) != CONSTANT_ENTRY)
        return 10;
    uint64_t tag = bits_at(sheet, at + 2, 3);
    return tag == INTEGER_CONSTANT ? 37 : tag == WIDE_CONSTANT ? 53 : 5;
}

static void pass_list(Expansion *e, unsigned level)
{
    for (;;) {
        unsigned code = level <= DEEPEST ? next_bits(e, 5) : END;
        if (code == END || code > LAST_CODE)
            return;
        e->at += operand_bits[code];
        for (unsigned i = 0; i < inner_lists[code]; i++)
            pass_list(e, level + 1);
    }
}

static void find_templates(Expansion *e)
{
    unsigned count = next_bits(e, 8);
    e->templates = count < 1 ? 1 : count > 64 ? 64 : count;
    for (unsigned t = 0; t < e->templates; t++) {
        Template *template = &e->template[t];
        template->entries = next_bits(e, 8);
        for (unsigned n = 1; n <= template->entries; n++) {
            template->entry[n] = e->at;
            e->at += entry_width(e->sheet, e->at);
        }
        template->code = e->at;
        pass_list(e, 1);
    }
}

/* Instead of an instruction: no code, no constant, no tag, or a closure whose list is not closed. */
static void put_fault(Random *random, Sheet *s)
{
    static const uint8_t no_codes[] = { JUMP, 14, 17, 26, 27, 28, 29, 30, 31 };
    switch (below(random, 5)) {
    case 0: put0(s, no_codes[below(random, sizeof no_codes)]); break;
    case 1: put0(s, LITERAL); put_number(s, chance(random, 30) ? 0 : 2 + below(random, 2), below(random, 256)); break;
    case 2: put0(s, LITERAL); put_constant(s, 6 + below(random, 2)); break;
    case 3: put0(s, CLOSURE); put0(s, END); break;
    default: put0(s, CLOSURE); put0(s, UNSPECIFIED); put0(s, END);
    }
}

static void expand_list(Expansion *e, unsigned t, unsigned level);

static void expand_closure(Expansion *e, unsigned t, unsigned number)
{
    size_t at = e->at;
    put0(e->basic, CLOSURE);
    if (e->closures_left == 0 || number <= t || number >= e->templates) {
        put0(e->basic, RETURN);
        put0(e->basic, END);
        return;
    }
    e->closures_left--;
    e->at = e->template[number].code;
    expand_list(e, number, 1);
    e->at = at;
}

/* An instruction that names an entry; nothing where the entry is of another kind. */
static void expand_named(Expansion *e, unsigned t, unsigned code)
{
    static const uint8_t kinds[] = { [LITERAL] = CONSTANT_ENTRY, [CLOSURE] = TEMPLATE_ENTRY, [GLOBAL] = GLOBAL_ENTRY, [SET_GLOBAL] = GLOBAL_ENTRY };
    unsigned n = next_bits(e, 8);
    if (n == 0 || n > e->template[t].entries)
        return;
    size_t entry = e->template[t].entry[n];
    unsigned number = (unsigned)bits_at(e->sheet, entry + 2, 8), width = entry_width(e->sheet, entry);
    if (bits_at(e->sheet, entry, 2) != kinds[code])
        return;
    if (code == CLOSURE) {
        expand_closure(e, t, number);
    } else if (code == LITERAL) {
        put0(e->basic, LITERAL);
        put_field(e->basic, width, bits_at(e->sheet, entry, width));
    } else {
        put1(e->basic, code, number);
    }
}

static void expand_list(Expansion *e, unsigned t, unsigned level)
{
    for (;;) {
        unsigned code = level <= DEEPEST ? next_bits(e, 5) : END;
        if (chance(e->random, e->faulty))
            put_fault(e->random, e->basic);
        if (code == END || code > LAST_CODE)
            break;
        if (code >= LITERAL && code <= SET_GLOBAL) {
            expand_named(e, t, code);
            continue;
        }
        put0(e->basic, code);
        put_field(e->basic, operand_bits[code], next_bits(e, operand_bits[code]));
        for (unsigned i = 0; i < inner_lists[code]; i++)
            expand_list(e, t, level + 1);
    }
    put0(e->basic, END);
}

static void write_from_sheet(Random *random, Sheet *s)
{
    static File sheet;
    static Expansion e;
    generate_tree(random, &sheet);
    e.random = random;
    e.sheet = &sheet;
    e.basic = s;
    e.at = 0;
    e.closures_left = chance(random, 90) ? 63 : 64 + below(random, 300);
    e.faulty = chance(random, 90) ? 0 : 1;
    find_templates(&e);
    e.at = e.template[0].code;
    expand_list(&e, 0, 1);
}

/* Lists of literals, globals and closures of few values, so that much is equal */

typedef struct {
    Random *random;
    Sheet *sheet;
    unsigned left, faulty;
} Carrier;

static void put_some_constant(Random *random, Sheet *s)
{
    static const int8_t values[] = { 0, 1, 2, -1, -128 };
    int value = values[below(random, sizeof values)];
    put0(s, LITERAL);
    if (chance(random, 30))
        put_constant(s, below(random, 4));
    else if (chance(random, 50))
        put_integer(s, value);
    else
        put_wide(s, value);
}

static void write_carried_list(Carrier *c, unsigned level, bool closed);

static void write_carried(Carrier *c, unsigned level)
{
    unsigned choice = below(c->random, 10);
    if (chance(c->random, c->faulty))
        put_fault(c->random, c->sheet);
    if (choice < 4 || level == 16) {
        put_some_constant(c->random, c->sheet);
    } else if (choice < 7) {
        put1(c->sheet, chance(c->random, 40) ? GLOBAL : SET_GLOBAL, c->random->first_global + below(c->random, 3));
    } else if (choice < 9) {
        put0(c->sheet, CLOSURE);
        write_carried_list(c, level + 1, true);
    } else {
        put0(c->sheet, UNLESS_FALSE);
        write_carried_list(c, level + 1, false);
        write_carried_list(c, level + 1, false);
    }
}

static void write_some_carried(Carrier *c, unsigned level)
{
    for (unsigned n = 1 + below(c->random, 6); n > 0; n--) {
        write_carried(c, level);
        if (c->left == 0)
            return;
        c->left--;
    }
}

static void write_carried_list(Carrier *c, unsigned level, bool closed)
{
    write_some_carried(c, level);
    if (closed && level < 16 && chance(c->random, 20)) {
        put1(c->sheet, MAKE_CONT, 0);
        write_carried_list(c, level + 1, true);
        write_some_carried(c, level);
    }
    if (closed != (c->faulty > 0 && chance(c->random, 10)))
        put0(c->sheet, RETURN);
    put0(c->sheet, END);
}

static void write_carried_lists(Random *random, Sheet *s)
{
    Carrier c = { random, s, chance(random, 10) ? 300 : 8 + below(random, 60), chance(random, 80) ? 0 : 3 };
    write_carried_list(&c, 1, true);
}

/* Limits */

static void put_return_list(Sheet *s)
{
    put0(s, RETURN);
    put0(s, END);
}

/* Entry i of many that are all different. */
static void put_different(Random *random, Sheet *s, unsigned i)
{
    if (i % 8 == 3) {
        put0(s, CLOSURE);
        put_return_list(s);
    } else if (i % 2 == 0) {
        put1(s, chance(random, 50) ? GLOBAL : SET_GLOBAL, random->first_global + i / 2);
    } else {
        put0(s, LITERAL);
        if (i % 3 == 0)
            put_integer(s, (int32_t)i);
        else
            put_wide(s, i - i % 4 / 2); /* some of these are the numbers of others, under another tag */
    }
}

/* Two below 255 entries to two above, in template 0 or in another; some name them again. */
static void write_many_entries(Random *random, Sheet *s)
{
    unsigned count = 253 + below(random, 5), inside = chance(random, 50);
    if (inside)
        put0(s, CLOSURE);
    for (unsigned i = 0; i < count; i++) {
        put_different(random, s, i);
        if (i % 8 != 3 && chance(random, 20))
            put_different(random, s, i - (i % 8 == 4 ? 2 : 1));
    }
    put_return_list(s);
    if (inside)
        put_return_list(s);
}

/* One below 64 templates to two above; or far more, and one list that is not closed. */
static void write_many_templates(Random *random, Sheet *s)
{
    bool far = chance(random, 30);
    unsigned left = far ? 240 + below(random, 100) : 62 + below(random, 4), wrong = far ? below(random, left) : left;
    while (left > 0) {
        unsigned depth = 1 + below(random, left < 14 ? left : 14);
        for (unsigned level = 0; level < depth; level++)
            put0(s, CLOSURE);
        for (unsigned level = 0; level < depth; level++)
            put0(s, --left == wrong ? UNSPECIFIED : RETURN), put0(s, END);
    }
    put_return_list(s);
}

/* A tabulated file of two bytes less than the longest to two bytes more: a constant has ten bits here and thirteen there. */
static void write_longest_tabulated(Random *random, Sheet *s)
{
    unsigned beside = 8 + 8 + 5 + 5 + 5, bits = 8 * 65534 + below(random, 33) - beside;
    for (; bits >= 13; bits -= 13) {
        put0(s, LITERAL);
        put_constant(s, FALSE_CONSTANT);
    }
    for (; bits >= 5; bits -= 5)
        put0(s, UNSPECIFIED);
    put_return_list(s);
}

/* A file of two bytes less than the longest to two bytes more. Tabulated it has two bytes more. */
static void write_longest_basic(Random *random, Sheet *s)
{
    size_t bits = 8 * (size_t)(65534 + below(random, 5));
    while (s->bits + 15 <= bits)
        put0(s, UNSPECIFIED);
    put_return_list(s);
}

/* A closed list with lists inside lists down to a level: closures', arms and saved ones. */
static void write_down(Random *random, Sheet *s, unsigned level, unsigned last)
{
    unsigned shape = level < last ? below(random, 4) : 4;
    if (shape < 2) {
        put0(s, CLOSURE);
        write_down(random, s, level + 1, last);
        if (level < 16 && chance(random, 50)) {
            put0(s, CLOSURE);
            put_return_list(s);
        }
    } else if (shape == 2) {
        put0(s, UNLESS_FALSE);
        write_down(random, s, level + 1, last);
        put_return_list(s);
        put0(s, END);
        return;
    } else if (shape == 3) {
        put1(s, MAKE_CONT, 0);
        write_down(random, s, level + 1, last);
    }
    put_return_list(s);
}

static void write_deep_basic(Random *random, Sheet *s)
{
    write_down(random, s, 1, 13 + below(random, 5));
}

static void write_some_noise(Random *random, Sheet *s)
{
    for (unsigned n = below(random, 60); n > 0; n--)
        put_field(s, 8, below(random, 256));
}

void generate_basic(Random *random, File *file)
{
    static const Kind kinds[] = {
        { 45, write_from_sheet }, { 18, write_carried_lists }, { 7, write_many_entries }, { 7, write_many_templates }, { 6, write_longest_tabulated },
        { 8, write_longest_basic }, { 6, write_deep_basic }, { 3, write_some_noise }
    };
    static Sheet sheet;
    memset(&sheet, 0, sizeof sheet);
    write_one_of(random, &sheet, kinds, sizeof kinds / sizeof kinds[0]);
    take_sheet(&sheet, file);
    if (chance(random, 2))
        file->len = 0;
    else if (chance(random, 25))
        damage(random, file);
}
