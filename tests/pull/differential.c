/* differential COUNT SEED [tally]: pulls generated lists with the library and with the plain implementation and compares results and all bytes of both
   lists. Rules, clips, budgets and rooms are sound or damaged. The library's buffers have exactly the lent lengths and stand at guarded pages. List i
   has the seed SEED + i. From 2,000 lists on, every word of a line and every refusal must have come up. */
#include "../differential/guarded.h"
#include "../differential/seeds.h"
#include "../plain/library.h"

#include <inttypes.h>
#include <stdio.h>
#include <stdlib.h>
#include <string.h>

enum { WORDS = 8 * 260, LIST = 48 * 260 + 64, RESULT = 4 };
enum { INPUTS = 6, RULE_GLOBALS = 8, RULE_CONSTANTS = 4, LARGEST_BUDGET = 2000000 };

typedef struct {
    int32_t words[WORDS];
    size_t count;
} Clips;

static uint64_t refusals[32], words[6], longest;
static const char *const word_names[] = { "wrong", "none", "order", "low", "high", "ok" };

static struct {
    Guarded clips, file, list, result;
} lent;

/* Rules: globals 6 and 7 from globals 0 to 5 and some constants. */

static void put_operand(Random *random, Sheet *sheet)
{
    if (chance(random, 70))
        put1(sheet, GLOBAL, 1 + below(random, chance(random, 5) ? RULE_GLOBALS : INPUTS));
    else
        put1(sheet, LITERAL, RULE_GLOBALS + 1 + below(random, RULE_CONSTANTS));
}

static void put_sum(Random *random, Sheet *sheet)
{
    static const unsigned codes[] = { ADD, SUB, FLOOR_DIV, ADD, SUB, LESS };
    put_operand(random, sheet);
    for (unsigned n = below(random, 4); n > 0; n--) {
        put0(sheet, PUSH);
        put_operand(random, sheet);
        put0(sheet, PUSH);
        put0(sheet, codes[below(random, chance(random, 90) ? 5 : 6)]);
    }
}

static void write_rule(Random *random, Sheet *sheet)
{
    sheet_begin(sheet, 1);
    put_field(sheet, 8, RULE_GLOBALS + RULE_CONSTANTS);
    for (unsigned g = 0; g < RULE_GLOBALS; g++)
        put_number(sheet, GLOBAL_ENTRY, g);
    for (unsigned n = 0; n < RULE_CONSTANTS; n++)
        if (chance(random, 90))
            put_integer(sheet, (int32_t)below(random, 9) - 2);
        else if (chance(random, 50))
            put_integer(sheet, (int32_t)(uint32_t)draw(random));
        else
            put_constant(sheet, TRUE_CONSTANT);
    for (unsigned g = 7; g <= RULE_GLOBALS; g++)
        if (chance(random, 95)) {
            put_sum(random, sheet);
            put1(sheet, SET_GLOBAL, g);
        }
    put0(sheet, RETURN);
    put0(sheet, END);
}

static void flatten(const uint8_t *bytes, size_t len, File *file)
{
    uint64_t result[2];
    plain_flatten(bytes, len, file->bytes, FILE_ROOM, result, 2);
    file->len = result[0] == 0 ? result[1] : 0;
}

static void generate_rule(Random *random, File *file)
{
    static Sheet sheet;
    static File tree;
    if (chance(random, 80)) {
        write_rule(random, &sheet);
        flatten(sheet.bytes, sheet_length(&sheet), file);
    } else if (chance(random, 50)) {
        generate_tree(random, &tree);
        flatten(tree.bytes, tree.len, file);
    } else {
        generate_linear(random, file);
    }
    if (chance(random, 15))
        damage(random, file);
}

/* Clips */

static int32_t some_word(Random *random)
{
    if (chance(random, 90))
        return (int32_t)below(random, 200) - 20;
    return chance(random, 50) ? (int32_t)(uint32_t)draw(random) : chance(random, 50) ? INT32_MAX : INT32_MIN;
}

static void generate_clips(Random *random, Clips *clips)
{
    size_t count = chance(random, 90) ? below(random, 7) : chance(random, 50) ? 256 + below(random, 3) : below(random, 257);
    clips->count = 8 * count + (chance(random, 3) ? 1 + below(random, 7) : 0);
    for (size_t i = 0; i < clips->count; i++)
        clips->words[i] = some_word(random);
    for (size_t i = 3; i < clips->count; i += 8)
        if (!chance(random, 2))
            clips->words[i] = 1 + (int32_t)below(random, 4);
}

/* Comparing */

static void count_lines(const uint8_t *list, size_t len)
{
    size_t from = 0;
    for (size_t i = 0; i < len; i++)
        if (list[i] == '\n') {
            const char *word = memchr(list + from, ' ', i - from);
            for (unsigned n = 0; word != NULL && n < 6; n++)
                words[n] += strncmp(word + 1, word_names[n], strlen(word_names[n])) == 0;
            longest = i + 1 - from > longest ? i + 1 - from : longest;
            from = i + 1;
        }
}

static void compare(Random *random, const Clips *clips, const File *file, uint64_t budget, size_t room, size_t slots)
{
    static uint8_t library_list[LIST], plain_list[LIST], after[FILE_ROOM];
    uint64_t library_result[RESULT], plain_result[RESULT];
    bool at_end = seed % 2 == 0, inside;
    memset(library_list, (int)below(random, 256), sizeof library_list);
    memcpy(plain_list, library_list, sizeof plain_list);
    for (unsigned i = 0; i < RESULT; i++)
        library_result[i] = plain_result[i] = draw(random);
    exporter_pull_list(lend(&lent.clips, clips->words, clips->count * sizeof clips->words[0], at_end), clips->count,
                       lend(&lent.file, file->bytes, file->len, at_end), file->len, budget,
                       lend(&lent.list, library_list, room, at_end), room,
                       lend(&lent.result, library_result, slots * sizeof library_result[0], at_end), slots);
    inside = take_back(&lent.list, library_list);
    inside = take_back(&lent.result, library_result) && inside;
    inside = take_back(&lent.file, after) && memcmp(after, file->bytes, file->len) == 0 && inside;
    inside = take_back(&lent.clips, after) && memcmp(after, clips->words, clips->count * sizeof clips->words[0]) == 0 && inside;
    plain_pull_list(clips->words, clips->count, file->bytes, file->len, budget, plain_list, room, plain_result, slots);
    bool alike = memcmp(library_result, plain_result, sizeof plain_result) == 0 && memcmp(library_list, plain_list, sizeof plain_list) == 0;
    if (!(inside && alike) && differs("a list"))
        printf("  %zu words, %zu bytes of file, budget %" PRIu64 ", room %zu, slots %zu%s; library %" PRIu64 " %" PRIu64 ", plain %" PRIu64 " %" PRIu64 "\n",
               clips->count, file->len, budget, room, slots, inside ? "" : ", written beside what was lent", library_result[0], library_result[1],
               plain_result[0], plain_result[1]);
    if (slots >= 2 && plain_result[0] < 32)
        refusals[plain_result[0]]++;
    if (slots >= 2 && plain_result[0] == 0)
        count_lines(plain_list, plain_result[1]);
}

static void compare_list(Random *random)
{
    static Clips clips;
    static File file;
    generate_clips(random, &clips);
    generate_rule(random, &file);
    uint64_t budget = chance(random, 80) ? 1000 : chance(random, 60) ? below(random, 60) : clips.count <= 16 ? LARGEST_BUDGET : 5000;
    if (chance(random, 4))
        budget = chance(random, 50) ? LARGEST_BUDGET + 1 : draw(random) | UINT64_C(1) << 63;
    size_t least = 48 * (clips.count / 8), room = least;
    if (chance(random, 30))
        room += below(random, LIST - (unsigned)least);
    else if (chance(random, 5))
        room = below(random, (unsigned)least + 1);
    compare(random, &clips, &file, budget, room, chance(random, 95) ? 2 : below(random, RESULT + 1));
}

static bool all_came_up(void)
{
    static const uint8_t wanted[] = { 0, 1, 2, 3, 5, 21, 27, 28, 29 };
    bool all = true;
    for (unsigned i = 0; i < sizeof wanted; i++)
        all = all && (refusals[wanted[i]] > 0 || wanted[i] == 1); /* 1: the vectors have it */
    for (unsigned n = 0; n < 6; n++)
        all = all && words[n] > 0;
    return all;
}

static void print_tally(void)
{
    for (unsigned n = 0; n < 32; n++)
        if (refusals[n] > 0)
            printf("%s %u x%" PRIu64 "; ", n == 0 ? "accepted" : "refused", n, refusals[n]);
    for (unsigned n = 0; n < 6; n++)
        printf("%s x%" PRIu64 "; ", word_names[n], words[n]);
    printf("longest line %" PRIu64 "\n", longest);
}

int main(int argc, char **argv)
{
    static const Seeds seeds = { "pull differential", "lists", "tests/pull/differential", 2000, 2000, compare_list, all_came_up, print_tally };
    make_guarded(&lent.clips, WORDS * sizeof(int32_t));
    make_guarded(&lent.file, FILE_ROOM);
    make_guarded(&lent.list, LIST);
    make_guarded(&lent.result, RESULT * sizeof(uint64_t));
    return try_seeds(&seeds, argc, argv);
}
