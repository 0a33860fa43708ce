/* join ROOM OUT FILE FILE: joins two files into an output of so many bytes, and writes what the output holds then to OUT, the first byte that is not
   the file's and those behind it as they were before (0x5a). Tells `N P` of a refusal, as the vectors of document 02's request 10 do, and nothing else.
   join left|right OUT A B C: both groupings of request 11, with ample outputs; tells `accepted N bytes` or `refused N P`.
   join row NAME A B C: a row of the table of docs/GROUPINGS.md: how A, B (as first and as second operand) and C are judged by themselves, and both groupings. */
#include "../../include/exporter.h"

#include <inttypes.h>
#include <stdio.h>
#include <stdlib.h>
#include <string.h>

enum { LONGEST = EXPORTER_TREE_FILE + 1, UNTOUCHED = 0x5a };

typedef struct {
    uint8_t bytes[LONGEST];
    size_t length;
} File;

static File operands[3], inner, outer;
static uint64_t result[EXPORTER_FLATTEN_SLOTS];

static void give_up(const char *what)
{
    fprintf(stderr, "join: %s\n", what);
    exit(2);
}

static void load(const char *name, File *file)
{
    FILE *in = fopen(name, "rb");
    if (in == NULL)
        give_up(name);
    file->length = fread(file->bytes, 1, LONGEST, in);
    fclose(in);
}

/* Whether it was accepted. A refusal leaves the output as it was, and no byte behind the file is touched. */
static int join(const File *a, const File *b, File *out, size_t room)
{
    memset(out->bytes, UNTOUCHED, LONGEST);
    exporter_join(a->bytes, a->length, b->bytes, b->length, out->bytes, room, result, EXPORTER_FLATTEN_SLOTS);
    out->length = result[EXPORTER_REFUSAL] == 0 ? result[EXPORTER_LENGTH_OR_PLACE] : 0;
    for (size_t i = out->length; i < LONGEST; i++)
        if (out->bytes[i] != UNTOUCHED)
            give_up("bytes behind the file were touched");
    return result[EXPORTER_REFUSAL] == 0;
}

static void store(const char *name, const File *file)
{
    FILE *out = fopen(name, "wb");
    if (out == NULL || fwrite(file->bytes, 1, file->length, out) != file->length || fclose(out) != 0)
        give_up(name);
}

static int group(int left)
{
    if (left)
        return join(&operands[0], &operands[1], &inner, EXPORTER_TREE_FILE) && join(&inner, &operands[2], &outer, EXPORTER_TREE_FILE);
    return join(&operands[1], &operands[2], &inner, EXPORTER_TREE_FILE) && join(&operands[0], &inner, &outer, EXPORTER_TREE_FILE);
}

/* ---- a row */
static const File push = {{0x01, 0x00, 0x60, 0x00}, 4}, only_return = {{0x01, 0x00, 0x08, 0x00}, 4};

static void cell(int accepted, int grouped)
{
    if (!accepted)
        printf(" %" PRIu64 " at %" PRIu64 " |", result[0], result[1]);
    else if (grouped)
        printf(" %" PRIu64 " bytes |", result[1]);
    else
        printf(" |");
}

static int row(char **words)
{
    for (int i = 0; i < 3; i++)
        load(words[i + 1], &operands[i]);
    printf("| `%s` |", words[0]);
    cell(join(&operands[0], &only_return, &outer, EXPORTER_TREE_FILE), 0);
    cell(join(&operands[1], &only_return, &outer, EXPORTER_TREE_FILE), 0);
    cell(join(&push, &operands[1], &outer, EXPORTER_TREE_FILE), 0);
    cell(join(&push, &operands[2], &outer, EXPORTER_TREE_FILE), 0);
    cell(group(1), 1);
    cell(group(0), 1);
    printf("\n");
    return 0;
}

int main(int argc, char **argv)
{
    if (argc == 6 && strcmp(argv[1], "row") == 0)
        return row(argv + 2);
    if (argc < 5 || argc > 6)
        give_up("usage: join ROOM OUT A B, or join left|right OUT A B C");
    for (int i = 3; i < argc; i++)
        load(argv[i], &operands[i - 3]);
    int accepted = argc == 5 ? join(&operands[0], &operands[1], &outer, strtoul(argv[1], NULL, 10)) : group(strcmp(argv[1], "left") == 0);
    if (accepted)
        store(argv[2], &outer);
    if (argc == 6)
        printf(accepted ? "accepted %" PRIu64 " bytes\n" : "refused %" PRIu64 " %" PRIu64 "\n", result[accepted ? 1 : 0], result[1]);
    else if (!accepted)
        printf("%" PRIu64 " %" PRIu64 "\n", result[0], result[1]);
    return 0;
}
