/* trim ROOM ROOM FILE OUT LIST: trims a file into outputs of so many bytes, the file's first, and writes what they got to OUT and LIST; bytes behind these
   stay as they were (0x5a). Tells `N P` of a refusal, as the vectors of document 02's request 5 do, and nothing else. What was trimmed is trimmed once more:
   the file has to be the same, and nothing may be gone. */
#include "../../include/exporter.h"

#include <inttypes.h>
#include <stdio.h>
#include <stdlib.h>
#include <string.h>

enum { UNTOUCHED = 0x5a };

static uint8_t file[EXPORTER_TREE_FILE + 1], out[EXPORTER_TREE_FILE + 1], list[EXPORTER_TRIM_LIST + 1], again[EXPORTER_TREE_FILE + 1],
    same[EXPORTER_TRIM_LIST + 1];
static uint64_t result[EXPORTER_TRIM_SLOTS];

static void give_up(const char *what)
{
    fprintf(stderr, "trim: %s\n", what);
    exit(2);
}

static void untouched(const uint8_t *bytes, size_t from, size_t to)
{
    for (; from < to; from++)
        if (bytes[from] != UNTOUCHED)
            give_up("bytes behind an output's were touched");
}

static void store(const char *name, const uint8_t *bytes, size_t length)
{
    FILE *to = fopen(name, "wb");
    if (to == NULL || fwrite(bytes, 1, length, to) != length || fclose(to) != 0)
        give_up(name);
}

int main(int argc, char **argv)
{
    if (argc != 6)
        give_up("usage: trim ROOM ROOM FILE OUT LIST");
    size_t room = strtoul(argv[1], NULL, 10), lines = strtoul(argv[2], NULL, 10);
    FILE *in = fopen(argv[3], "rb");
    if (in == NULL)
        give_up(argv[3]);
    size_t length = fread(file, 1, sizeof file, in);
    fclose(in);
    memset(out, UNTOUCHED, sizeof out);
    memset(list, UNTOUCHED, sizeof list);
    exporter_trim(file, length, out, room, list, lines, result, EXPORTER_TRIM_SLOTS);
    int accepted = result[EXPORTER_REFUSAL] == 0;
    size_t size = accepted ? result[EXPORTER_LENGTH_OR_PLACE] : 0, bytes = accepted ? result[EXPORTER_LIST_LENGTH] : 0;
    untouched(out, size, sizeof out);
    untouched(list, bytes, sizeof list);
    if (!accepted) {
        printf("%" PRIu64 " %" PRIu64 "\n", result[0], result[1]);
        return 0;
    }
    store(argv[4], out, size);
    store(argv[5], list, bytes);
    exporter_trim(out, size, again, sizeof again, same, sizeof same, result, EXPORTER_TRIM_SLOTS);
    if (result[0] != 0 || result[1] != size || memcmp(out, again, size) != 0)
        give_up("trimmed again it is another file");
    same[result[2]] = 0;
    if (strstr((const char *)same, "gone") != NULL)
        give_up("trimmed again something is gone");
    return 0;
}
