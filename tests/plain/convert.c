#include "convert.h"

#include "../../include/exporter.h"

#include <inttypes.h>
#include <stdio.h>
#include <stdlib.h>
#include <string.h>

enum { FILL = 0xA5, AMPLE = EXPORTER_TREE_FILE + 16 };

int convert(Convert *way, size_t longest, const char *room)
{
    static uint8_t file[EXPORTER_LINEAR_FILE + 1], out[AMPLE];
    size_t length = fread(file, 1, longest + 1, stdin), out_len = room != NULL ? strtoul(room, NULL, 10) : AMPLE;
    uint64_t result[EXPORTER_FLATTEN_SLOTS];
    if (out_len > AMPLE)
        return 2;
    memset(out, FILL, sizeof out);
    way(file, length, out, out_len, result, EXPORTER_FLATTEN_SLOTS);
    size_t written = result[EXPORTER_REFUSAL] == 0 ? result[EXPORTER_LENGTH_OR_PLACE] : 0;
    for (size_t i = written; i < sizeof out; i++)
        if (out[i] != FILL)
            return 2;
    if (result[EXPORTER_REFUSAL] != 0)
        printf("%" PRIu64 " %" PRIu64 "\n", result[EXPORTER_REFUSAL], result[EXPORTER_LENGTH_OR_PLACE]);
    else
        fwrite(out, 1, written, stdout);
    return 0;
}
