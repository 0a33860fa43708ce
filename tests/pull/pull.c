/* pull BUDGET ROOM CLIPS FILE: pulls a list with a rule. CLIPS is a file of words, each four bytes, the highest first; FILE a linear file; ROOM the
   bytes of the list that is lent. Writes the list, or a refusal's number and place. Bytes of the list that must stay are looked at. */
#include "../../include/exporter.h"

#include <inttypes.h>
#include <stdio.h>
#include <stdlib.h>
#include <string.h>

enum { WORDS = 4096, ROOM = 65536, STAYS = '#' };

static size_t read_file(const char *name, uint8_t *bytes, size_t room)
{
    FILE *in = fopen(name, "rb");
    if (in == NULL) {
        perror(name);
        exit(2);
    }
    size_t len = fread(bytes, 1, room, in);
    fclose(in);
    return len;
}

static int32_t word_at(const uint8_t *p)
{
    return (int32_t)((uint32_t)p[0] << 24 | (uint32_t)p[1] << 16 | (uint32_t)p[2] << 8 | (uint32_t)p[3]);
}

int main(int argc, char **argv)
{
    static uint8_t bytes[4 * WORDS], file[EXPORTER_LINEAR_FILE + 1], list[ROOM];
    static int32_t clips[WORDS];
    uint64_t result[EXPORTER_FLATTEN_SLOTS];
    if (argc != 5)
        return 2;
    size_t room = strtoull(argv[2], NULL, 10), words = read_file(argv[3], bytes, sizeof bytes) / 4;
    size_t file_len = read_file(argv[4], file, sizeof file);
    for (size_t i = 0; i < words; i++)
        clips[i] = word_at(bytes + 4 * i);
    memset(list, STAYS, sizeof list);
    exporter_pull_list(clips, words, file, file_len, strtoull(argv[1], NULL, 10), list, room, result, EXPORTER_FLATTEN_SLOTS);
    size_t written = result[EXPORTER_REFUSAL] == 0 ? result[EXPORTER_LENGTH_OR_PLACE] : 0;
    for (size_t i = written; i < sizeof list; i++)
        if (list[i] != STAYS) {
            printf("byte %zu was written\n", i);
            return 1;
        }
    if (result[EXPORTER_REFUSAL] != 0)
        printf("%" PRIu64 " %" PRIu64 "\n", result[EXPORTER_REFUSAL], result[EXPORTER_LENGTH_OR_PLACE]);
    fwrite(list, 1, written, stdout);
    return 0;
}
