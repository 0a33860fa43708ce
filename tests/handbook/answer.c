/* Answers questions about the library, one to a line of standard input, for tests/handbook/figures. HEX is a file's bytes in hex, or - for none.
     flatten|tabulate OUT HEX        number, length or place, and the linear or tabulated file in hex where it was accepted
     tree|basic|linear BUDGET OWNER STORE FILL G CELL HEX
                                     a run with STORE store cells and all globals FILL, but for global G, which is CELL: the result's 8 slots, then
                                     the cells used of stack, store and frames, and the globals that were changed, as G=CELL. Cells are in hex
     pull BUDGET ROOM WORDS HEX      a list of ROOM bytes for the clips' WORDS, with a comma after each: number, length or place, and the list with _ for a
                                     blank and a blank for a newline */
#include "../plain/library.h"

#include <inttypes.h>
#include <stdbool.h>
#include <stdio.h>
#include <stdlib.h>
#include <string.h>

enum { LINE = 2 * EXPORTER_LINEAR_FILE + 200 };

static uint8_t file[EXPORTER_LINEAR_FILE], out[EXPORTER_LINEAR_FILE];
static uint64_t globals[EXPORTER_GLOBALS], stack[EXPORTER_STACK], store[EXPORTER_STORE + 8], frames[EXPORTER_FRAMES];

static size_t read_hex(const char *hex)
{
    size_t length = 0;
    unsigned byte;
    for (; hex[0] != '-' && hex[0] != '\0'; hex += 2) {
        sscanf(hex, "%2x", &byte);
        file[length++] = (uint8_t)byte;
    }
    return length;
}

static void answer_convert(Convert *way, size_t room, const char *hex)
{
    uint64_t result[2];
    way(file, read_hex(hex), out, room, result, 2);
    printf("%" PRIu64 " %" PRIu64 " ", result[0], result[1]);
    for (size_t i = 0; result[0] == 0 && i < result[1]; i++)
        printf("%02X", out[i]);
    printf("\n");
}

static void print_cells(const uint64_t *cells, uint64_t count)
{
    for (uint64_t i = 0; i < count; i++)
        printf("%s%016" PRIX64, i > 0 ? "," : " ", cells[i]);
    if (count == 0)
        printf(" -");
}

static void answer_run(Run *machine, uint64_t budget, uint64_t owner, size_t cells, uint64_t fill, unsigned special, uint64_t cell, const char *hex)
{
    uint64_t r[8];
    for (unsigned g = 0; g < EXPORTER_GLOBALS; g++)
        globals[g] = g == special ? cell : fill;
    machine(file, read_hex(hex), budget, owner, globals, EXPORTER_GLOBALS, stack, EXPORTER_STACK, store, cells, frames, EXPORTER_FRAMES, r, 8);
    for (unsigned i = 0; i < 8; i++)
        printf(i == 3 ? "%s%016" PRIX64 : "%s%" PRIu64, i > 0 ? " " : "", r[i]);
    print_cells(stack, r[5]);
    print_cells(store, r[6]);
    print_cells(frames, r[7]);
    for (unsigned g = 0; g < EXPORTER_GLOBALS; g++)
        if (globals[g] != (g == special ? cell : fill))
            printf(" %u=%016" PRIX64, g, globals[g]);
    printf("\n");
}

static void answer_pull(uint64_t budget, size_t room, const char *words, const char *hex)
{
    static int32_t clips[EXPORTER_CLIP_WORDS * (EXPORTER_CLIPS + 1)];
    uint64_t result[2];
    size_t count = 0;
    for (char *next; *words != '\0' && strcmp(words, "-") != 0; words = next + 1)
        clips[count++] = (int32_t)strtol(words, &next, 10);
    exporter_pull_list(clips, count, file, read_hex(hex), budget, out, room, result, 2);
    printf("%" PRIu64 " %" PRIu64 " ", result[0], result[1]);
    for (size_t i = 0; result[0] == 0 && i < result[1]; i++)
        putchar(out[i] == ' ' ? '_' : out[i] == '\n' ? ' ' : out[i]);
    printf("\n");
}

int main(void)
{
    static char line[LINE], word[16], hex[LINE], words[LINE];
    while (fgets(line, LINE, stdin) != NULL) {
        uint64_t a, b, owner, fill, g, cell;
        sscanf(line, "%15s", word);
        bool flattens = strcmp(word, "flatten") == 0, tabulates = strcmp(word, "tabulate") == 0;
        if ((flattens || tabulates) && sscanf(line, "%*s %" SCNu64 " %s", &a, hex) == 2)
            answer_convert(flattens ? exporter_flatten : exporter_tabulate, a, hex);
        else if (strcmp(word, "pull") == 0 && sscanf(line, "%*s %" SCNu64 " %" SCNu64 " %s %s", &a, &b, words, hex) == 4)
            answer_pull(a, b, words, hex);
        else if (sscanf(line, "%*s %" SCNu64 " %" SCNu64 " %" SCNu64 " %" SCNx64 " %" SCNu64 " %" SCNx64 " %s", &a, &owner, &b, &fill, &g, &cell, hex) == 7)
            answer_run(strcmp(word, "tree") == 0 ? exporter_run_tree : strcmp(word, "basic") == 0 ? exporter_run_basic : exporter_run_linear, a, owner, b,
                       fill, (unsigned)g, cell, hex);
        else
            return 1;
        fflush(stdout);
    }
    return 0;
}
