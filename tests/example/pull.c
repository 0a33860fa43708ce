/* The pull list from C: a retime rule for speeds of 3 over the clip's denominator, three clips, a line for each. */
#include "../../include/exporter.h"

#include <inttypes.h>
#include <stdio.h>

/* The rule as a tree sheet. Entries 1 to 7: globals 0, 1, 3, 4, 5, 6, 7.
   Source in: record in three times, %%add, by the denominator %%floor-div, less the head handle %%sub, into global 6.
   Source out: the same of record out, and the tail handle %%add, into global 7. */
static const uint8_t rule[] = {
    0x01, 0x07, 0x80, 0x20, 0x18, 0x0E, 0x04, 0x81, 0x60, 0x68, 0x1D, 0x00, 0x2C, 0x63, 0x2C, 0xC4, 0x01, 0xB3, 0x2C,
    0x40, 0x23, 0x2E, 0x90, 0x64, 0x01, 0x31, 0x8C, 0xB3, 0x10, 0x06, 0xCC, 0xB1, 0x00, 0xAC, 0xB2, 0x41, 0xC2, 0x00
};

enum { CLIPS = 3 };

/* Record in and out, speed, handles, media. */
static const int32_t clips[CLIPS * EXPORTER_CLIP_WORDS] = {
    100, 140, 3, 2, 8, 8, 100, 300,
    0, 48, 3, 2, 8, 8, 0, 200,
    200, 240, 3, 2, 8, 8, 250, 365,
};

int main(void)
{
    uint8_t linear[4 * sizeof rule + 64], list[CLIPS * EXPORTER_CLIP_BYTES];
    uint64_t result[EXPORTER_FLATTEN_SLOTS];
    exporter_flatten(rule, sizeof rule, linear, sizeof linear, result, EXPORTER_FLATTEN_SLOTS);
    if (result[EXPORTER_REFUSAL] != 0)
        return 1;
    size_t linear_length = result[EXPORTER_LENGTH_OR_PLACE];
    exporter_pull_list(clips, CLIPS * EXPORTER_CLIP_WORDS, linear, linear_length, EXPORTER_LINEAR_BUDGET, list, sizeof list, result, EXPORTER_FLATTEN_SLOTS);
    if (result[EXPORTER_REFUSAL] != 0) {
        printf("refused by %" PRIu64 " at %" PRIu64 "\n", result[EXPORTER_REFUSAL], result[EXPORTER_LENGTH_OR_PLACE]);
        return 1;
    }
    fwrite(list, 1, result[EXPORTER_LENGTH_OR_PLACE], stdout);
    return 0;
}
