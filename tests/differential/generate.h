/* Sheets, linear files and starts from a seed: the same seed always gives the same. */
#ifndef GENERATE_H
#define GENERATE_H

#include <stdbool.h>
#include <stddef.h>
#include <stdint.h>

#include "../plain/sheet.h"

enum { FILE_ROOM = 262144 + 4096 };

typedef struct {
    uint64_t state;
    unsigned first_global; /* of the owner that files are made for: 0, or 64 for a vendor */
} Random;

typedef struct {
    uint8_t bytes[FILE_ROOM];
    size_t len;
} File;

uint64_t draw(Random *random);
unsigned below(Random *random, unsigned limit); /* 0 to limit - 1 */
bool chance(Random *random, unsigned percent);

void generate_tree(Random *random, File *file);   /* most are valid, some are damaged, some are not even meant to be */
void generate_prologue(Random *random, File *file); /* one template and an open list, most of them */
void generate_linear(Random *random, File *file); /* code that no sheet flattens to */
void generate_basic(Random *random, File *file);  /* as generate_tree's, in basic byte code */
void damage(Random *random, File *file);

/* What is written, by its share. */
typedef struct {
    unsigned share;
    void (*write)(Random *random, Sheet *sheet);
} Kind;

void write_one_of(Random *random, Sheet *sheet, const Kind *kinds, size_t count);
void take_sheet(const Sheet *sheet, File *file);

uint64_t generate_owner(Random *random); /* whose the files from here on are made for; now and then the other runs them */
uint64_t bad_owner(Random *random);
void generate_globals(Random *random, uint64_t *globals); /* 256, each fit for a start */
uint64_t bad_global(Random *random);
uint64_t generate_budget(Random *random, uint64_t largest);

#endif
