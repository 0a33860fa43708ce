/* Tests on generated files: file i has the seed SEED + i, so that one can be done again by itself. */
#ifndef SEEDS_H
#define SEEDS_H

#include "generate.h"

typedef struct {
    const char *name, *things, *again; /* as its lines tell: the test's name, what it generates, and the command */
    uint64_t count, enough;            /* without a word for it; from how many on all that is wanted must have come up */
    void (*compare)(Random *random);
    bool (*all_came_up)(void);
    void (*print_tallies)(void);
} Seeds;

extern uint64_t seed;
extern const char *calling; /* for the report of a fault: the guarded pages end the test */

/* Counts a difference and tells of it; answers whether to tell more. */
bool differs(const char *what);

/* COUNT SEED [tally]: the test's status. */
int try_seeds(const Seeds *seeds, int argc, char **argv);

#endif
