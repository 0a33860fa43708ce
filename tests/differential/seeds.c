#include "seeds.h"

#include <inttypes.h>
#include <signal.h>
#include <stdio.h>
#include <stdlib.h>

uint64_t seed;
const char *calling = "a call";
static uint64_t differences;
static const Seeds *trying;

static void tell(const char *what, const char *how)
{
    printf("DIFFERENCE in %s: %sseed %" PRIu64 " (again: %s 1 %" PRIu64 ")\n", what, how, seed, trying->again, seed);
}

bool differs(const char *what)
{
    if (++differences > 10)
        return false;
    tell(what, "");
    return true;
}

static void tell_fault(int signal_number)
{
    (void)signal_number;
    tell(calling, "it read or wrote outside of what was lent, ");
    fflush(stdout);
    _Exit(1);
}

int try_seeds(const Seeds *seeds, int argc, char **argv)
{
    uint64_t count = argc > 1 ? strtoull(argv[1], NULL, 10) : seeds->count, first = argc > 2 ? strtoull(argv[2], NULL, 10) : 1;
    trying = seeds;
    signal(SIGSEGV, tell_fault);
    signal(SIGBUS, tell_fault);
    for (seed = first; seed - first < count; seed++) {
        Random random = { .state = seed * UINT64_C(0x2545f4914f6cdd1d) };
        seeds->compare(&random);
    }
    bool wanting = count >= seeds->enough && !seeds->all_came_up();
    if (argc > 3 || wanting)
        seeds->print_tallies();
    if (wanting)
        printf("%s: something that is wanted never came up (above): the generator is too narrow\n", seeds->name);
    printf("%s: %" PRIu64 " %s from seed %" PRIu64 ", %" PRIu64 " differences\n", seeds->name, count, seeds->things, first, differences);
    return differences == 0 && !wanting ? 0 : 1;
}
