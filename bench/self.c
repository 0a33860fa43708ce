/* Linked in the place of the archive, this is the benchmark's C (bench/fast.c) under the library's names: to compare it with the plain implementation. What it
   has not is the plain implementation's own. */
#include "fast.h"

#define FLATTEN fast_flatten
#define RUN_TREE fast_run_tree
#define RUN_LINEAR fast_run_linear
#include "../tests/plain/self.c"
