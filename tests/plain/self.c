/* Linked in the place of the archive, this is the plain implementation under the library's names: to try what is built around
   the library without it. bench/self.c puts its own flattener and machines in their place. */
#include "library.h"

#ifndef FLATTEN
#define FLATTEN plain_flatten
#define RUN_TREE plain_run_tree
#define RUN_LINEAR plain_run_linear
#endif

void exporter_flatten(FILE_LENT) { FLATTEN(FILE_GIVEN); }
void exporter_back(FILE_LENT) { plain_back(FILE_GIVEN); }
void exporter_tabulate(FILE_LENT) { plain_tabulate(FILE_GIVEN); }
void exporter_join(JOIN_LENT) { plain_join(JOIN_GIVEN); }
void exporter_trim(TRIM_LENT) { plain_trim(TRIM_GIVEN); }
void exporter_run_tree(RUN_LENT) { RUN_TREE(RUN_GIVEN); }
void exporter_run_linear(RUN_LENT) { RUN_LINEAR(RUN_GIVEN); }
void exporter_pull_list(PULL_LENT) { plain_pull_list(PULL_GIVEN); }
void exporter_run_basic(RUN_LENT) { plain_run_basic(RUN_GIVEN); }
