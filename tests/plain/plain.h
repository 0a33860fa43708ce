/* Document 01 and the landed requests of document 02 in plain C, written from the papers: the other side of the comparison and of the benchmark.
   Each function does what include/exporter.h tells of the library's. Tables are static: one call at a time. */
#ifndef PLAIN_H
#define PLAIN_H

#include "shapes.h"

Convert plain_flatten, plain_back, plain_tabulate;
Join plain_join;
Trim plain_trim;
Run plain_run_tree, plain_run_linear;
Run plain_run_basic; /* as plain_run_tree, for a basic file (document 02, Ask 6) */
Pull plain_pull_list;

/* Of the last accepted run: first arms of open conditionals taken (tree, basic), jumps made (linear). */
extern uint64_t plain_firsts, plain_jumps;

#endif
