/* The benchmark's other side: flattener, tree machine and linear machine in C, written for speed, from documents 01 and 02. Each does what include/exporter.h
   tells of the library's. Tables are static: one call at a time. For processors that keep the lowest byte first. */
#ifndef FAST_H
#define FAST_H

#include "../tests/plain/shapes.h"

Convert fast_flatten;
Run fast_run_tree, fast_run_linear;

#endif
