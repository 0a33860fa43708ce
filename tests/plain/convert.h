/* From a file on standard input to one on standard output, for the vectors of those functions that make one file of another. */
#ifndef CONVERT_H
#define CONVERT_H

#include "shapes.h"

/* Writes what comes of a file of up to `longest` bytes, or one more, into an output of `room` bytes (a number in words, or NULL: ample), or the number and
   place of a refusal. The status: 2 where a refusal changed the output, or bytes after the file changed. */
int convert(Convert *way, size_t longest, const char *room);

#endif
