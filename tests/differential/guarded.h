/* Buffers that stand against a page nobody may touch: a read or write past that end stops the program at once. Behind the other end stand some
   bytes that are looked at afterwards. */
#ifndef GUARDED_H
#define GUARDED_H

#include <stdbool.h>
#include <stddef.h>
#include <stdint.h>

typedef struct {
    uint8_t *from, *to; /* the pages between the two that are guarded */
    uint8_t *lent;
    size_t size;
} Guarded;

void make_guarded(Guarded *buffer, size_t room);

/* Lends size bytes that hold what bytes hold, at the end of the pages or at their start. */
void *lend(Guarded *buffer, const void *bytes, size_t size, bool at_end);

/* Copies the lent bytes back; false where something outside of them was written. */
bool take_back(const Guarded *buffer, void *bytes);

#endif
