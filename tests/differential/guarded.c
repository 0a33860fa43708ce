#define _DEFAULT_SOURCE
#include "guarded.h"

#include <stdio.h>
#include <stdlib.h>
#include <string.h>
#include <sys/mman.h>
#include <unistd.h>

enum { BESIDE = 64, MARK = 0xA5 }; /* bytes at the end that is not guarded */

void make_guarded(Guarded *buffer, size_t room)
{
    size_t page = (size_t)sysconf(_SC_PAGESIZE), pages = (room + page - 1) / page * page;
    uint8_t *all = mmap(NULL, pages + 2 * page, PROT_NONE, MAP_PRIVATE | MAP_ANONYMOUS, -1, 0);
    if (all == MAP_FAILED || mprotect(all + page, pages, PROT_READ | PROT_WRITE) != 0) {
        perror("guarded buffers");
        exit(2);
    }
    buffer->from = all + page;
    buffer->to = buffer->from + pages;
}

/* The bytes beside the lent ones, on each side as far as the pages go. */
static size_t before(const Guarded *b)
{
    size_t count = (size_t)(b->lent - b->from);
    return count < BESIDE ? count : BESIDE;
}

static size_t behind(const Guarded *b)
{
    size_t count = (size_t)(b->to - (b->lent + b->size));
    return count < BESIDE ? count : BESIDE;
}

void *lend(Guarded *buffer, const void *bytes, size_t size, bool at_end)
{
    buffer->size = size;
    buffer->lent = at_end ? buffer->to - size : buffer->from;
    memset(buffer->lent - before(buffer), MARK, before(buffer));
    memset(buffer->lent + size, MARK, behind(buffer));
    if (size > 0)
        memcpy(buffer->lent, bytes, size);
    return buffer->lent;
}

static bool all_marks(const uint8_t *bytes, size_t count)
{
    for (size_t i = 0; i < count; i++)
        if (bytes[i] != MARK)
            return false;
    return true;
}

bool take_back(const Guarded *buffer, void *bytes)
{
    if (buffer->size > 0)
        memcpy(bytes, buffer->lent, buffer->size);
    return all_marks(buffer->lent - before(buffer), before(buffer)) && all_marks(buffer->lent + buffer->size, behind(buffer));
}
