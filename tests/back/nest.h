#include <stdint.h>
#include <string.h>

/* An open conditional of `size` bytes whose first arm holds the next, and so on for `levels` levels; the innermost arm is push all over. */
static void nest(uint8_t *code, size_t size, unsigned levels)
{
    size_t first = size - 7;
    memcpy(code, (uint8_t[]){ 3, (uint8_t)((first + 3) / 256), (uint8_t)((first + 3) % 256) }, 3);
    memset(code + 3, 12, first);
    memcpy(code + 3 + first, (uint8_t[]){ 5, 0, 1, 12 }, 4);
    if (levels > 1)
        nest(code + 3, first, levels - 1);
}
