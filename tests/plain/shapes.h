/* What the library's functions are lent, in their order (include/exporter.h), and the types of these functions: each side of a comparison declares and defines
   its own by them. */
#ifndef SHAPES_H
#define SHAPES_H

#include <stddef.h>
#include <stdint.h>

#define FILE_LENT const uint8_t *file, size_t file_len, uint8_t *out, size_t out_len, uint64_t *result, size_t result_len
#define JOIN_LENT const uint8_t *prologue, size_t prologue_len, FILE_LENT
#define TRIM_LENT const uint8_t *file, size_t file_len, uint8_t *out, size_t out_len, uint8_t *list, size_t list_len, uint64_t *result, size_t result_len
#define RUN_LENT const uint8_t *file, size_t file_len, uint64_t budget, uint64_t owner, uint64_t *globals, size_t globals_len, uint64_t *stack, \
    size_t stack_len, uint64_t *store, size_t store_len, uint64_t *frames, size_t frames_len, uint64_t *result, size_t result_len
#define PULL_LENT const int32_t *clips, size_t clips_len, const uint8_t *file, size_t file_len, uint64_t budget, uint8_t *list, size_t list_len, \
    uint64_t *result, size_t result_len

/* The same, to be passed on. */
#define FILE_GIVEN file, file_len, out, out_len, result, result_len
#define JOIN_GIVEN prologue, prologue_len, FILE_GIVEN
#define TRIM_GIVEN file, file_len, out, out_len, list, list_len, result, result_len
#define RUN_GIVEN file, file_len, budget, owner, globals, globals_len, stack, stack_len, store, store_len, frames, frames_len, result, result_len
#define PULL_GIVEN clips, clips_len, file, file_len, budget, list, list_len, result, result_len

typedef void Convert(FILE_LENT); /* from one file to another */
typedef void Join(JOIN_LENT);
typedef void Trim(TRIM_LENT);
typedef void Run(RUN_LENT);
typedef void Pull(PULL_LENT);

#endif
