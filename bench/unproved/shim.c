/* The library's functions under their C names, where the module has them with each slice behind a pointer. */
#include "../../include/exporter.h"

typedef struct {
    const void *first;
    size_t length;
} Slice;

void unproved_flatten(Slice *file, Slice *out, Slice *result);
void unproved_run_tree(Slice *file, uint64_t budget, uint64_t owner, Slice *globals, Slice *stack, Slice *store, Slice *frames, Slice *result);
void unproved_run_linear(Slice *file, uint64_t budget, uint64_t owner, Slice *globals, Slice *stack, Slice *store, Slice *frames, Slice *result);
void unproved_pull_list(Slice *clips, Slice *file, uint64_t budget, Slice *list, Slice *result);
void unproved_join(Slice *prologue, Slice *file, Slice *out, Slice *result);

void exporter_flatten(const uint8_t *file, size_t file_len, uint8_t *out, size_t out_len, uint64_t *result, size_t result_len)
{
    unproved_flatten(&(Slice){ file, file_len }, &(Slice){ out, out_len }, &(Slice){ result, result_len });
}

void exporter_run_tree(const uint8_t *file, size_t file_len, uint64_t budget, uint64_t owner, uint64_t *globals, size_t globals_len,
                       uint64_t *stack, size_t stack_len, uint64_t *store, size_t store_len,
                       uint64_t *frames, size_t frames_len, uint64_t *result, size_t result_len)
{
    unproved_run_tree(&(Slice){ file, file_len }, budget, owner, &(Slice){ globals, globals_len }, &(Slice){ stack, stack_len },
                      &(Slice){ store, store_len }, &(Slice){ frames, frames_len }, &(Slice){ result, result_len });
}

void exporter_run_linear(const uint8_t *file, size_t file_len, uint64_t budget, uint64_t owner, uint64_t *globals, size_t globals_len,
                         uint64_t *stack, size_t stack_len, uint64_t *store, size_t store_len,
                         uint64_t *frames, size_t frames_len, uint64_t *result, size_t result_len)
{
    unproved_run_linear(&(Slice){ file, file_len }, budget, owner, &(Slice){ globals, globals_len }, &(Slice){ stack, stack_len },
                        &(Slice){ store, store_len }, &(Slice){ frames, frames_len }, &(Slice){ result, result_len });
}

void exporter_pull_list(const int32_t *clips, size_t clips_len, const uint8_t *file, size_t file_len, uint64_t budget,
                        uint8_t *list, size_t list_len, uint64_t *result, size_t result_len)
{
    unproved_pull_list(&(Slice){ clips, clips_len }, &(Slice){ file, file_len }, budget, &(Slice){ list, list_len }, &(Slice){ result, result_len });
}

void exporter_join(const uint8_t *prologue, size_t prologue_len, const uint8_t *file, size_t file_len, uint8_t *out, size_t out_len,
                   uint64_t *result, size_t result_len)
{
    unproved_join(&(Slice){ prologue, prologue_len }, &(Slice){ file, file_len }, &(Slice){ out, out_len }, &(Slice){ result, result_len });
}
