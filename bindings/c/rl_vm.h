/* The machine for C. Link with librl_vm.a, which `tests/archive` makes of the proved crate rl_vm_c and writes to target/staticlib/.
 *
 * A slice is a pointer and a count of elements. Each pointer is not null and aligned for its elements, also where the count is
 * 0; it points to as many elements as the count says, which the caller may read, and write where the pointer is not const; and no slice or out
 * number overlaps another. That is all that a caller owes: any image, any lengths and any earlier content of the slices are answered for. */
#ifndef RL_VM_H
#define RL_VM_H

#include <stddef.h>
#include <stdint.h>

#ifdef __cplusplus
extern "C" {
#endif

/* The most bytes of an image, and the lengths of the work slices. A shorter slice is refused with 9; longer ones are fine. */
enum {
    RL_VM_IMAGE_MOST = 65536,
    RL_VM_BYTES = 32768,
    RL_VM_ENDS = 256,
    RL_VM_KINDS = 13107,
    RL_VM_PAYLOADS = 13107,
    RL_VM_TABLE = 260,
    RL_VM_HEIGHTS = 4096,
    RL_VM_DEPTHS = 4096,
    RL_VM_TODO = 4096,
    RL_VM_TEXTS = 257,
    RL_VM_CLASSES = 65,
    RL_VM_STACK = 512,
    RL_VM_LOCALS = 2048,
    RL_VM_STARTS = 256,
    RL_VM_GLOBALS = 512,
    RL_VM_CELLS = 8192,
    RL_VM_MEMO = 4096
};

/* Loads the image and judges it by the stack check. Returns
 *   0         a pass: whatever its budget, a run of this image costs no caller anything, and stops with none of 30, 31, 32, 33, 36;
 *   1 to 7, 9 a refusal of load, with *line (0 for 1, 6, 7, 9);
 *   10 to 13  a fault of the stack check, with *chunk and *offset.
 * The numbers are document 01's (docs/OPERATIONS.md). All three out numbers are written, with 0 where they do not apply. All work slices are zero
 * to their ends afterwards, on every answer. */
size_t rl_vm_check(const uint8_t *image, size_t image_len,
                   uint8_t *bytes, size_t bytes_len,
                   size_t *ends, size_t ends_len,
                   uint8_t *kinds, size_t kinds_len,
                   uint64_t *payloads, size_t payloads_len,
                   size_t *table, size_t table_len,
                   size_t *heights, size_t heights_len,
                   size_t *depths, size_t depths_len,
                   size_t *todo, size_t todo_len,
                   size_t *line, size_t *chunk, size_t *offset);

/* Loads the image and runs it, at most `budget` instructions. Returns
 *   0         a value: its coding is the first *length bytes of result, and *count instructions were begun;
 *   1 to 7, 9 a refusal of load, with *line (0 for 1, 6, 7, 9);
 *   30 to 47  a stop, with *count, and *chunk and *offset of the instruction (0, 0 for 47: the coded value is longer than result).
 * The numbers are document 01's (docs/OPERATIONS.md). All five out numbers are written, with 0 where they do not apply. Only a value writes result,
 * and there only its first bytes. All work slices are zero to their ends afterwards, on every answer. */
size_t rl_vm_run(const uint8_t *image, size_t image_len,
                 size_t budget,
                 uint8_t *result, size_t result_len,
                 uint8_t *bytes, size_t bytes_len,
                 size_t *ends, size_t ends_len,
                 uint8_t *kinds, size_t kinds_len,
                 uint64_t *payloads, size_t payloads_len,
                 size_t *table, size_t table_len,
                 uint64_t *texts, size_t texts_len,
                 uint64_t *classes, size_t classes_len,
                 uint64_t *stack, size_t stack_len,
                 uint64_t *locals, size_t locals_len,
                 size_t *starts, size_t starts_len,
                 uint64_t *globals, size_t globals_len,
                 uint64_t *cells, size_t cells_len,
                 uint16_t *memo, size_t memo_len,
                 size_t *count, size_t *length, size_t *line, size_t *chunk, size_t *offset);

#ifdef __cplusplus
}
#endif

#endif
