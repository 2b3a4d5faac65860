/*
 * fsw_memory.h: what the library asks of the program that links it: memory. One of heap.c and
 * arena.c is linked, or the program's own three functions.
 */
#ifndef FSW_MEMORY_H
#define FSW_MEMORY_H

#include <stdbool.h>
#include <stddef.h>
#include <stdint.h>

/*
 * Whether there is memory, and where. Where there is none, `at` isn't null, and nothing may be read
 * or written there.
 */
struct rattle_tried {
    bool ok;
    uint8_t *at;
};

/*
 * Memory of so many bytes, at a multiple of 16, whatever `align` asks, which divides 16: messages
 * and tables are cut from memory of single bytes, and are to lie at multiples of 8.
 */
struct rattle_tried rattle_alloc(size_t bytes, size_t align);

/*
 * Makes the block one of `bytes` bytes, whose first `kept` bytes are as they were. It may move. If
 * there is no memory for it, it is as it was.
 */
struct rattle_tried rattle_realloc(uint8_t *at, size_t kept, size_t bytes, size_t align);

/* Takes back what either of the two gave. */
void rattle_dealloc(uint8_t *at);

#endif
