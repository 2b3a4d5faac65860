/*
 * arena.c: the library's memory from one static block, of FSW_ARENA_BYTES bytes, without malloc.
 * Set it to fsw_bytes_needed(limits) and some reserve.
 *
 * A core takes its memory once and gives it back once, at fsw_close. So blocks are cut one behind
 * the other, and the last one that is given back is cut anew; when no block is out, the arena is
 * whole again. It is called as the library is, by one thread at a time.
 */
#include "fsw_memory.h"

#include <string.h>

#ifndef FSW_ARENA_BYTES
#define FSW_ARENA_BYTES (64u * 1024u * 1024u)
#endif

enum { ALIGN = 16 };

static _Alignas(ALIGN) uint8_t arena[FSW_ARENA_BYTES];
static size_t cut;  /* the bytes that are cut */
static size_t last; /* where the last block begins */
static size_t out;  /* how many blocks are out */

static struct rattle_tried refused(void)
{
    return (struct rattle_tried){false, arena};
}

/* A whole number of units of 16 bytes, at least one. */
static size_t rounded(size_t bytes)
{
    return bytes ? (bytes + ALIGN - 1) / ALIGN * ALIGN : ALIGN;
}

struct rattle_tried rattle_alloc(size_t bytes, size_t align)
{
    (void)align;
    if (bytes > sizeof arena || rounded(bytes) > sizeof arena - cut)
        return refused();
    last = cut;
    cut += rounded(bytes);
    out++;
    return (struct rattle_tried){true, arena + last};
}

struct rattle_tried rattle_realloc(uint8_t *at, size_t kept, size_t bytes, size_t align)
{
    if (out > 0 && at == arena + last) {
        if (bytes > sizeof arena || rounded(bytes) > sizeof arena - last)
            return refused();
        cut = last + rounded(bytes);
        return (struct rattle_tried){true, at};
    }
    struct rattle_tried moved = rattle_alloc(bytes, align);
    if (moved.ok) {
        memcpy(moved.at, at, kept < bytes ? kept : bytes);
        out--;
    }
    return moved;
}

void rattle_dealloc(uint8_t *at)
{
    out--;
    if (at == arena + last)
        cut = last;
    if (out == 0)
        cut = last = 0;
}
