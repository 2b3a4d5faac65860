/* heap.c: the library's memory from malloc. */
#include "fsw_memory.h"

#include <stdlib.h>

static uint8_t nothing;

static struct rattle_tried tried(void *at)
{
    return at ? (struct rattle_tried){true, at} : (struct rattle_tried){false, &nothing};
}

/* malloc may answer null for no bytes, which would look like a failure. */
static size_t some(size_t bytes, size_t align)
{
    return bytes ? bytes : align;
}

struct rattle_tried rattle_alloc(size_t bytes, size_t align)
{
    return tried(malloc(some(bytes, align)));
}

struct rattle_tried rattle_realloc(uint8_t *at, size_t kept, size_t bytes, size_t align)
{
    (void)kept;
    return tried(realloc(at, some(bytes, align)));
}

void rattle_dealloc(uint8_t *at)
{
    free(at);
}
