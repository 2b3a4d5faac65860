/*
 * tbl_memory.c: the layer's memory of a table, for its image and its owner's copy: cut from what
 * fsw_configure gave, the first gap that is large enough, or malloc's.
 */
#include "layer_tbl.h"

#include <stdlib.h>
#include <string.h>

enum { UNIT = 16 };

static size_t rounded(size_t bytes)
{
    return (bytes + UNIT - 1) / UNIT * UNIT;
}

/* Cuts memory from that of the configuration; null if no gap is large enough. */
static uint8_t *cut_memory(struct table *table, size_t bytes)
{
    uint8_t *memory = fsw_layer.config.table_memory;
    size_t begin = (UNIT - (uintptr_t)memory % UNIT) % UNIT;
    size_t size = fsw_layer.config.table_memory_size;
    struct table **next = &fsw_layer.first_table;
    while (*next && (size_t)((*next)->memory - memory) - begin < bytes) {
        begin = (size_t)((*next)->memory - memory) + (*next)->memory_size;
        next = &(*next)->next;
    }
    if (begin > size || size - begin < bytes)
        return NULL;
    table->next = *next;
    *next = table;
    return memory + begin;
}

bool fsw_take_table_memory(struct table *table)
{
    size_t part = rounded(table->info.Size);
    size_t bytes = table->info.DumpOnly ? part : 2 * part;
    table->memory = fsw_layer.config.table_memory ? cut_memory(table, bytes) : malloc(bytes);
    if (!table->memory)
        return false;
    memset(table->memory, 0, bytes);
    table->memory_size = bytes;
    table->copy = table->memory;
    table->image = table->info.DumpOnly ? NULL : table->memory + part;
    return true;
}

void fsw_give_table_memory(struct table *table)
{
    struct table **next = &fsw_layer.first_table;
    if (!fsw_layer.config.table_memory) {
        free(table->memory);
        return;
    }
    while (*next && *next != table)
        next = &(*next)->next;
    if (*next)
        *next = table->next;
}
