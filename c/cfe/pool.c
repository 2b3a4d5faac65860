/*
 * pool.c: memory pools in cFE's names, over the caller's memory. The core keeps the account of a
 * pool: which grant has which block, and where. In the 16 bytes before a block stands its grant.
 * The core deletes no pool; the layer leaves one to a later pool of its size, when all is back.
 */
#include "layer.h"

#include <string.h>

/* What stands before a block that is out. */
struct block {
    uint64_t grant;
    uint32_t size;  /* the size that was asked for */
    uint32_t check; /* of both, in case something wrote past the block before */
};

enum { OVERHEAD = sizeof(struct block), LARGEST_BLOCK = 80000 };
_Static_assert(sizeof(struct block) == 16, "the bytes that the core leaves before a block");

static uint32_t check_of(const struct block *block)
{
    uint64_t mix = block->grant * 0x9e3779b97f4a7c15u ^ block->size;
    return (uint32_t)(mix ^ mix >> 32);
}

/* ---- Pools ---- */

/* A pool's number in the core is its place from 1. */
static uint32_t number_of(const struct pool *pool)
{
    return (uint32_t)(pool - fsw_layer.pool) + 1;
}

/* The pool of a handle; null if there is none now. */
static struct pool *pool_of(CFE_ES_MemHandle_t handle)
{
    struct pool *pool = &fsw_layer.pool[(handle - 1) % MOST_POOLS];
    return handle > 0 && pool->at && pool->handle == handle ? pool : NULL;
}

/* What was never cut of a pool. */
static uint32_t uncut_of(const struct pool *pool)
{
    struct fsw_pool_stats stats = {0, 0, 0, 0};
    fsw_pool_stats(&fsw_layer.core, number_of(pool), &stats);
    return stats.free;
}

/* Whether all blocks of a pool are back. */
static bool is_whole(const struct pool *pool)
{
    struct fsw_class_stats stats;
    for (uint32_t i = 0; i < BLOCK_SIZES; i++)
        if (fsw_pool_class(&fsw_layer.core, number_of(pool), i, &stats) == FSW_SUCCESS &&
            stats.free < stats.made)
            return false;
    return true;
}

/* A pool of this size that was deleted, and has all its blocks back; or null. */
static struct pool *left_pool(uint32_t size)
{
    for (size_t i = 0; i < MOST_POOLS; i++) {
        struct pool *pool = &fsw_layer.pool[i];
        if (!pool->at && pool->size == size && is_whole(pool))
            return pool;
    }
    return NULL;
}

/* Begins to count anew, and clears what was cut: a block's grant stands there from its next get. */
static void renew(struct pool *pool, void *memory)
{
    struct fsw_pool_stats stats = {0, 0, 0, 0};
    fsw_pool_stats(&fsw_layer.core, number_of(pool), &stats);
    pool->requests_before = stats.requests;
    pool->errors_before = stats.errors;
    pool->handle += MOST_POOLS;
    memset(memory, 0, pool->size - stats.free);
}

/* A pool of the core for this size: one that is left, or a new one. Null if there is none. */
static struct pool *place_pool(const struct app *app, void *memory, uint32_t size)
{
    struct pool *pool = left_pool(size);
    uint32_t number = 0;
    if (pool) {
        renew(pool, memory);
        return pool;
    }
    if (fsw_pool_create(&fsw_layer.core, app->number, size, &number) != FSW_SUCCESS)
        return NULL;
    pool = &fsw_layer.pool[number - 1];
    *pool = (struct pool){.handle = number, .size = size};
    return pool;
}

/* ---- Block sizes ---- */

/* What is asked for when a pool is made; null sizes: the first `count` of the usual ones. */
struct wanted {
    const size_t *sizes;
    size_t count;
};

/* Whether a block size of the core is one of the wanted, which are rounded up to the core's. */
static bool is_wanted(struct wanted wanted, uint32_t size, uint32_t next_smaller)
{
    for (size_t i = 0; i < wanted.count; i++)
        if (next_smaller < wanted.sizes[i] && wanted.sizes[i] <= size)
            return true;
    return false;
}

/* Notes the block sizes of a pool, the largest first, as cFE has them. */
static void note_sizes(struct pool *pool, struct wanted wanted)
{
    struct fsw_class_stats stats, smaller;
    pool->sizes = 0;
    for (uint32_t i = BLOCK_SIZES; i > 0; i--) {
        if (fsw_pool_class(&fsw_layer.core, number_of(pool), i - 1, &stats) != FSW_SUCCESS)
            continue;
        bool has_smaller = i > 1 && fsw_pool_class(&fsw_layer.core, number_of(pool), i - 2,
                                                   &smaller) == FSW_SUCCESS;
        bool is_one = wanted.sizes ? is_wanted(wanted, stats.size, has_smaller ? smaller.size : 0)
                                   : pool->sizes < wanted.count;
        if (is_one)
            pool->size_of[pool->sizes++] = (struct pool_size){stats.size, i - 1};
    }
}

/* The smallest block size of a pool that is large enough; 0 if there is none. */
static uint32_t size_for(const struct pool *pool, size_t size)
{
    for (uint32_t i = pool->sizes; i > 0; i--)
        if (size <= pool->size_of[i - 1].size)
            return pool->size_of[i - 1].size;
    return 0;
}

/* The smallest of the sizes that a pool is to have; 0 if one is none. */
static size_t least_of(struct wanted wanted)
{
    size_t least = fsw_least_block(&fsw_layer.limits);
    if (!wanted.sizes)
        return least;
    least = LARGEST_BLOCK;
    for (size_t i = 0; i < wanted.count; i++) {
        if (wanted.sizes[i] == 0 || wanted.sizes[i] > LARGEST_BLOCK)
            return 0;
        if (wanted.sizes[i] < least)
            least = wanted.sizes[i];
    }
    return least;
}

/* ---- Creation and deletion ---- */

static CFE_Status_t create_pool(const struct app *app, CFE_ES_MemHandle_t *handle, void *memory,
                                size_t size, struct wanted wanted)
{
    size_t least = least_of(wanted), least_of_core = fsw_least_block(&fsw_layer.limits);
    if (least == 0 || size < least + OVERHEAD || size < least_of_core + OVERHEAD ||
        size > fsw_layer.limits.apppool)
        return CFE_ES_BAD_ARGUMENT;
    struct pool *pool = place_pool(app, memory, (uint32_t)size);
    if (!pool)
        return CFE_ES_NO_RESOURCE_IDS_AVAILABLE;
    pool->at = memory;
    pool->creator = app;
    note_sizes(pool, wanted);
    *handle = pool->handle;
    return CFE_SUCCESS;
}

CFE_Status_t CFE_ES_PoolCreateEx(CFE_ES_MemHandle_t *PoolID, void *MemPtr, size_t Size,
                                 uint16 NumBlockSizes, const size_t *BlockSizes, bool UseMutex)
{
    struct wanted wanted = {BlockSizes, NumBlockSizes};
    (void)UseMutex;
    if (!PoolID || !MemPtr || (uintptr_t)MemPtr % 8 != 0 || NumBlockSizes > BLOCK_SIZES ||
        (BlockSizes && NumBlockSizes == 0))
        return CFE_ES_BAD_ARGUMENT;
    *PoolID = CFE_ES_MEMHANDLE_UNDEFINED;
    if (NumBlockSizes == 0)
        wanted.count = BLOCK_SIZES;
    const struct app *app = fsw_enter();
    if (!app)
        return CFE_ES_ERR_RESOURCEID_NOT_VALID;
    CFE_Status_t status = create_pool(app, PoolID, MemPtr, Size, wanted);
    fsw_leave();
    if (status == CFE_ES_NO_RESOURCE_IDS_AVAILABLE)
        CFE_ES_WriteToSysLog("PoolCreate: no pool is left, and no deleted one of %lu bytes is back",
                             (unsigned long)Size);
    return status;
}

CFE_Status_t CFE_ES_PoolCreate(CFE_ES_MemHandle_t *PoolID, void *MemPtr, size_t Size)
{
    return CFE_ES_PoolCreateEx(PoolID, MemPtr, Size, 0, NULL, CFE_ES_USE_MUTEX);
}

CFE_Status_t CFE_ES_PoolCreateNoSem(CFE_ES_MemHandle_t *PoolID, void *MemPtr, size_t Size)
{
    return CFE_ES_PoolCreateEx(PoolID, MemPtr, Size, 0, NULL, CFE_ES_NO_MUTEX);
}

CFE_Status_t CFE_ES_PoolDelete(CFE_ES_MemHandle_t PoolID)
{
    if (!fsw_enter())
        return CFE_ES_ERR_RESOURCEID_NOT_VALID;
    struct pool *pool = pool_of(PoolID);
    if (pool)
        pool->at = NULL;
    fsw_leave();
    return pool ? CFE_SUCCESS : CFE_ES_ERR_RESOURCEID_NOT_VALID;
}

void fsw_retire_pools(const struct app *app)
{
    for (size_t i = 0; i < MOST_POOLS; i++)
        if (fsw_layer.pool[i].creator == app)
            fsw_layer.pool[i].at = NULL;
}

/* ---- Blocks ---- */

static uint32_t get_block(const struct app *app, const struct pool *pool, size_t size,
                          struct block **block)
{
    uint64_t grant = 0;
    struct fsw_pool_block place;
    uint32_t number = number_of(pool), whole = size_for(pool, size);
    if (whole == 0)
        return FSW_ES_ERR_MEM_BLOCK_SIZE;
    uint32_t status = fsw_pool_get(&fsw_layer.core, app->number, number, whole, &grant);
    if (status != FSW_SUCCESS)
        return status;
    fsw_must(fsw_pool_block(&fsw_layer.core, number, grant, &place) != FSW_SUCCESS);
    *block = (struct block *)(void *)(pool->at + place.offset - OVERHEAD);
    (*block)->grant = grant;
    (*block)->size = (uint32_t)size;
    (*block)->check = check_of(*block);
    return status;
}

int32 CFE_ES_GetPoolBuf(CFE_ES_MemPoolBuf_t *BufPtr, CFE_ES_MemHandle_t PoolID, size_t Size)
{
    struct block *block = NULL;
    uint32_t status = FSW_ES_NO_SUCH_POOL;
    if (!BufPtr)
        return CFE_ES_BAD_ARGUMENT;
    *BufPtr = NULL;
    struct app *app = fsw_enter();
    if (!app)
        return CFE_ES_ERR_RESOURCEID_NOT_VALID;
    const struct pool *pool = pool_of(PoolID);
    if (pool)
        status = get_block(app, pool, Size, &block);
    fsw_leave();
    if (!block)
        return fsw_status(status, CFE_ES_BAD_ARGUMENT);
    *BufPtr = block + 1;
    return (int32)Size;
}

/* The block that begins there, if it is out: the core knows its grant, and that it lies there. */
static CFE_Status_t find_block(const struct pool *pool, const void *at, struct block **block)
{
    struct fsw_pool_block place;
    if (!pool)
        return CFE_ES_ERR_RESOURCEID_NOT_VALID;
    uintptr_t first = (uintptr_t)pool->at + OVERHEAD, here = (uintptr_t)at;
    uintptr_t end = (uintptr_t)pool->at + pool->size - uncut_of(pool);
    if (here < first || here >= end)
        return CFE_ES_BUFFER_NOT_IN_POOL;
    if (here % 8 != 0)
        return CFE_ES_POOL_BLOCK_INVALID;
    *block = (struct block *)(void *)(pool->at + (here - first));
    bool is_out =
        (*block)->check == check_of(*block) &&
        fsw_pool_block(&fsw_layer.core, number_of(pool), (*block)->grant, &place) == FSW_SUCCESS &&
        place.offset == here - (uintptr_t)pool->at;
    return is_out ? CFE_SUCCESS : CFE_ES_POOL_BLOCK_INVALID;
}

int32 CFE_ES_GetPoolBufInfo(CFE_ES_MemHandle_t PoolID, CFE_ES_MemPoolBuf_t BufPtr)
{
    struct block *block;
    if (!fsw_enter())
        return CFE_ES_ERR_RESOURCEID_NOT_VALID;
    CFE_Status_t status = find_block(pool_of(PoolID), BufPtr, &block);
    int32 answer = status == CFE_SUCCESS ? (int32)block->size : status;
    fsw_leave();
    return answer;
}

static int32 put_block(const struct app *app, const struct pool *pool, const void *at)
{
    struct block *block;
    CFE_Status_t status = find_block(pool, at, &block);
    if (status != CFE_SUCCESS) {
        /* The core counts the refusal: no grant has the number 0. */
        if (pool)
            fsw_pool_put(&fsw_layer.core, app->number, number_of(pool), 0);
        return status;
    }
    int32 size = (int32)block->size;
    status = fsw_status(fsw_pool_put(&fsw_layer.core, app->number, number_of(pool), block->grant),
                        CFE_ES_BAD_ARGUMENT);
    return status == CFE_SUCCESS ? size : status;
}

int32 CFE_ES_PutPoolBuf(CFE_ES_MemHandle_t PoolID, CFE_ES_MemPoolBuf_t BufPtr)
{
    struct app *app = fsw_enter();
    if (!app)
        return CFE_ES_ERR_RESOURCEID_NOT_VALID;
    int32 answer = put_block(app, pool_of(PoolID), BufPtr);
    fsw_leave();
    return answer;
}

/* ---- Statistics ---- */

static void write_stats(const struct pool *pool, CFE_ES_MemPoolStats_t *written)
{
    struct fsw_pool_stats stats = {0, 0, 0, 0};
    struct fsw_class_stats size;
    fsw_pool_stats(&fsw_layer.core, number_of(pool), &stats);
    *written = (CFE_ES_MemPoolStats_t){.PoolSize = stats.size,
                                       .NumBlocksRequested = stats.requests - pool->requests_before,
                                       .CheckErrCtr = stats.errors - pool->errors_before,
                                       .NumFreeBytes = stats.free};
    for (uint32_t i = 0; i < pool->sizes; i++)
        if (fsw_pool_class(&fsw_layer.core, number_of(pool), pool->size_of[i].place, &size) ==
            FSW_SUCCESS)
            written->BlockStats[i] = (CFE_ES_BlockStats_t){size.size, size.made, size.free};
}

CFE_Status_t CFE_ES_GetMemPoolStats(CFE_ES_MemPoolStats_t *BufPtr, CFE_ES_MemHandle_t PoolID)
{
    if (!BufPtr)
        return CFE_ES_BAD_ARGUMENT;
    if (!fsw_enter())
        return CFE_ES_ERR_RESOURCEID_NOT_VALID;
    const struct pool *pool = pool_of(PoolID);
    if (pool)
        write_stats(pool, BufPtr);
    fsw_leave();
    return pool ? CFE_SUCCESS : CFE_ES_ERR_RESOURCEID_NOT_VALID;
}
