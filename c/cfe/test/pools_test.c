/* pools_test.c: every call of memory pools with its refusals, by applications of one run each. */
#include "run_apps.h"

enum { POOL = 4096, POOLS = 8, SIZES = CFE_MISSION_ES_POOL_MAX_BUCKETS, LARGE = 1048576 };

static CFE_ES_STATIC_POOL_TYPE(POOL) memory, other;
static CFE_ES_STATIC_POOL_TYPE(LARGE) large;

static CFE_ES_MemHandle_t pool_of(void *at, size_t size)
{
    CFE_ES_MemHandle_t pool;
    CHECK_STATUS(CFE_ES_PoolCreate(&pool, at, size), CFE_SUCCESS);
    return pool;
}

static void *block_of(CFE_ES_MemHandle_t pool, size_t size)
{
    CFE_ES_MemPoolBuf_t block;
    CHECK(CFE_ES_GetPoolBuf(&block, pool, size) == (int32)size);
    return block;
}

static CFE_ES_MemPoolStats_t stats_of(CFE_ES_MemHandle_t pool)
{
    CFE_ES_MemPoolStats_t stats;
    CHECK_STATUS(CFE_ES_GetMemPoolStats(&stats, pool), CFE_SUCCESS);
    return stats;
}

/* The figures of a block size; none of a size that the pool hasn't. */
static CFE_ES_BlockStats_t figures_of(CFE_ES_MemHandle_t pool, size_t size)
{
    CFE_ES_MemPoolStats_t stats = stats_of(pool);
    for (int i = 0; i < SIZES; i++)
        if (stats.BlockStats[i].BlockSize == size)
            return stats.BlockStats[i];
    return (CFE_ES_BlockStats_t){0, 0, 0};
}

static void check_creations(void)
{
    CFE_ES_MemHandle_t pool = 7;
    size_t sizes[SIZES + 1] = {64, 0};
    CHECK_STATUS(CFE_ES_PoolCreate(NULL, memory.Data, POOL), CFE_ES_BAD_ARGUMENT);
    CHECK_STATUS(CFE_ES_PoolCreate(&pool, NULL, POOL), CFE_ES_BAD_ARGUMENT);
    CHECK_STATUS(CFE_ES_PoolCreate(&pool, memory.Data + 1, 4000), CFE_ES_BAD_ARGUMENT);
    CHECK_STATUS(CFE_ES_PoolCreate(&pool, memory.Data, 23), CFE_ES_BAD_ARGUMENT);
    CHECK_STATUS(CFE_ES_PoolCreate(&pool, memory.Data, 65537), CFE_ES_BAD_ARGUMENT);
    CHECK_STATUS(CFE_ES_PoolCreate(&pool, memory.Data, SIZE_MAX), CFE_ES_BAD_ARGUMENT);
    CHECK(pool == CFE_ES_MEMHANDLE_UNDEFINED);
    CHECK_STATUS(CFE_ES_PoolCreateEx(&pool, memory.Data, POOL, SIZES + 1, sizes, true),
                 CFE_ES_BAD_ARGUMENT);
    CHECK_STATUS(CFE_ES_PoolCreateEx(&pool, memory.Data, POOL, 2, sizes, true),
                 CFE_ES_BAD_ARGUMENT);
    CHECK_STATUS(CFE_ES_PoolCreateEx(&pool, memory.Data, POOL, 0, sizes, true),
                 CFE_ES_BAD_ARGUMENT);
    CHECK_STATUS(CFE_ES_PoolCreateEx(&pool, memory.Data, 79, 1, sizes, true), CFE_ES_BAD_ARGUMENT);
    sizes[0] = 80001;
    CHECK_STATUS(CFE_ES_PoolCreateEx(&pool, memory.Data, POOL, 1, sizes, true),
                 CFE_ES_BAD_ARGUMENT);
    CHECK_STATUS(CFE_ES_PoolDelete(1), CFE_ES_ERR_RESOURCEID_NOT_VALID);
    CHECK_STATUS(CFE_ES_PoolDelete(CFE_ES_MEMHANDLE_UNDEFINED), CFE_ES_ERR_RESOURCEID_NOT_VALID);
}

static void check_blocks(CFE_ES_MemHandle_t pool)
{
    CFE_ES_MemPoolBuf_t third;
    CFE_ES_MemPoolStats_t stats;
    uint8 *first = block_of(pool, 20), *second = block_of(pool, 500);
    CHECK(first >= memory.Data && second + 512 <= memory.Data + POOL);
    CHECK((uintptr_t)first % 8 == 0 && second >= first + 32);
    memset(first, 0xff, 32);
    memset(second, 0xff, 512);
    CHECK(CFE_ES_GetPoolBufInfo(pool, first) == 20 && CFE_ES_GetPoolBufInfo(pool, second) == 500);
    CHECK_STATUS(CFE_ES_GetPoolBuf(&third, pool, POOL), CFE_ES_ERR_MEM_BLOCK_SIZE);
    CHECK(!third);
    CHECK_STATUS(CFE_ES_GetPoolBuf(&third, pool, SIZE_MAX), CFE_ES_ERR_MEM_BLOCK_SIZE);
    CHECK_STATUS(CFE_ES_GetPoolBuf(&third, 9, 8), CFE_ES_ERR_RESOURCEID_NOT_VALID);
    CHECK_STATUS(CFE_ES_GetPoolBuf(&third, 0, 8), CFE_ES_ERR_RESOURCEID_NOT_VALID);
    CHECK_STATUS(CFE_ES_GetPoolBuf(NULL, pool, 8), CFE_ES_BAD_ARGUMENT);
    CHECK_STATUS(CFE_ES_PutPoolBuf(pool, &stats), CFE_ES_BUFFER_NOT_IN_POOL);
    CHECK_STATUS(CFE_ES_PutPoolBuf(pool, memory.Data + 4095), CFE_ES_BUFFER_NOT_IN_POOL);
    CHECK_STATUS(CFE_ES_PutPoolBuf(pool, second + 8), CFE_ES_POOL_BLOCK_INVALID);
    CHECK_STATUS(CFE_ES_PutPoolBuf(9, first), CFE_ES_ERR_RESOURCEID_NOT_VALID);
    CHECK(CFE_ES_PutPoolBuf(pool, first) == 20);
    CHECK_STATUS(CFE_ES_PutPoolBuf(pool, first), CFE_ES_POOL_BLOCK_INVALID);
    CHECK_STATUS(CFE_ES_GetPoolBufInfo(pool, first), CFE_ES_POOL_BLOCK_INVALID);
    CHECK(block_of(pool, 32) == first);
    stats = stats_of(pool);
    CHECK(stats.PoolSize == POOL && stats.NumBlocksRequested == 3 && stats.CheckErrCtr == 4);
    CHECK(stats.NumFreeBytes == POOL - 48 - 528);
    /* As cFE's, the largest first. */
    CHECK(stats.BlockStats[0].BlockSize == 80000 && stats.BlockStats[16].BlockSize == 8);
    CHECK(stats.BlockStats[14].BlockSize == 32 && stats.BlockStats[14].NumCreated == 1);
    CHECK(stats.BlockStats[14].NumFree == 0 && stats.BlockStats[7].NumCreated == 1);
    CHECK_STATUS(CFE_ES_GetMemPoolStats(NULL, pool), CFE_ES_BAD_ARGUMENT);
    CHECK_STATUS(CFE_ES_GetMemPoolStats(&stats, 9), CFE_ES_ERR_RESOURCEID_NOT_VALID);
    CHECK(CFE_ES_PutPoolBuf(pool, second) == 500);
}

/* What is written past a block is noticed by the next one's return, and spoils no free block. */
static void check_overwritten(CFE_ES_MemHandle_t pool)
{
    uint8 *block = block_of(pool, 500);
    CHECK(CFE_ES_PutPoolBuf(pool, block) == 500);
    memset(block - 16, 0xff, 16);
    CHECK_STATUS(CFE_ES_PutPoolBuf(pool, block), CFE_ES_POOL_BLOCK_INVALID);
    CHECK(block_of(pool, 500) == block);
    for (int i = -16; i < 0; i++) {
        block[i] ^= 1;
        CHECK_STATUS(CFE_ES_PutPoolBuf(pool, block), CFE_ES_POOL_BLOCK_INVALID);
        CHECK_STATUS(CFE_ES_GetPoolBufInfo(pool, block), CFE_ES_POOL_BLOCK_INVALID);
        block[i] ^= 1;
    }
    CHECK(CFE_ES_PutPoolBuf(pool, block) == 500);
}

static void test_pools(void)
{
    check_creations();
    CFE_ES_MemHandle_t pool = pool_of(memory.Data, sizeof memory.Data);
    CHECK(pool == 1);
    check_blocks(pool);
    check_overwritten(pool);
    reach(1);
    /* The other application ended with four blocks, which are free again. */
    wait_for(2);
    while (figures_of(pool, 64).NumFree < 4)
        OS_TaskDelay(1);
    uint8 *again[4];
    for (int i = 0; i < 4; i++) {
        again[i] = block_of(pool, 64);
        memset(again[i], 0xaa, 64);
        for (int k = 0; k < i; k++)
            CHECK(again[i] != again[k]);
    }
    for (int i = 0; i < 4; i++)
        CHECK(CFE_ES_PutPoolBuf(pool, again[i]) == 64);
}

static void take_blocks(void)
{
    wait_for(1);
    for (int i = 0; i < 4; i++)
        block_of(1, 50);
    reach(2);
}

/* ---- Block sizes of a pool's own ---- */

static void test_sizes(void)
{
    static const size_t sizes[] = {500, 20, 30};
    CFE_ES_MemHandle_t pool, few;
    CFE_ES_MemPoolBuf_t block;
    CHECK_STATUS(CFE_ES_PoolCreateEx(&pool, memory.Data, POOL, 3, sizes, CFE_ES_NO_MUTEX),
                 CFE_SUCCESS);
    CFE_ES_MemPoolStats_t stats = stats_of(pool);
    CHECK(stats.BlockStats[0].BlockSize == 512 && stats.BlockStats[1].BlockSize == 32);
    CHECK(stats.BlockStats[2].BlockSize == 0);
    /* Each request takes one of the pool's sizes. */
    block_of(pool, 8);
    block_of(pool, 33);
    CHECK(figures_of(pool, 32).NumCreated == 1 && figures_of(pool, 512).NumCreated == 1);
    CHECK(stats_of(pool).NumFreeBytes == POOL - 48 - 528);
    CHECK_STATUS(CFE_ES_GetPoolBuf(&block, pool, 513), CFE_ES_ERR_MEM_BLOCK_SIZE);
    /* The first of the usual ones are the largest. */
    CHECK_STATUS(CFE_ES_PoolCreateEx(&few, other.Data, POOL, 6, NULL, CFE_ES_USE_MUTEX),
                 CFE_SUCCESS);
    CHECK(stats_of(few).BlockStats[5].BlockSize == 2048);
    CHECK(stats_of(few).BlockStats[6].BlockSize == 0);
    block_of(few, 1);
    CHECK(figures_of(few, 2048).NumCreated == 1);
}

/* ---- Deletion ---- */

/* The core's eight pools are used again, if all blocks are back and the size is the same. */
static void test_deletion(void)
{
    CFE_ES_MemHandle_t pools[POOLS], next;
    CFE_ES_MemPoolBuf_t block;
    for (int i = 0; i < POOLS; i++)
        pools[i] = pool_of(large.Data + 4096 * i, 4096);
    CHECK_STATUS(CFE_ES_PoolCreate(&next, memory.Data, POOL), CFE_ES_NO_RESOURCE_IDS_AVAILABLE);
    CHECK(next == CFE_ES_MEMHANDLE_UNDEFINED);
    void *held = block_of(pools[2], 100);
    CHECK_STATUS(CFE_ES_PutPoolBuf(pools[2], &block), CFE_ES_BUFFER_NOT_IN_POOL);
    CHECK_STATUS(CFE_ES_PoolDelete(pools[2]), CFE_SUCCESS);
    CHECK_STATUS(CFE_ES_PoolDelete(pools[2]), CFE_ES_ERR_RESOURCEID_NOT_VALID);
    CHECK_STATUS(CFE_ES_PutPoolBuf(pools[2], held), CFE_ES_ERR_RESOURCEID_NOT_VALID);
    CHECK_STATUS(CFE_ES_GetPoolBuf(&block, pools[2], 8), CFE_ES_ERR_RESOURCEID_NOT_VALID);
    CHECK_STATUS(CFE_ES_PoolCreate(&next, memory.Data, POOL), CFE_ES_NO_RESOURCE_IDS_AVAILABLE);
    held = block_of(pools[5], 100);
    CHECK(CFE_ES_PutPoolBuf(pools[5], held) == 100);
    CHECK_STATUS(CFE_ES_PoolDelete(pools[5]), CFE_SUCCESS);
    CHECK_STATUS(CFE_ES_PoolCreate(&next, memory.Data, 2048), CFE_ES_NO_RESOURCE_IDS_AVAILABLE);
    memset(&memory, 0xff, sizeof memory);
    next = pool_of(memory.Data, POOL);
    CHECK(next != pools[5]);
    CHECK_STATUS(CFE_ES_GetPoolBuf(&block, pools[5], 8), CFE_ES_ERR_RESOURCEID_NOT_VALID);
    CHECK(stats_of(next).NumBlocksRequested == 0 && stats_of(next).CheckErrCtr == 0);
    CHECK(figures_of(next, 128).NumFree == 1);
    CHECK_STATUS(CFE_ES_PutPoolBuf(next, memory.Data + 16), CFE_ES_POOL_BLOCK_INVALID);
    CHECK(block_of(next, 128) == memory.Data + 16);
    CHECK(stats_of(next).NumBlocksRequested == 1 && stats_of(next).CheckErrCtr == 1);
    CHECK(CFE_ES_PutPoolBuf(next, memory.Data + 16) == 128);
    /* Again and again. */
    for (int i = 0; i < 100; i++) {
        CHECK_STATUS(CFE_ES_PoolDelete(next), CFE_SUCCESS);
        next = pool_of(memory.Data, POOL);
    }
}

/* A pool ends with its creator, and leaves its place as a deleted one does. */
static void outlive_creator(void)
{
    wait_for(1);
    void *held = block_of(1, 100);
    reach(2);
    CFE_ES_MemHandle_t pools[POOLS], next;
    CFE_ES_MemPoolStats_t stats;
    while (CFE_ES_GetMemPoolStats(&stats, 1) == CFE_SUCCESS)
        OS_TaskDelay(1);
    CHECK_STATUS(CFE_ES_PutPoolBuf(1, held), CFE_ES_ERR_RESOURCEID_NOT_VALID);
    for (int i = 1; i < POOLS; i++)
        pools[i] = pool_of(large.Data + 4096 * i, 4096);
    CHECK(pools[1] == 2 && pools[7] == 8);
    /* The block that this application has keeps the ninth from being the first again. */
    CHECK_STATUS(CFE_ES_PoolCreate(&next, memory.Data, POOL), CFE_ES_NO_RESOURCE_IDS_AVAILABLE);
}

static void create_and_end(void)
{
    pool_of(memory.Data, POOL);
    reach(1);
    wait_for(2);
}

/* ---- Larger limits ---- */

static void use_limits(void)
{
    CFE_ES_MemHandle_t pool = pool_of(large.Data, LARGE);
    CFE_SB_Buffer_t *buffers[64];
    uint8 *block = block_of(pool, 80000);
    memset(block, 1, 80000);
    CHECK(CFE_ES_PutPoolBuf(pool, block) == 80000);
    for (int i = 0; i < 64; i++) {
        buffers[i] = CFE_SB_AllocateMessageBuffer(100);
        CHECK(buffers[i]);
    }
    CHECK(!CFE_SB_AllocateMessageBuffer(100));
    for (int i = 0; i < 64; i++)
        CHECK_STATUS(CFE_SB_ReleaseMessageBuffer(buffers[i]), CFE_SUCCESS);
}

int main(void)
{
    struct fsw_limits limits = FSW_USUAL_LIMITS;
    limits.apppool = LARGE;
    limits.buffers = 64;
    run(test_pools, take_blocks);
    run(test_sizes, NULL);
    run(test_deletion, NULL);
    run(create_and_end, outlive_creator);
    run_with(&limits, use_limits, NULL);
    printf("pools_test passed\n");
    return 0;
}
