/*
 * blocks_test.c: where the blocks of grants lie. Grants of all sizes are given and put back, and an
 * application ends. The test keeps the places of its own: a grant has a free block of its size, if
 * there is one, and else the next block that is cut. All places are asked for again and again: a
 * block stays, and no two that are out have a byte in common.
 */
#include "check.h"
#include "draw.h"
#include "fsw.h"

enum { STEPS = 4000, LOOK = 20, APPS = 3, SIZES = 17, OVERHEAD = 16, MOST_BLOCKS = 2 * STEPS };

static const uint32_t sizes[SIZES] = {8,   16,   32,   48,   64,   96,    128,   160,  256,
                                      512, 1024, 2048, 4096, 8192, 16384, 32768, 80000};

/* A block that was cut, and the grant that has it: none is 0. */
struct cut {
    uint64_t grant;
    uint32_t app, offset, size;
};

static struct fsw_core core;
static uint32_t pool, blockmin, bytes, used;
static struct cut cuts[MOST_BLOCKS];
static size_t count;

static uint32_t block_size(uint32_t asked)
{
    for (int i = 0; i < SIZES; i++)
        if (asked <= sizes[i] && blockmin <= sizes[i])
            return sizes[i];
    return 0;
}

static bool has_free(uint32_t size)
{
    for (size_t i = 0; i < count; i++)
        if (!cuts[i].grant && cuts[i].size == size)
            return true;
    return false;
}

/* The free block of a size at an offset; if none was free, the next one that is cut. */
static struct cut *taken(uint32_t size, uint32_t offset)
{
    if (!has_free(size)) {
        cuts[count] = (struct cut){0, 0, used + OVERHEAD, size};
        used += OVERHEAD + size;
        CHECK(count < MOST_BLOCKS - 1 && used <= bytes);
        count++;
    }
    for (size_t i = 0; i < count; i++)
        if (!cuts[i].grant && cuts[i].size == size && cuts[i].offset == offset)
            return &cuts[i];
    return NULL;
}

static void get(uint32_t app, uint32_t asked)
{
    uint32_t size = block_size(asked);
    uint64_t grant = 0;
    struct fsw_pool_block block;
    uint32_t status = fsw_pool_get(&core, app, pool, asked, &grant);
    if (!has_free(size) && bytes - used < OVERHEAD + size) {
        CHECK_STATUS(status, FSW_ES_ERR_MEM_BLOCK_SIZE);
        return;
    }
    CHECK_STATUS(status, FSW_SUCCESS);
    CHECK_STATUS(fsw_pool_block(&core, pool, grant, &block), FSW_SUCCESS);
    struct cut *cut = taken(size, block.offset);
    CHECK(cut && block.size == size);
    cut->grant = grant;
    cut->app = app;
}

/* Puts back the grant of some block, if that is out. */
static void put(uint32_t app)
{
    struct cut *cut = &cuts[draw(0, (uint32_t)count - 1)];
    struct fsw_pool_block block;
    if (!cut->grant)
        return;
    CHECK_STATUS(fsw_pool_put(&core, app, pool, cut->grant), FSW_SUCCESS);
    CHECK_STATUS(fsw_pool_block(&core, pool, cut->grant, &block), FSW_ES_POOL_BLOCK_INVALID);
    cut->grant = 0;
}

/* An end puts the application's grants back. */
static void end(uint32_t app)
{
    CHECK_STATUS(fsw_end(&core, app), FSW_SUCCESS);
    for (size_t i = 0; i < count; i++)
        if (cuts[i].app == app)
            cuts[i].grant = 0;
}

/* Asks for all places, and compares each two. Answers how many blocks are out. */
static size_t look(void)
{
    static struct fsw_pool_block blocks[MOST_BLOCKS];
    size_t out = 0;
    for (size_t i = 0; i < count; i++) {
        if (!cuts[i].grant)
            continue;
        CHECK_STATUS(fsw_pool_block(&core, pool, cuts[i].grant, &blocks[out]), FSW_SUCCESS);
        CHECK(blocks[out].offset == cuts[i].offset && blocks[out].size == cuts[i].size);
        out++;
    }
    for (size_t i = 0; i < out; i++)
        for (size_t j = 0; j < i; j++)
            CHECK(blocks[i].offset + blocks[i].size <= blocks[j].offset ||
                  blocks[j].offset + blocks[j].size <= blocks[i].offset);
    return out;
}

static void play(uint32_t smallest, uint32_t pool_bytes)
{
    struct fsw_limits limits = FSW_USUAL_LIMITS;
    uint32_t apps = APPS;
    size_t most = 0;
    limits.apps = APPS;
    limits.apppool = bytes = pool_bytes;
    limits.blockmin = blockmin = smallest;
    count = used = 0;
    CHECK_STATUS(fsw_open(&core, &limits), FSW_SUCCESS);
    CHECK_STATUS(fsw_pool_create(&core, 1, bytes, &pool), FSW_SUCCESS);
    for (int step = 1; step <= STEPS; step++) {
        uint32_t size = sizes[draw(0, draw(0, SIZES - 1))]; /* small ones mostly */
        if (draw(0, 9) < 6 || count == 0)
            get(draw(1, apps), size - draw(0, 7));
        else
            put(draw(1, apps));
        if (step == STEPS / 2)
            end(apps--);
        size_t out = step % LOOK ? 0 : look();
        most = out > most ? out : most;
    }
    CHECK(most > 50);
    CHECK_STATUS(fsw_close(&core), FSW_SUCCESS);
}

int main(void)
{
    play(0, 100000);
    play(64, 1048576);
    puts("blocks_test passed");
    return 0;
}
