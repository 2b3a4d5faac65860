/*
 * needed_test.c: fsw_open takes no more memory than fsw_bytes_needed says, and not much less, for
 * random limits, and is refused only if a request for memory is: then the core stays closed. No
 * call takes memory afterwards. At fsw_close each block comes back, once, but three: the memory of
 * messages, that of tables, and the tables' working buffers.
 */
#include "check.h"
#include "draw.h"
#include "fsw.h"
#include "fsw_memory.h"

#include <string.h>

enum { OPENINGS = 300, UNIT = 16, LIMITS = 15, MOST_APPS = 16, MOST_OUT = 100000, KEPT = 3 };

/* A block that was given and isn't back. */
struct block {
    uint8_t *at;
    size_t bytes;
};

static struct block out[MOST_OUT];
static size_t outs, taken;
static unsigned long requests, refused; /* the number of the request that is refused, or 0 */

static size_t rounded(size_t bytes)
{
    return bytes ? (bytes + UNIT - 1) / UNIT * UNIT : UNIT;
}

static struct rattle_tried tried(size_t bytes)
{
    static uint8_t nothing;
    if (++requests == refused)
        return (struct rattle_tried){false, &nothing};
    uint8_t *at = malloc(rounded(bytes));
    CHECK(at && outs < MOST_OUT);
    taken += rounded(bytes);
    out[outs++] = (struct block){at, bytes};
    return (struct rattle_tried){true, at};
}

/* Nothing comes back that isn't out: neither twice, nor what was never given. */
static void take_back(uint8_t *at)
{
    size_t place = outs;
    while (place > 0 && out[place - 1].at != at)
        place--;
    CHECK(place > 0);
    memmove(&out[place - 1], &out[place], (outs - place) * sizeof *out);
    outs--;
    free(at);
}

struct rattle_tried rattle_alloc(size_t bytes, size_t align)
{
    (void)align;
    return tried(bytes);
}

struct rattle_tried rattle_realloc(uint8_t *at, size_t kept, size_t bytes, size_t align)
{
    (void)align;
    struct rattle_tried moved = tried(bytes);
    if (!moved.ok)
        return moved;
    memcpy(moved.at, at, kept < bytes ? kept : bytes);
    take_back(at);
    return moved;
}

void rattle_dealloc(uint8_t *at)
{
    take_back(at);
}

/*
 * What a core of these limits leaves taken: the blocks of its messages, tables and working buffers,
 * in order of their requests. The test gives them back.
 */
static void check_kept(const struct fsw_limits *limits, size_t count)
{
    const size_t kept[KEPT] = {limits->pool, limits->tablepool, (size_t)4 * limits->tablemax};
    CHECK(outs == count);
    for (size_t i = 0; i < count; i++)
        CHECK(out[i].bytes == kept[i]);
    while (outs > 0)
        take_back(out[0].at);
}

static void open_and_close(const struct fsw_limits *limits)
{
    struct fsw_core core = {NULL, 0};
    uint64_t needed = fsw_bytes_needed(limits);
    taken = 0;
    CHECK_STATUS(fsw_open(&core, limits), FSW_SUCCESS);
    CHECK(taken <= needed);
    CHECK(needed <= taken + taken / 4);
    size_t before = taken;
    uint32_t pipe;
    fsw_create_pipe(&core, 1, 1, "A", 1, &pipe);
    fsw_subscribe(&core, 1, 0x0801, pipe, 1, FSW_GLOBAL);
    fsw_transmit(&core, 1, "\x08\x01\xc0\x00\x00\x00\x01", 7, true, NULL);
    CHECK(taken == before && outs > KEPT);
    CHECK_STATUS(fsw_close(&core), FSW_SUCCESS);
    check_kept(limits, KEPT);
}

/*
 * Each request for memory is refused in turn. Then the bus was built over the memory of messages, or
 * the tables over theirs too, or neither.
 */
static void refuse_each(const struct fsw_limits *limits)
{
    struct fsw_core core = {NULL, 0};
    unsigned long most = 0;
    requests = refused = 0;
    CHECK_STATUS(fsw_open(&core, limits), FSW_SUCCESS);
    CHECK_STATUS(fsw_close(&core), FSW_SUCCESS);
    check_kept(limits, KEPT);
    most = requests;
    for (unsigned long i = 1; i <= most; i++) {
        requests = 0;
        refused = i;
        CHECK_STATUS(fsw_open(&core, limits), FSW_NO_MEMORY);
        CHECK(requests == i && !core.is_open && !core.at);
        CHECK(outs == 0 || outs == 1 || outs == KEPT);
        check_kept(limits, outs);
    }
    refused = 0;
    CHECK(most > 10);
}

int main(void)
{
    static const uint32_t least[LIMITS] = {1, 0, 1, 1, 1, 1, 7, 24, 24, 1, 1, 1, 24, 1, 0};
    static const uint32_t most[LIMITS] = {16,      40,    1024, 256,  64,    1024,    65542, 1048576,
                                          65536, 256,  1024, 65536, 1048576, 2,   80000};
    const struct fsw_limits usual = FSW_USUAL_LIMITS;
    struct fsw_limits limits = usual;
    uint32_t words[LIMITS];
    _Static_assert(sizeof limits == sizeof words, "a word each");
    for (limits.apps = 1; limits.apps <= MOST_APPS; limits.apps++)
        open_and_close(&limits);
    refuse_each(&usual);
    for (int i = 0; i < OPENINGS; i++) {
        for (int j = 0; j < LIMITS; j++) {
            /* Now and then a limit at its end, and otherwise more small ones than large ones. */
            uint32_t top = least[j] + (most[j] - least[j]) / draw(1, 20);
            words[j] = draw(0, 3) ? draw(least[j], top) : draw(0, 1) ? most[j] : least[j];
        }
        memcpy(&limits, words, sizeof limits);
        open_and_close(&limits);
    }
    printf("needed_test passed: %d openings\n", OPENINGS + MOST_APPS);
    return 0;
}
