/*
 * small_test.c: a small bus in FSW_ARENA_BYTES of static memory: 8 message ids, 8 pipes of 8
 * messages, 16 KiB of messages, and 4 tables of 256 bytes, all of them used at once.
 */
#include "check.h"
#include "fsw.h"

#include <string.h>

enum { PIPES = 8, DEPTH = 8, TABLES = 4, TABLE_BYTES = 256 };

static struct fsw_core core;

static const struct fsw_limits limits = {
    .apps = 2,
    .buffers = 1,
    .msgids = 8,
    .pipes = PIPES,
    .dests = 4,
    .depth = DEPTH,
    .msgmax = 1024,
    .pool = 16 * 1024,
    .apppool = 24,
    .tables = TABLES,
    .handles = TABLES,
    .tablemax = TABLE_BYTES,
    .tablepool = 4 * 1024,
    .version = 1,
    .blockmin = 64,
};

static void send(uint16_t id, uint8_t fill)
{
    uint8_t packet[64];
    memset(packet, fill, sizeof packet);
    CHECK_STATUS(fsw_write_header(packet, sizeof packet, id, 0), FSW_SUCCESS);
    CHECK_STATUS(fsw_transmit(&core, 1, packet, sizeof packet, true, NULL), FSW_SUCCESS);
}

/* Every pipe is filled, and emptied. */
static void pipes(void)
{
    struct fsw_message message;
    uint32_t pipe[PIPES];
    for (uint32_t i = 0; i < PIPES; i++) {
        char name = (char)('A' + i);
        CHECK_STATUS(fsw_create_pipe(&core, 1, DEPTH, &name, 1, &pipe[i]), FSW_SUCCESS);
        CHECK_STATUS(fsw_subscribe(&core, 1, (uint16_t)(0x0801 + i), pipe[i], DEPTH, FSW_GLOBAL),
                     FSW_SUCCESS);
    }
    for (uint32_t i = 0; i < PIPES * DEPTH; i++)
        send((uint16_t)(0x0801 + i % PIPES), (uint8_t)i);
    for (uint32_t i = 0; i < PIPES * DEPTH; i++) {
        CHECK_STATUS(fsw_receive(&core, 1, pipe[i % PIPES], &message), FSW_SUCCESS);
        CHECK(message.number == i + 1 && message.at[63] == (uint8_t)i);
    }
}

static void tables(void)
{
    static uint8_t value[TABLE_BYTES];
    struct fsw_address address;
    for (uint32_t i = 0; i < TABLES; i++) {
        char name = (char)('A' + i);
        uint32_t handle;
        CHECK_STATUS(fsw_table_register(&core, 2, &name, 1, TABLE_BYTES, FSW_TABLE_DOUBLE, NULL, 0,
                                        &handle),
                     FSW_SUCCESS);
        value[0] = (uint8_t)(i + 1);
        CHECK_STATUS(fsw_table_load(&core, 2, handle, 0, value, TABLE_BYTES), FSW_SUCCESS);
        CHECK_STATUS(fsw_table_get_address(&core, 2, handle, &address), FSW_TBL_INFO_UPDATED);
        CHECK(address.len == TABLE_BYTES && address.at[0] == i + 1);
    }
}

/* The arena has no room for the usual bus. */
static void too_large(void)
{
    static struct fsw_core other;
    const struct fsw_limits usual = FSW_USUAL_LIMITS;
    CHECK(fsw_bytes_needed(&usual) > FSW_ARENA_BYTES);
    CHECK_STATUS(fsw_open(&other, &usual), FSW_NO_MEMORY);
}

int main(void)
{
    uint64_t needed = fsw_bytes_needed(&limits);
    CHECK(needed <= FSW_ARENA_BYTES);
    CHECK_STATUS(fsw_open(&core, &limits), FSW_SUCCESS);
    pipes();
    tables();
    CHECK_STATUS(fsw_end(&core, 1), FSW_SUCCESS);
    CHECK_STATUS(fsw_end(&core, 2), FSW_SUCCESS);
    CHECK_STATUS(fsw_close(&core), FSW_SUCCESS);
    too_large();
    printf("small_test passed: at most %u bytes\n", (unsigned)needed);
    return 0;
}
