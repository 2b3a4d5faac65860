/*
 * calls_cost.c: the rounds of docs/bench/plain_bus.c over the calls of fsw.h, to be timed and
 * counted beside it.
 *
 *     calls_cost WORD ROUNDS [lock [parked]]
 *
 * send1, fan16, big, fanbig: a message of 64 or 32768 bytes to 1 or 16 pipes, received on each.
 * zc: a buffer of 64 bytes is asked for, written, sent as it lies, and received on 1 pipe.
 * table: 16384 bytes are loaded, and read by an address. With `lock` a mutex is taken round each
 * call, as a program with threads has it, and with `parked` there is a second thread, which sleeps.
 */
#include "fsw.h"

#include <pthread.h>
#include <stdio.h>
#include <stdlib.h>
#include <string.h>
#include <unistd.h>

/* So that a round is one piece of code, as plain_bus's is, without a test for the lock. */
#define ALWAYS_INLINE static inline __attribute__((always_inline))

enum { IDS = 4, DEPTH = 256, MOST_PIPES = 64, TABLE_BYTES = 16384 };

static struct fsw_core core;
static pthread_mutex_t mutex = PTHREAD_MUTEX_INITIALIZER;
static uint32_t pipes[MOST_PIPES];

ALWAYS_INLINE void lock(bool has_lock)
{
    if (has_lock)
        pthread_mutex_lock(&mutex);
}

ALWAYS_INLINE uint32_t done(bool has_lock, uint32_t status)
{
    if (has_lock)
        pthread_mutex_unlock(&mutex);
    return status;
}

static uint16_t id_of(unsigned long round)
{
    return (uint16_t)(0x801 + round % IDS);
}

static void open_pipes(uint32_t dests)
{
    for (uint32_t i = 0; i < IDS * dests; i++) {
        char name[8];
        size_t length = (size_t)snprintf(name, sizeof name, "P%u", (unsigned)i);
        if (fsw_create_pipe(&core, 1, DEPTH, name, length, &pipes[i]) != FSW_SUCCESS ||
            fsw_subscribe(&core, 1, id_of(i), pipes[i], DEPTH, FSW_GLOBAL) != FSW_SUCCESS)
            exit(1);
    }
}

ALWAYS_INLINE unsigned long receive_on(bool has_lock, unsigned long round, uint32_t dests)
{
    unsigned long received = 0;
    volatile uint8_t seen;
    for (uint32_t i = 0; i < dests; i++) {
        struct fsw_message message;
        lock(has_lock);
        if (done(has_lock, fsw_receive(&core, 1, pipes[round % IDS + i * IDS], &message)) ==
            FSW_SUCCESS) {
            seen = message.at[0];
            (void)seen;
            received++;
        }
    }
    return received;
}

ALWAYS_INLINE unsigned long carry_messages(bool has_lock, unsigned long rounds, uint32_t size,
                                           uint32_t dests)
{
    unsigned long received = 0;
    uint8_t *message = calloc(1, size);
    open_pipes(dests);
    for (unsigned long round = 0; message && round < rounds; round++) {
        struct fsw_sent sent;
        fsw_write_header(message, size, id_of(round), 0);
        lock(has_lock);
        if (done(has_lock, fsw_transmit(&core, 1, message, size, true, &sent)) == FSW_SUCCESS)
            received += receive_on(has_lock, round, dests);
    }
    free(message);
    return received;
}

ALWAYS_INLINE unsigned long carry_buffers(bool has_lock, unsigned long rounds, uint32_t size)
{
    unsigned long received = 0;
    struct fsw_buffer buffer = {NULL, 0, 0, 0};
    open_pipes(1);
    for (unsigned long round = 0; round < rounds; round++) {
        struct fsw_sent sent;
        lock(has_lock);
        if (done(has_lock, fsw_allocate_buffer(&core, 1, size, &buffer)) != FSW_SUCCESS)
            continue;
        fsw_write_header(buffer.at, size, id_of(round), 0);
        lock(has_lock);
        if (done(has_lock, fsw_transmit_buffer(&core, 1, &buffer, true, &sent)) == FSW_SUCCESS)
            received += receive_on(has_lock, round, 1);
    }
    return received;
}

ALWAYS_INLINE unsigned long load_and_read(bool has_lock, unsigned long rounds)
{
    unsigned long read = 0;
    uint32_t handle;
    volatile uint8_t seen;
    static uint8_t value[TABLE_BYTES];
    if (fsw_table_register(&core, 1, "T", 1, TABLE_BYTES, FSW_TABLE_DOUBLE, NULL, 0, &handle) !=
        FSW_SUCCESS)
        return 0;
    for (unsigned long round = 0; round < rounds; round++) {
        struct fsw_address address;
        lock(has_lock);
        if (done(has_lock, fsw_table_load(&core, 1, handle, 0, value, TABLE_BYTES)) != FSW_SUCCESS)
            continue;
        lock(has_lock);
        if (done(has_lock, fsw_table_get_address(&core, 1, handle, &address)) !=
            FSW_TBL_INFO_UPDATED)
            continue;
        seen = address.at[0];
        (void)seen;
        lock(has_lock);
        read += done(has_lock, fsw_table_release_address(&core, 1, handle)) == FSW_SUCCESS;
    }
    return read;
}

ALWAYS_INLINE unsigned long carry(bool has_lock, const char *word, unsigned long rounds)
{
    static const struct {
        const char *word;
        uint32_t size, dests;
    } sends[] = {{"send1", 64, 1}, {"fan16", 64, 16}, {"big", 32768, 1}, {"fanbig", 32768, 16}};
    if (strcmp(word, "zc") == 0)
        return carry_buffers(has_lock, rounds, 64);
    if (strcmp(word, "table") == 0)
        return load_and_read(has_lock, rounds);
    for (size_t i = 0; i < sizeof sends / sizeof sends[0]; i++)
        if (strcmp(word, sends[i].word) == 0)
            return carry_messages(has_lock, rounds, sends[i].size, sends[i].dests);
    return 0;
}

static void *park(void *nothing)
{
    pause();
    return nothing;
}

int main(int argc, char **argv)
{
    const char *word = argc > 1 ? argv[1] : "";
    unsigned long rounds = argc > 2 ? strtoul(argv[2], NULL, 10) : 0;
    struct fsw_limits limits = FSW_USUAL_LIMITS;
    pthread_t other;
    if (argc > 4 && strcmp(argv[4], "parked") == 0 && pthread_create(&other, NULL, park, NULL) != 0)
        return 1;
    if (fsw_open(&core, &limits) != FSW_SUCCESS)
        return 1;
    bool has_lock = argc > 3 && strcmp(argv[3], "lock") == 0;
    unsigned long received = has_lock ? carry(true, word, rounds) : carry(false, word, rounds);
    printf("%s rounds=%lu received=%lu\n", word, rounds, received);
    return fsw_close(&core) == FSW_SUCCESS ? 0 : 1;
}
