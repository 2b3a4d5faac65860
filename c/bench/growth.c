/*
 * growth.c: one send, or one request for a buffer, again and again with the bus as large as asked;
 * growth.py counts the instructions of the calls in send_once, allocate_once and transmit_once.
 *
 *     growth send ROUNDS PIPES IDS DESTS WAITING BYTES
 *     growth allocate ROUNDS OUT
 *     growth place ROUNDS BYTES
 *
 * send: PIPES pipes are live and IDS message ids have a route; DESTS pipes are subscribed to the id
 * that is sent, WAITING messages wait on each, and a message has BYTES bytes. allocate: OUT buffers
 * are out. place: a buffer of BYTES bytes is asked for, and sent as it lies to one pipe.
 */
#include "fsw.h"

#include <stdio.h>
#include <stdlib.h>
#include <string.h>

#define NEVER_INLINE __attribute__((noinline))

enum { ID = 0x1801, MOST_OUT = 4096, MOST_BYTES = 65542 };

static struct fsw_core core;
static uint32_t pipes[256];
static uint8_t packet[MOST_BYTES];
static struct fsw_buffer buffers[MOST_OUT + 1];

static void must(uint32_t status)
{
    if (status == FSW_SUCCESS)
        return;
    fprintf(stderr, "growth: %s\n", fsw_status_text(status));
    exit(1);
}

NEVER_INLINE uint32_t send_once(uint32_t bytes)
{
    return fsw_transmit(&core, 1, packet, bytes, true, NULL);
}

NEVER_INLINE uint32_t allocate_once(uint32_t bytes, struct fsw_buffer *buffer)
{
    return fsw_allocate_buffer(&core, 1, bytes, buffer);
}

NEVER_INLINE uint32_t transmit_once(struct fsw_buffer *buffer)
{
    return fsw_transmit_buffer(&core, 1, buffer, true, NULL);
}

static void receive_all(uint32_t dests)
{
    struct fsw_message message;
    for (uint32_t i = 0; i < dests; i++)
        must(fsw_receive(&core, 1, pipes[i], &message));
}

static void open_pipes(uint32_t count, uint32_t depth)
{
    for (uint32_t i = 0; i < count; i++) {
        char name[8];
        const int length = snprintf(name, sizeof name, "P%u", (unsigned)i);
        must(fsw_create_pipe(&core, 1, depth, name, (size_t)length, &pipes[i]));
    }
}

static void subscribe(uint32_t ids, uint32_t dests, uint32_t depth)
{
    for (uint32_t i = 1; i < ids; i++)
        must(fsw_subscribe(&core, 1, (uint16_t)i, pipes[0], depth, FSW_GLOBAL));
    for (uint32_t i = 0; i < dests; i++)
        must(fsw_subscribe(&core, 1, ID, pipes[i], depth, FSW_GLOBAL));
}

/* The messages that wait stay: each round sends one more, and receives the oldest. */
static void send_rounds(unsigned long rounds, uint32_t dests, uint32_t waiting, uint32_t bytes)
{
    must(fsw_write_header(packet, bytes, ID, 0));
    for (uint32_t i = 0; i < waiting; i++)
        must(fsw_transmit(&core, 1, packet, bytes, true, NULL));
    for (unsigned long round = 0; round < rounds; round++) {
        must(send_once(bytes));
        receive_all(dests);
    }
}

static void allocate_rounds(unsigned long rounds, uint32_t out)
{
    for (uint32_t i = 0; i < out; i++)
        must(fsw_allocate_buffer(&core, 1, 64, &buffers[i]));
    for (unsigned long round = 0; round < rounds; round++) {
        must(allocate_once(64, &buffers[out]));
        must(fsw_release_buffer(&core, 1, &buffers[out]));
    }
}

static void place_rounds(unsigned long rounds, uint32_t bytes)
{
    struct fsw_buffer *buffer = &buffers[0];
    for (unsigned long round = 0; round < rounds; round++) {
        must(allocate_once(bytes, buffer));
        must(fsw_write_header(buffer->at, bytes, ID, 0));
        must(transmit_once(buffer));
        receive_all(1);
    }
}

int main(int argc, char **argv)
{
    uint32_t number[8] = {0};
    for (int i = 2; i < argc && i < 8; i++)
        number[i] = (uint32_t)strtoul(argv[i], NULL, 10);
    const struct fsw_limits limits = {.apps = 1,
                                      .buffers = MOST_OUT + 1,
                                      .msgids = 1024,
                                      .pipes = 256,
                                      .dests = 64,
                                      .depth = 1024,
                                      .msgmax = MOST_BYTES,
                                      .pool = 16777216,
                                      .apppool = 24,
                                      .tables = 1,
                                      .handles = 1,
                                      .tablemax = 1,
                                      .tablepool = 24,
                                      .version = 1,
                                      .blockmin = 64};
    must(fsw_open(&core, &limits));
    if (argc == 8 && strcmp(argv[1], "send") == 0) {
        open_pipes(number[3], 1024);
        subscribe(number[4], number[5], 1024);
        send_rounds(number[2], number[5], number[6], number[7]);
    } else if (argc == 4 && strcmp(argv[1], "allocate") == 0) {
        allocate_rounds(number[2], number[3]);
    } else if (argc == 4 && strcmp(argv[1], "place") == 0) {
        open_pipes(1, 4);
        subscribe(1, 1, 4);
        place_rounds(number[2], number[3]);
    } else {
        return 2;
    }
    return fsw_close(&core) == FSW_SUCCESS ? 0 : 1;
}
