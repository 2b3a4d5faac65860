/*
 * calls_range.c: the calls of fsw.h at their least and at their most, to be counted, and the memory
 * that fsw_open takes. bench/flight.py reads what it prints.
 *
 *     calls_range [memory]
 *
 * Each call to be counted is a function of its own, NAME_least or NAME_most, which `measure` calls
 * once. Least is a core of small limits in which nothing is used, and most one of the greatest
 * limits (its pools are smaller) in which everything is. With `memory` the bytes are printed that
 * fsw_open takes for three configurations.
 */
#include "check.h"
#include "fsw.h"
#include "fsw_memory.h"

#include <string.h>

enum {
    UNIT = 16,
    PIPES = 256,
    DESTS = 64,
    DEPTH = 1024,
    IDS = 1024,
    TABLES = 256,
    HANDLES = 1024,
    POOLS = 8,
    GRANTS = 500,
    FILTERS = 8,
    RULES = 8,
    LEAST_PACKET = 7,
    PACKET = 64,
    LARGEST = 65542,
    TABLE_BYTES = 65536,
    EVENT_BYTES = 200,
    PIPE_NAME = 19,
    TABLE_NAME = 15,
    NAME_BYTES = 24,
    LAST = PIPES - 2,      /* the pipe of most ids */
    HOUSEKEEPING = 0x0803, /* the id of fsw_send_housekeeping */
    FULL = 0x0810,         /* an id whose pipes are full */
    FREE,                  /* one whose pipes have room */
    OLDEST,                /* one whose pipes drop their oldest message */
    OTHER = 0x1001         /* the first of the other ids */
};

static const struct fsw_limits small = {2, 1, 8, 8, 4, 8, 1024, 16384, 128, 4, 4, 256, 4096, 1, 64};
static const struct fsw_limits usual = FSW_USUAL_LIMITS;
static const struct fsw_limits greatest = {16,   65535,   1024,    256,     64,
                                           1024, LARGEST, 1 << 24, 1 << 20, 256,
                                           1024, 65536,   1 << 24, 2,       0};
/* The greatest, but for the pools. */
static const struct fsw_limits counted = {16,      16,          IDS,     PIPES, DESTS,
                                          DEPTH,   LARGEST,     1 << 22, 65536, TABLES,
                                          HANDLES, TABLE_BYTES, 1 << 22, 2,     64};

/* ---- The library's memory, counted ---- */

static size_t taken;
static bool may_take;

static size_t rounded(size_t bytes)
{
    return bytes ? (bytes + UNIT - 1) / UNIT * UNIT : UNIT;
}

struct rattle_tried rattle_alloc(size_t bytes, size_t align)
{
    (void)align;
    CHECK(may_take);
    uint8_t *at = malloc(rounded(bytes));
    CHECK(at);
    taken += rounded(bytes);
    return (struct rattle_tried){true, at};
}

struct rattle_tried rattle_realloc(uint8_t *at, size_t kept, size_t bytes, size_t align)
{
    struct rattle_tried moved = rattle_alloc(bytes, align);
    memcpy(moved.at, at, kept < bytes ? kept : bytes);
    free(at);
    return moved;
}

void rattle_dealloc(uint8_t *at)
{
    free(at);
}

/* ---- What the calls are made with ---- */

static struct fsw_core core;
static volatile uint32_t status;
static uint32_t pipe, pool, handle, size, count, pipes[PIPES];
static uint16_t id;
static uint64_t grant, grants[GRANTS];
static uint8_t packet[LARGEST], value[TABLE_BYTES];
static char name[NAME_BYTES];
static struct fsw_sent sent;
static struct fsw_message message;
static struct fsw_buffer buffer;
static struct fsw_address address;
static struct fsw_filter filters[FILTERS];
static struct fsw_rule rules[RULES];

static void must(uint32_t answered)
{
    CHECK_STATUS(answered, FSW_SUCCESS);
}

static void open_core(const struct fsw_limits *limits)
{
    may_take = true;
    taken = 0;
    must(fsw_open(&core, limits));
    may_take = false;
}

/* Names differ in their last letters alone. */
static void set_name(uint32_t number, uint32_t length)
{
    snprintf(name, sizeof name, "%0*u", (int)length, (unsigned)number);
}

static void set_packet(uint16_t of, uint32_t bytes)
{
    id = of;
    size = bytes;
    must(fsw_write_header(packet, bytes, of, 0));
}

static void send_packet(uint16_t of, uint32_t bytes)
{
    set_packet(of, bytes);
    must(fsw_transmit(&core, 1, packet, bytes, true, &sent));
}

/* ---- The calls that are counted ---- */

#define COUNTED(call, made)                       \
    __attribute__((noipa)) static void call(void) \
    {                                             \
        status = (made);                          \
    }

/* The same call at its least and at its most. */
#define BOTH(call, made)        \
    COUNTED(call##_least, made) \
    COUNTED(call##_most, made)

COUNTED(transmit_one, fsw_transmit(&core, 1, packet, size, true, &sent))
COUNTED(transmit_all, fsw_transmit(&core, 1, packet, size, true, &sent))
COUNTED(transmit_oldest, fsw_transmit(&core, 1, packet, size, true, &sent))
BOTH(transmit, fsw_transmit(&core, 1, packet, size, true, &sent))
COUNTED(receive_one, fsw_receive(&core, 1, pipe, &message))
BOTH(receive, fsw_receive(&core, 1, pipe, &message))
BOTH(allocate_buffer, fsw_allocate_buffer(&core, 1, size, &buffer))
BOTH(transmit_buffer, fsw_transmit_buffer(&core, 1, &buffer, true, &sent))
BOTH(release_buffer, fsw_release_buffer(&core, 1, &buffer))
BOTH(create_pipe, fsw_create_pipe(&core, 1, 2, name, PIPE_NAME, &pipe))
BOTH(find_pipe, fsw_find_pipe(&core, name, PIPE_NAME, &pipe))
BOTH(delete_pipe, fsw_delete_pipe(&core, 1, pipe))
COUNTED(delete_pipe_empty, fsw_delete_pipe(&core, 1, pipe))
COUNTED(delete_pipe_routed, fsw_delete_pipe(&core, 1, pipe))
BOTH(subscribe, fsw_subscribe(&core, 1, id, pipe, DEPTH, FSW_GLOBAL))
BOTH(unsubscribe, fsw_unsubscribe(&core, 1, id, pipe))
BOTH(pool_create, fsw_pool_create(&core, 1, size, &pool))
BOTH(pool_get, fsw_pool_get(&core, 1, pool, size, &grant))
BOTH(pool_put, fsw_pool_put(&core, 1, pool, grant))
BOTH(register, fsw_register(&core, 1, filters, count))
BOTH(send_event, fsw_send_event(&core, 1, FILTERS, FSW_EVENT_ERROR, packet, size, NULL))
BOTH(send_housekeeping, fsw_send_housekeeping(&core, 1, &sent))
BOTH(table_register,
     fsw_table_register(&core, 1, name, TABLE_NAME, size, FSW_TABLE_DOUBLE, rules, count, &handle))
BOTH(table_share, fsw_table_share(&core, 2, name, TABLE_NAME, &handle))
BOTH(table_load, fsw_table_load(&core, 1, handle, 0, value, size))
BOTH(table_get_address, fsw_table_get_address(&core, 1, handle, &address))
BOTH(table_release_address, fsw_table_release_address(&core, 1, handle))
BOTH(table_unregister, fsw_table_unregister(&core, 1, handle))
BOTH(end, fsw_end(&core, 1))

/* Makes the call once, and says so. */
__attribute__((noipa)) static void measure(void (*call)(void), const char *what, uint32_t wanted)
{
    call();
    CHECK_STATUS(status, wanted);
    puts(what);
}

#define MEASURE(call, wanted) measure(call, #call, wanted)

/* ---- At the least: nothing else is used ---- */

static void measure_least_messages(void)
{
    set_packet(FREE, LEAST_PACKET);
    MEASURE(transmit_least, FSW_SUCCESS);
    set_name(1, PIPE_NAME);
    MEASURE(create_pipe_least, FSW_SUCCESS);
    MEASURE(find_pipe_least, FSW_SUCCESS);
    MEASURE(subscribe_least, FSW_SUCCESS);
    MEASURE(receive_least, FSW_SB_NO_MESSAGE);
    set_packet(FREE, PACKET);
    MEASURE(transmit_one, FSW_SUCCESS);
    must(fsw_transmit(&core, 1, packet, size, true, &sent));
    must(fsw_receive(&core, 1, pipe, &message));
    MEASURE(receive_one, FSW_SUCCESS);
    MEASURE(unsubscribe_least, FSW_SUCCESS);
    CHECK_STATUS(fsw_receive(&core, 1, pipe, &message), FSW_SB_NO_MESSAGE);
    size = LEAST_PACKET;
    MEASURE(allocate_buffer_least, FSW_SUCCESS);
    must(fsw_write_header(buffer.at, size, FREE, 0));
    MEASURE(transmit_buffer_least, FSW_SUCCESS);
    must(fsw_allocate_buffer(&core, 1, size, &buffer));
    MEASURE(release_buffer_least, FSW_SUCCESS);
    MEASURE(send_housekeeping_least, FSW_SUCCESS);
    MEASURE(delete_pipe_least, FSW_SUCCESS);
}

static void measure_least_others(void)
{
    size = 128;
    MEASURE(pool_create_least, FSW_SUCCESS);
    size = 8;
    MEASURE(pool_get_least, FSW_SUCCESS);
    MEASURE(pool_put_least, FSW_SUCCESS);
    count = 0;
    MEASURE(register_least, FSW_SUCCESS);
    size = 0;
    MEASURE(send_event_least, FSW_SUCCESS);
    set_name(1, TABLE_NAME);
    size = 4;
    MEASURE(table_register_least, FSW_SUCCESS);
    MEASURE(table_load_least, FSW_SUCCESS);
    MEASURE(table_get_address_least, FSW_TBL_INFO_UPDATED);
    MEASURE(table_release_address_least, FSW_SUCCESS);
    uint32_t own = handle;
    MEASURE(table_share_least, FSW_SUCCESS);
    must(fsw_table_unregister(&core, 2, handle));
    handle = own;
    MEASURE(table_unregister_least, FSW_SUCCESS);
    MEASURE(end_least, FSW_SUCCESS);
}

/* ---- At the most: all is used ---- */

static void subscribe(uint16_t to, uint32_t from, uint32_t limit)
{
    for (uint32_t i = 0; i < DESTS; i++)
        must(fsw_subscribe(&core, 1, to, pipes[from + i], limit, FSW_GLOBAL));
}

/* All pipes but one, and all ids; the last pipe has a subscription of each other id. */
static void fill_bus(void)
{
    for (uint32_t i = 0; i < PIPES - 1; i++) {
        bool is_deep = i / DESTS == 1 || i == LAST;
        set_name(i, PIPE_NAME);
        must(fsw_create_pipe(&core, 1, is_deep ? DEPTH : 1, name, PIPE_NAME, &pipes[i]));
        if (i / DESTS == 2)
            must(fsw_set_options(&core, 1, pipes[i], FSW_PIPE_DROPS_OLDEST));
    }
    subscribe(FULL, 0, 1);
    subscribe(FREE, DESTS, DEPTH);
    subscribe(OLDEST, 2 * DESTS, 1);
    subscribe(HOUSEKEEPING, DESTS, DEPTH);
    for (uint16_t i = 0; i < IDS - 5; i++)
        must(fsw_subscribe(&core, 1, OTHER + i, pipes[LAST], DEPTH, FSW_GLOBAL));
    send_packet(FULL, PACKET);
    send_packet(OLDEST, PACKET);
}

/* All tables but one, all handles but two, all pools but one, and as many grants as there is room
 * for. */
static void fill_others(void)
{
    for (uint32_t i = 0; i < TABLES - 1; i++) {
        set_name(i, TABLE_NAME);
        must(fsw_table_register(&core, 1, name, TABLE_NAME, 4, FSW_TABLE_DOUBLE, NULL, 0, &handle));
    }
    for (uint32_t i = 0; i < HANDLES - TABLES - 1; i++)
        must(fsw_table_share(&core, 3, name, TABLE_NAME, &handle));
    for (uint32_t i = 0; i < POOLS - 1; i++)
        must(fsw_pool_create(&core, 1, 65536, &pool));
    for (uint32_t i = 0; i < GRANTS; i++)
        must(fsw_pool_get(&core, 1, pool, PACKET, &grants[i]));
    for (uint16_t i = 0; i < FILTERS; i++)
        filters[i].id = (uint16_t)(i + 1);
    for (uint32_t i = 0; i < RULES; i++)
        rules[i] = (struct fsw_rule){TABLE_BYTES - 1, 0, 255};
}

/* A message is received by the last of its readers, who lets go the largest one. */
static void measure_most_receive(void)
{
    send_packet(FREE, LARGEST);
    send_packet(FREE, PACKET);
    for (uint32_t i = 2 * DESTS; i-- > DESTS;) {
        pipe = pipes[i];
        must(fsw_receive(&core, 1, pipe, &message));
        if (i > DESTS)
            must(fsw_receive(&core, 1, pipe, &message));
    }
    MEASURE(receive_most, FSW_SUCCESS);
}

static void measure_most_messages(void)
{
    set_name(PIPES - 1, PIPE_NAME);
    MEASURE(create_pipe_most, FSW_SUCCESS);
    pipes[PIPES - 1] = pipe;
    MEASURE(find_pipe_most, FSW_SUCCESS);
    id = FULL;
    must(fsw_unsubscribe(&core, 1, id, pipes[0]));
    MEASURE(subscribe_most, FSW_SUCCESS);
    MEASURE(unsubscribe_most, FSW_SUCCESS);
    must(fsw_subscribe(&core, 1, id, pipes[0], 1, FSW_GLOBAL));
    set_packet(FREE, PACKET);
    MEASURE(transmit_all, FSW_SUCCESS);
    set_packet(OLDEST, PACKET);
    MEASURE(transmit_oldest, FSW_SUCCESS);
    measure_most_receive();
    size = LARGEST;
    MEASURE(allocate_buffer_most, FSW_SUCCESS);
    MEASURE(release_buffer_most, FSW_SUCCESS);
    must(fsw_allocate_buffer(&core, 1, LARGEST, &buffer));
    must(fsw_write_header(buffer.at, LARGEST, FULL, 0));
    MEASURE(transmit_buffer_most, FSW_SUCCESS);
    set_packet(FULL, PACKET);
    MEASURE(transmit_most, FSW_SUCCESS);
    MEASURE(send_housekeeping_most, FSW_SUCCESS);
}

/* A pipe of no subscription, where there were many; one of all ids; and that with all its messages.
 */
static void measure_most_deletions(void)
{
    pipe = pipes[PIPES - 1];
    MEASURE(delete_pipe_empty, FSW_SUCCESS);
    for (uint32_t i = 0; i < DEPTH; i++)
        send_packet(OTHER, PACKET);
    pipe = pipes[LAST];
    MEASURE(delete_pipe_most, FSW_SUCCESS);
    set_name(LAST, PIPE_NAME);
    must(fsw_create_pipe(&core, 1, 1, name, PIPE_NAME, &pipe));
    for (uint16_t i = 0; i < IDS - 5; i++)
        must(fsw_subscribe(&core, 1, OTHER + i, pipe, DEPTH, FSW_GLOBAL));
    MEASURE(delete_pipe_routed, FSW_SUCCESS);
}

static void measure_most_others(void)
{
    size = 65536;
    MEASURE(pool_create_most, FSW_SUCCESS);
    pool = 1 + POOLS - 2;
    size = PACKET;
    MEASURE(pool_get_most, FSW_SUCCESS);
    MEASURE(pool_put_most, FSW_SUCCESS);
    count = FILTERS;
    MEASURE(register_most, FSW_SUCCESS);
    size = EVENT_BYTES;
    MEASURE(send_event_most, FSW_SUCCESS);
    set_name(TABLES - 1, TABLE_NAME);
    count = RULES;
    size = TABLE_BYTES;
    MEASURE(table_register_most, FSW_SUCCESS);
    MEASURE(table_load_most, FSW_SUCCESS);
    MEASURE(table_get_address_most, FSW_TBL_INFO_UPDATED);
    MEASURE(table_release_address_most, FSW_SUCCESS);
    uint32_t own = handle;
    MEASURE(table_share_most, FSW_SUCCESS);
    must(fsw_table_unregister(&core, 2, handle));
    handle = own;
    MEASURE(table_unregister_most, FSW_SUCCESS);
    MEASURE(end_most, FSW_SUCCESS);
}

static void print_memory(const char *what, const struct fsw_limits *limits)
{
    memset(&core, 0, sizeof core);
    open_core(limits);
    printf("%s taken %zu needed %llu\n", what, taken, (unsigned long long)fsw_bytes_needed(limits));
    must(fsw_close(&core));
}

int main(int argc, char **argv)
{
    if (argc > 1 && strcmp(argv[1], "memory") == 0) {
        print_memory("small", &small);
        print_memory("usual", &usual);
        print_memory("greatest", &greatest);
        return 0;
    }
    open_core(&small);
    measure_least_messages();
    measure_least_others();
    must(fsw_close(&core));
    open_core(&counted);
    fill_bus();
    fill_others();
    measure_most_messages();
    measure_most_deletions();
    measure_most_others();
    return 0;
}
