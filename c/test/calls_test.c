/*
 * calls_test.c: each call of fsw.h accepted and refused, the bad arguments of every call, a full
 * life of the bus and the tables, and many messages in constant memory. It runs over the library or
 * over its fake.
 */
#include "check.h"
#include "fsw.h"

#include <string.h>

#define NAME(text) text, sizeof text - 1

static struct fsw_core core;
static const struct fsw_limits small = {2, 2, 3, 3, 2, 3, 256, 2048, 256, 2, 4, 64, 512, 1, 0};

/* A packet of so many bytes, each behind the header of this value. */
static const uint8_t *packet(uint16_t id, size_t size, uint8_t fill)
{
    static uint8_t bytes[70000];
    memset(bytes, fill, size);
    CHECK_STATUS(fsw_write_header(bytes, size, id, 0), FSW_SUCCESS);
    return bytes;
}

static void open_small(void)
{
    CHECK_STATUS(fsw_open(&core, &small), FSW_SUCCESS);
}

static void close_core(void)
{
    CHECK_STATUS(fsw_close(&core), FSW_SUCCESS);
    CHECK(!core.is_open && !core.at);
}

/* What calls write. */
struct answers {
    uint32_t number, other;
    uint8_t bits;
    char name[19];
    struct fsw_sent sent;
    struct fsw_message message;
    struct fsw_buffer buffer;
    uint64_t grant;
    struct fsw_pool_stats stats;
    struct fsw_class_stats of_size;
    struct fsw_pool_block block;
    struct fsw_log_line line;
    struct fsw_event_counts events;
    struct fsw_counters counters;
    struct fsw_use now, peak;
    struct fsw_bytes bytes;
    struct fsw_address address;
    struct fsw_table_status status;
    struct fsw_table_use use;
};

static void closed_bus(struct answers *to)
{
    CHECK_STATUS(fsw_close(&core), FSW_CLOSED);
    CHECK_STATUS(fsw_end(&core, 1), FSW_CLOSED);
    CHECK_STATUS(fsw_create_pipe(&core, 1, 1, NAME("A"), &to->number), FSW_CLOSED);
    CHECK_STATUS(fsw_delete_pipe(&core, 1, 1), FSW_CLOSED);
    CHECK_STATUS(fsw_set_options(&core, 1, 1, 0), FSW_CLOSED);
    CHECK_STATUS(fsw_get_options(&core, 1, &to->bits), FSW_CLOSED);
    CHECK_STATUS(fsw_find_pipe(&core, NAME("A"), &to->number), FSW_CLOSED);
    CHECK_STATUS(fsw_pipe_name(&core, 1, to->name, sizeof to->name, &to->number), FSW_CLOSED);
    CHECK_STATUS(fsw_waiting(&core, 1, &to->number), FSW_CLOSED);
    CHECK_STATUS(fsw_subscribe(&core, 1, 0x801, 1, 1, FSW_GLOBAL), FSW_CLOSED);
    CHECK_STATUS(fsw_unsubscribe(&core, 1, 0x801, 1), FSW_CLOSED);
    CHECK_STATUS(fsw_transmit(&core, 1, packet(0x801, 8, 0), 8, true, &to->sent), FSW_CLOSED);
    CHECK_STATUS(fsw_allocate_buffer(&core, 1, 8, &to->buffer), FSW_CLOSED);
    CHECK_STATUS(fsw_transmit_buffer(&core, 1, &to->buffer, true, &to->sent), FSW_CLOSED);
    CHECK_STATUS(fsw_release_buffer(&core, 1, &to->buffer), FSW_CLOSED);
    CHECK_STATUS(fsw_receive(&core, 1, 1, &to->message), FSW_CLOSED);
    CHECK_STATUS(fsw_pend(&core, 1, 1, &to->message), FSW_CLOSED);
    CHECK_STATUS(fsw_look(&core, 1, &to->message), FSW_CLOSED);
    CHECK_STATUS(fsw_send_housekeeping(&core, 1, &to->sent), FSW_CLOSED);
    CHECK_STATUS(fsw_counters(&core, &to->counters), FSW_CLOSED);
    CHECK_STATUS(fsw_use(&core, &to->now, &to->peak), FSW_CLOSED);
}

static void closed_pools_and_events(struct answers *to)
{
    CHECK_STATUS(fsw_pool_create(&core, 1, 64, &to->number), FSW_CLOSED);
    CHECK_STATUS(fsw_pool_get(&core, 1, 1, 8, &to->grant), FSW_CLOSED);
    CHECK_STATUS(fsw_pool_put(&core, 1, 1, 1), FSW_CLOSED);
    CHECK_STATUS(fsw_pool_stats(&core, 1, &to->stats), FSW_CLOSED);
    CHECK_STATUS(fsw_pool_class(&core, 1, 0, &to->of_size), FSW_CLOSED);
    CHECK_STATUS(fsw_pool_block(&core, 1, 1, &to->block), FSW_CLOSED);
    CHECK_STATUS(fsw_register(&core, 1, NULL, 0), FSW_CLOSED);
    CHECK_STATUS(fsw_send_event(&core, 1, 1, FSW_EVENT_DEBUG, NAME("A"), &to->number), FSW_CLOSED);
    CHECK_STATUS(fsw_reset_filter(&core, 1, 1), FSW_CLOSED);
    CHECK_STATUS(fsw_set_log_mode(&core, 1, 0), FSW_CLOSED);
    CHECK_STATUS(fsw_clear_log(&core, 1), FSW_CLOSED);
    CHECK_STATUS(fsw_log_line(&core, 0, &to->line), FSW_CLOSED);
    CHECK_STATUS(fsw_event_counts(&core, &to->events), FSW_CLOSED);
}

static void closed_tables(struct answers *to)
{
    CHECK_STATUS(fsw_table_register(&core, 1, NAME("T"), 4, 0, NULL, 0, &to->number), FSW_CLOSED);
    CHECK_STATUS(fsw_table_share(&core, 1, NAME("T"), &to->number), FSW_CLOSED);
    CHECK_STATUS(fsw_table_unregister(&core, 1, 1), FSW_CLOSED);
    CHECK_STATUS(fsw_table_stage(&core, 1, 1, 0, "abcd", 4), FSW_CLOSED);
    CHECK_STATUS(fsw_table_staged(&core, 1, 1, &to->bytes), FSW_CLOSED);
    CHECK_STATUS(fsw_table_validate(&core, 1, 1), FSW_CLOSED);
    CHECK_STATUS(fsw_table_update(&core, 1, 1), FSW_CLOSED);
    CHECK_STATUS(fsw_table_abort(&core, 1, 1), FSW_CLOSED);
    CHECK_STATUS(fsw_table_load(&core, 1, 1, 0, "abcd", 4), FSW_CLOSED);
    CHECK_STATUS(fsw_table_get_address(&core, 1, 1, &to->address), FSW_CLOSED);
    CHECK_STATUS(fsw_table_release_address(&core, 1, 1), FSW_CLOSED);
    CHECK_STATUS(fsw_table_status(&core, 1, 1, &to->status), FSW_CLOSED);
    CHECK_STATUS(fsw_table_use(&core, &to->use), FSW_CLOSED);
}

/* Over a closed handle each call answers FSW_CLOSED, and writes nothing. */
static void closed_handle(void)
{
    static struct answers answers, before;
    closed_bus(&answers);
    closed_pools_and_events(&answers);
    closed_tables(&answers);
    CHECK(memcmp(&answers, &before, sizeof answers) == 0);
    CHECK(!core.at && !core.is_open);
}

static void openings(void)
{
    struct fsw_limits usual = FSW_USUAL_LIMITS, bad = usual;
    bad.apps = 17;
    CHECK_STATUS(fsw_open(&core, &bad), FSW_BAD_LIMITS);
    bad = usual;
    bad.pipes = 0;
    CHECK_STATUS(fsw_open(&core, &bad), FSW_BAD_LIMITS);
    bad = usual;
    bad.blockmin = 80001;
    CHECK_STATUS(fsw_open(&core, &bad), FSW_BAD_LIMITS);
    CHECK(fsw_bytes_needed(&usual) > usual.pool + usual.tablepool && fsw_bytes_needed(NULL) == 0);
    CHECK_STATUS(fsw_open(NULL, &usual), FSW_BAD_LIMITS);
    CHECK_STATUS(fsw_open(&core, NULL), FSW_BAD_LIMITS);
    CHECK_STATUS(fsw_open(&core, &usual), FSW_SUCCESS);
    CHECK_STATUS(fsw_open(&core, &usual), FSW_ALREADY_OPEN);
    close_core();
}

/* Null pointers, by service. */
static void null_pointers(void)
{
    uint32_t number = 77;
    open_small();
    CHECK_STATUS(fsw_create_pipe(NULL, 1, 1, NAME("A"), &number), FSW_SB_BAD_ARGUMENT);
    CHECK_STATUS(fsw_create_pipe(&core, 1, 1, NULL, 1, &number), FSW_SB_BAD_ARGUMENT);
    CHECK_STATUS(fsw_create_pipe(&core, 1, 1, NAME("A"), NULL), FSW_SB_BAD_ARGUMENT);
    CHECK_STATUS(fsw_create_pipe(&core, 1, 1, NULL, 0, &number), FSW_SB_BAD_ARGUMENT);
    CHECK_STATUS(fsw_transmit(&core, 1, NULL, 8, true, NULL), FSW_SB_BAD_ARGUMENT);
    CHECK_STATUS(fsw_allocate_buffer(&core, 1, 8, NULL), FSW_SB_BAD_ARGUMENT);
    CHECK_STATUS(fsw_transmit_buffer(&core, 1, NULL, true, NULL), FSW_SB_BAD_ARGUMENT);
    CHECK_STATUS(fsw_release_buffer(&core, 1, NULL), FSW_SB_BAD_ARGUMENT);
    CHECK_STATUS(fsw_receive(&core, 1, 1, NULL), FSW_SB_BAD_ARGUMENT);
    CHECK_STATUS(fsw_pool_create(&core, 1, 64, NULL), FSW_ES_BAD_ARGUMENT);
    CHECK_STATUS(fsw_register(&core, 1, NULL, 1), FSW_EVS_INVALID_PARAMETER);
    CHECK_STATUS(fsw_table_register(&core, 1, NAME("T"), 4, 0, NULL, 1, &number),
                 FSW_TBL_BAD_ARGUMENT);
    CHECK_STATUS(fsw_table_load(&core, 1, 1, 0, NULL, 4), FSW_TBL_BAD_ARGUMENT);
    CHECK_STATUS(fsw_read_header(NULL, 6, NULL), FSW_SB_BAD_ARGUMENT);
    CHECK(number == 77);
    close_core();
}

/*
 * Applications that the core hasn't, and lengths that no call takes: the bytes behind such a
 * pointer aren't read, so there are none.
 */
static void applications_and_lengths(void)
{
    static const uint32_t nobody[] = {0, 3, 17, UINT32_MAX};
    uint32_t number = 77;
    struct fsw_buffer buffer = {0};
    struct fsw_counters before, after;
    open_small();
    CHECK_STATUS(fsw_counters(&core, &before), FSW_SUCCESS);
    for (size_t i = 0; i < sizeof nobody / sizeof nobody[0]; i++) {
        CHECK_STATUS(fsw_create_pipe(&core, nobody[i], 1, NAME("A"), &number), FSW_NO_APPLICATION);
        CHECK_STATUS(fsw_transmit(&core, nobody[i], packet(0x801, 8, 0), 8, true, NULL),
                     FSW_NO_APPLICATION);
        CHECK_STATUS(fsw_allocate_buffer(&core, nobody[i], 8, &buffer), FSW_NO_APPLICATION);
        CHECK_STATUS(fsw_transmit_buffer(&core, nobody[i], &buffer, true, NULL),
                     FSW_NO_APPLICATION);
        CHECK_STATUS(fsw_release_buffer(&core, nobody[i], &buffer), FSW_NO_APPLICATION);
        CHECK_STATUS(fsw_table_share(&core, nobody[i], NAME("T"), &number), FSW_NO_APPLICATION);
        CHECK_STATUS(fsw_end(&core, nobody[i]), FSW_NO_APPLICATION);
    }
    CHECK_STATUS(fsw_create_pipe(&core, 1, 1, "", UINT32_MAX, &number),
                 FSW_TOO_LONG); /* its bytes aren't read */
    CHECK_STATUS(fsw_find_pipe(&core, "", 65, &number), FSW_TOO_LONG);
    CHECK_STATUS(fsw_transmit(&core, 1, "", UINT32_MAX, true, NULL), FSW_TOO_LONG);
    CHECK_STATUS(fsw_transmit(&core, 1, "", 0, true, NULL), FSW_SB_BAD_ARGUMENT);
    CHECK_STATUS(fsw_send_event(&core, 1, 1, FSW_EVENT_DEBUG, "", 201, NULL), FSW_TOO_LONG);
    CHECK_STATUS(fsw_register(&core, 1, (const struct fsw_filter *)(const void *)"", 9),
                 FSW_TOO_LONG);
    CHECK_STATUS(fsw_table_stage(&core, 1, 1, 0, "", UINT32_MAX), FSW_TOO_LONG);
    CHECK_STATUS(fsw_table_stage(&core, 1, 1, 0, "", 0), FSW_TOO_LONG);
    CHECK_STATUS(fsw_table_stage(&core, 1, 1, UINT32_MAX, "1", 1), FSW_TOO_LONG);
    CHECK_STATUS(fsw_counters(&core, &after), FSW_SUCCESS);
    CHECK(after.create == before.create && after.find == before.find &&
          after.send == before.send + 1);
    CHECK(number == 77);
    close_core();
}

static void pipes(void)
{
    uint32_t first = 0, second = 0, found = 0, length = 0, count = 7;
    uint8_t bits = 9;
    char name[19];
    open_small();
    CHECK_STATUS(fsw_create_pipe(&core, 1, 0, NAME("A"), &first), FSW_SB_BAD_ARGUMENT);
    CHECK_STATUS(fsw_create_pipe(&core, 1, 4, NAME("A"), &first), FSW_SB_BAD_ARGUMENT);
    CHECK_STATUS(fsw_create_pipe(&core, 1, 1, NAME("twenty characters ! "), &first),
                 FSW_SB_BAD_ARGUMENT);
    CHECK_STATUS(fsw_create_pipe(&core, 1, 3, NAME("nineteen characters"), &first), FSW_SUCCESS);
    CHECK_STATUS(fsw_create_pipe(&core, 2, 1, NAME("nineteen characters"), &second),
                 FSW_SB_PIPE_CR_ERR);
    CHECK_STATUS(fsw_create_pipe(&core, 2, 1, NAME("B"), &second), FSW_SUCCESS);
    CHECK_STATUS(fsw_create_pipe(&core, 2, 1, NAME("C"), &found), FSW_SUCCESS);
    CHECK_STATUS(fsw_create_pipe(&core, 2, 1, NAME("D"), &found), FSW_SB_MAX_PIPES_MET);
    CHECK(first == 1 && second == 2 && found == 3);
    CHECK_STATUS(fsw_find_pipe(&core, NAME("B"), &found), FSW_SUCCESS);
    CHECK(found == 2);
    CHECK_STATUS(fsw_find_pipe(&core, NAME("Z"), &found), FSW_SB_BAD_ARGUMENT);
    CHECK_STATUS(fsw_pipe_name(&core, 1, name, sizeof name, &length), FSW_SUCCESS);
    CHECK(length == 19 && memcmp(name, "nineteen characters", 19) == 0);
    CHECK_STATUS(fsw_pipe_name(&core, 1, name, 18, &length), FSW_SB_BAD_ARGUMENT);
    CHECK_STATUS(fsw_pipe_name(&core, 9, name, sizeof name, &length), FSW_SB_BAD_ARGUMENT);
    CHECK_STATUS(fsw_set_options(&core, 1, 1, FSW_PIPE_IGNORES_OWN), FSW_SUCCESS);
    CHECK_STATUS(fsw_set_options(&core, 1, 1, FSW_PIPE_DROPS_OLDEST),
                 FSW_SB_BAD_ARGUMENT); /* version 1 */
    CHECK_STATUS(fsw_set_options(&core, 2, 1, 0), FSW_SB_BAD_ARGUMENT);
    CHECK_STATUS(fsw_get_options(&core, 1, &bits), FSW_SUCCESS);
    CHECK(bits == 1);
    CHECK_STATUS(fsw_get_options(&core, 9, &bits), FSW_SB_BAD_ARGUMENT);
    CHECK_STATUS(fsw_waiting(&core, 1, &count), FSW_SUCCESS);
    CHECK(count == 0);
    CHECK_STATUS(fsw_delete_pipe(&core, 1, 2), FSW_SB_BAD_ARGUMENT);
    CHECK_STATUS(fsw_delete_pipe(&core, 2, 2), FSW_SUCCESS);
    CHECK_STATUS(fsw_delete_pipe(&core, 2, 2), FSW_SB_BAD_ARGUMENT);
    CHECK_STATUS(fsw_create_pipe(&core, 2, 1, NAME("B"), &second), FSW_SUCCESS);
    CHECK(second == 4); /* no number is used again */
    close_core();
}

static void subscriptions(void)
{
    uint32_t mine, its, third;
    struct fsw_counters counters;
    open_small();
    CHECK_STATUS(fsw_create_pipe(&core, 1, 3, NAME("A"), &mine), FSW_SUCCESS);
    CHECK_STATUS(fsw_create_pipe(&core, 2, 3, NAME("B"), &its), FSW_SUCCESS);
    CHECK_STATUS(fsw_create_pipe(&core, 2, 3, NAME("C"), &third), FSW_SUCCESS);
    CHECK_STATUS(fsw_subscribe(&core, 1, 0, mine, 1, FSW_GLOBAL), FSW_SB_BAD_ARGUMENT);
    CHECK_STATUS(fsw_subscribe(&core, 1, 0x2000, mine, 1, FSW_GLOBAL), FSW_SB_BAD_ARGUMENT);
    CHECK_STATUS(fsw_subscribe(&core, 1, 0x801, its, 1, FSW_GLOBAL), FSW_SB_BAD_ARGUMENT);
    CHECK_STATUS(fsw_subscribe(&core, 1, 0x801, mine, 1, 2), FSW_SB_BAD_ARGUMENT);
    CHECK_STATUS(fsw_subscribe(&core, 1, 0x801, mine, 1, FSW_GLOBAL), FSW_SUCCESS);
    CHECK_STATUS(fsw_subscribe(&core, 1, 0x801, mine, 1, FSW_LOCAL), FSW_SUCCESS); /* a duplicate */
    CHECK_STATUS(fsw_subscribe(&core, 2, 0x801, its, 1, FSW_GLOBAL), FSW_SUCCESS);
    CHECK_STATUS(fsw_subscribe(&core, 2, 0x801, third, 1, FSW_GLOBAL), FSW_SB_MAX_DESTS_MET);
    CHECK_STATUS(fsw_subscribe(&core, 1, 0x802, mine, 1, FSW_GLOBAL), FSW_SUCCESS);
    CHECK_STATUS(fsw_subscribe(&core, 1, 0x803, mine, 1, FSW_GLOBAL), FSW_SUCCESS);
    CHECK_STATUS(fsw_subscribe(&core, 1, 0x804, mine, 1, FSW_GLOBAL), FSW_SB_MAX_MSGS_MET);
    CHECK_STATUS(fsw_unsubscribe(&core, 1, 0x802, mine), FSW_SUCCESS);
    CHECK_STATUS(fsw_unsubscribe(&core, 1, 0x802, mine), FSW_SUCCESS); /* told by an event */
    CHECK_STATUS(fsw_unsubscribe(&core, 2, 0x801, mine), FSW_SB_BAD_ARGUMENT);
    CHECK_STATUS(fsw_counters(&core, &counters), FSW_SUCCESS);
    CHECK(counters.dup == 1 && counters.sub == 6);
    close_core();
}

static void messages(void)
{
    uint32_t mine, its, count;
    struct fsw_sent sent = {9, 9};
    struct fsw_message message = {0}, other = {0};
    struct fsw_counters counters;
    open_small();
    CHECK_STATUS(fsw_create_pipe(&core, 1, 2, NAME("A"), &mine), FSW_SUCCESS);
    CHECK_STATUS(fsw_create_pipe(&core, 2, 3, NAME("B"), &its), FSW_SUCCESS);
    CHECK_STATUS(fsw_transmit(&core, 1, packet(0x801, 8, 0), 8, true, &sent), FSW_SUCCESS);
    CHECK(sent.number == 0 && sent.reached == 0); /* nobody subscribes */
    CHECK_STATUS(fsw_subscribe(&core, 1, 0x801, mine, 3, FSW_GLOBAL), FSW_SUCCESS);
    CHECK_STATUS(fsw_subscribe(&core, 2, 0x801, its, 1, FSW_GLOBAL), FSW_SUCCESS);
    CHECK_STATUS(fsw_transmit(&core, 1, packet(0x801, 8, 0), 7, true, &sent), FSW_SB_BAD_ARGUMENT);
    CHECK_STATUS(fsw_transmit(&core, 1, packet(0x801, 257, 0), 257, true, &sent),
                 FSW_SB_MSG_TOO_BIG);
    CHECK_STATUS(fsw_transmit(&core, 1, packet(0x801, 64, 5), 64, true, &sent), FSW_SUCCESS);
    CHECK(sent.number == 1 && sent.reached == 2);
    CHECK_STATUS(fsw_waiting(&core, mine, &count), FSW_SUCCESS);
    CHECK(count == 1);
    CHECK_STATUS(fsw_transmit(&core, 1, packet(0x801, 64, 6), 64, true, &sent), FSW_SUCCESS);
    CHECK(sent.reached == 1); /* over the second one's limit */
    CHECK_STATUS(fsw_transmit(&core, 1, packet(0x801, 64, 7), 64, true, &sent), FSW_SUCCESS);
    CHECK(sent.number == 3 && sent.reached == 0); /* the first pipe is full as well */
    CHECK_STATUS(fsw_receive(&core, 1, its, &message), FSW_SB_BAD_ARGUMENT);
    CHECK_STATUS(fsw_receive(&core, 1, mine, &message), FSW_SUCCESS);
    CHECK_STATUS(fsw_receive(&core, 2, its, &other), FSW_SUCCESS);
    CHECK(message.at == other.at && message.len == 64 &&
          message.number == 1); /* one block, not copied */
    CHECK((uintptr_t)message.at % 8 == 0);
    CHECK(message.at[3] == 1 && message.at[63] == 5);
    CHECK_STATUS(fsw_receive(&core, 2, its, &other), FSW_SB_NO_MESSAGE);
    CHECK(message.at[63] == 5); /* the other's release leaves it */
    CHECK_STATUS(fsw_receive(&core, 1, mine, &message), FSW_SUCCESS);
    CHECK(message.number == 2 && message.at[3] == 2 && message.at[63] == 6);
    CHECK_STATUS(fsw_counters(&core, &counters), FSW_SUCCESS);
    CHECK(counters.nosub == 1 && counters.limit == 2 && counters.overflow == 1 &&
          counters.send == 2 && counters.recv == 1);
    close_core();
}

/* Waiting without a clock. */
static bool is_zero(const struct fsw_buffer *buffer)
{
    return !buffer->at && buffer->len == 0 && buffer->number == 0 && !buffer->is_out;
}

/* A buffer is allocated, written where it lies, and sent or released. */
static void buffers(void)
{
    static const uint8_t zeros[64];
    uint32_t pipe;
    struct fsw_buffer buffer = {0}, other = {0}, third = {0};
    struct fsw_message message;
    struct fsw_sent sent = {0};
    open_small();
    CHECK_STATUS(fsw_create_pipe(&core, 1, 3, NAME("A"), &pipe), FSW_SUCCESS);
    CHECK_STATUS(fsw_subscribe(&core, 1, 0x801, pipe, 3, FSW_GLOBAL), FSW_SUCCESS);
    CHECK_STATUS(fsw_allocate_buffer(&core, 1, 6, &buffer), FSW_SB_BAD_ARGUMENT);
    CHECK_STATUS(fsw_allocate_buffer(&core, 1, 257, &buffer), FSW_SB_MSG_TOO_BIG);
    CHECK(is_zero(&buffer));
    CHECK_STATUS(fsw_allocate_buffer(&core, 1, 50, &buffer), FSW_SUCCESS);
    CHECK(buffer.is_out && buffer.number == 1 && buffer.len == 64 && (uintptr_t)buffer.at % 8 == 0);
    CHECK(memcmp(buffer.at, zeros, 50) == 0);
    CHECK_STATUS(fsw_allocate_buffer(&core, 1, 50, &buffer), FSW_BUFFER_OUT);
    CHECK_STATUS(fsw_transmit_buffer(&core, 1, &buffer, true, NULL), FSW_SB_BAD_ARGUMENT);
    CHECK_STATUS(fsw_write_header(buffer.at, 50, 0x801, 0), FSW_SUCCESS);
    buffer.at[49] = 42;
    CHECK_STATUS(fsw_end(&core, 1), FSW_BUFFER_OUT);
    CHECK_STATUS(fsw_transmit_buffer(&core, 2, &buffer, true, NULL), FSW_SB_BUFFER_INVALID);
    CHECK_STATUS(fsw_release_buffer(&core, 2, &buffer), FSW_SB_BUFFER_INVALID);
    CHECK(buffer.is_out && buffer.number == 1 && buffer.at[49] == 42);
    CHECK_STATUS(fsw_allocate_buffer(&core, 1, 8, &other), FSW_SUCCESS);
    CHECK_STATUS(fsw_allocate_buffer(&core, 1, 8, &third), FSW_NO_ROOM);
    CHECK_STATUS(fsw_release_buffer(&core, 1, &other), FSW_SUCCESS);
    CHECK(is_zero(&other));
    CHECK_STATUS(fsw_release_buffer(&core, 1, &other), FSW_SB_BUFFER_INVALID);
    CHECK_STATUS(fsw_transmit_buffer(&core, 1, &buffer, true, &sent), FSW_SUCCESS);
    CHECK(is_zero(&buffer) && sent.number == 1 && sent.reached == 1);
    CHECK_STATUS(fsw_transmit_buffer(&core, 1, &buffer, true, &sent), FSW_SB_BUFFER_INVALID);
    CHECK_STATUS(fsw_receive(&core, 1, pipe, &message), FSW_SUCCESS);
    CHECK(message.number == 1 && message.len == 50 && message.at[49] == 42);
    CHECK_STATUS(fsw_end(&core, 1), FSW_SUCCESS);
    close_core();
}

/* A buffer that nobody hears, one under a wait, and one that is out at the close. */
static void buffers_left(void)
{
    uint32_t pipe;
    struct fsw_buffer buffer = {0};
    struct fsw_message message;
    struct fsw_sent sent = {7, 7};
    struct fsw_use now, peak;
    open_small();
    CHECK_STATUS(fsw_create_pipe(&core, 1, 3, NAME("A"), &pipe), FSW_SUCCESS);
    CHECK_STATUS(fsw_allocate_buffer(&core, 1, 20, &buffer), FSW_SUCCESS);
    CHECK_STATUS(fsw_write_header(buffer.at, 10, 0x802, 0), FSW_SUCCESS);
    CHECK_STATUS(fsw_transmit_buffer(&core, 1, &buffer, true, &sent), FSW_SUCCESS);
    CHECK(is_zero(&buffer) && sent.number == 0 && sent.reached == 0);
    CHECK_STATUS(fsw_use(&core, &now, &peak), FSW_SUCCESS);
    CHECK(now.buffers == 0 && peak.buffers == 1);
    CHECK_STATUS(fsw_allocate_buffer(&core, 1, 20, &buffer), FSW_SUCCESS);
    CHECK_STATUS(fsw_pend(&core, 1, pipe, &message), FSW_PENDING);
    CHECK_STATUS(fsw_release_buffer(&core, 1, &buffer), FSW_NOT_ACTIVE);
    CHECK_STATUS(fsw_end(&core, 1), FSW_BUFFER_OUT);
    CHECK(buffer.is_out && buffer.number == 2);
    close_core();
    CHECK_STATUS(fsw_release_buffer(&core, 1, &buffer), FSW_CLOSED);
}

static void waits(void)
{
    uint32_t mine, its;
    struct fsw_message message = {0};
    open_small();
    CHECK_STATUS(fsw_create_pipe(&core, 1, 2, NAME("A"), &mine), FSW_SUCCESS);
    CHECK_STATUS(fsw_create_pipe(&core, 2, 2, NAME("B"), &its), FSW_SUCCESS);
    CHECK_STATUS(fsw_subscribe(&core, 1, 0x801, mine, 3, FSW_GLOBAL), FSW_SUCCESS);
    CHECK_STATUS(fsw_look(&core, 1, &message), FSW_NOT_ACTIVE);
    CHECK_STATUS(fsw_pend(&core, 1, mine, &message), FSW_PENDING);
    CHECK_STATUS(fsw_look(&core, 1, &message), FSW_PENDING);
    CHECK_STATUS(fsw_receive(&core, 1, mine, &message), FSW_NOT_ACTIVE);
    CHECK_STATUS(fsw_transmit(&core, 2, packet(0x801, 8, 4), 8, true, NULL), FSW_SUCCESS);
    CHECK_STATUS(fsw_look(&core, 1, &message), FSW_SUCCESS);
    CHECK(message.len == 8 && message.at[7] == 4);
    CHECK_STATUS(fsw_pend(&core, 1, mine, &message), FSW_PENDING);
    CHECK_STATUS(fsw_pend(&core, 2, its, &message), FSW_SB_TIME_OUT); /* the only other waits */
    CHECK_STATUS(fsw_end(&core, 2), FSW_SUCCESS);
    CHECK_STATUS(fsw_end(&core, 2), FSW_NOT_ACTIVE);
    CHECK_STATUS(fsw_look(&core, 1, &message), FSW_SB_TIME_OUT);
    CHECK_STATUS(fsw_receive(&core, 1, mine, &message), FSW_SB_NO_MESSAGE);
    close_core();
}

static void pools(void)
{
    static uint8_t memory[200];
    uint32_t pool, none;
    uint64_t grant = 0;
    struct fsw_pool_stats stats;
    struct fsw_class_stats of_size;
    struct fsw_pool_block block = {0}, other;
    open_small();
    CHECK_STATUS(fsw_pool_create(&core, 1, 23, &pool), FSW_ES_ERR_MEM_BLOCK_SIZE);
    CHECK_STATUS(fsw_pool_create(&core, 1, 257, &pool), FSW_ES_ERR_MEM_BLOCK_SIZE);
    CHECK_STATUS(fsw_pool_create(&core, 1, sizeof memory, &pool), FSW_SUCCESS);
    CHECK_STATUS(fsw_pool_get(&core, 1, 2, 8, &grant), FSW_ES_NO_SUCH_POOL);
    CHECK_STATUS(fsw_pool_get(&core, 1, pool, 80001, &grant), FSW_ES_ERR_MEM_BLOCK_SIZE);
    uint32_t count = 0;
    while (fsw_pool_get(&core, 1, pool, 20, &grant) == FSW_SUCCESS) {
        CHECK(grant == count + 1);
        count++;
    }
    CHECK(count == 4);
    CHECK_STATUS(fsw_pool_put(&core, 2, pool, 2), FSW_SUCCESS);
    CHECK_STATUS(fsw_pool_put(&core, 2, pool, 2), FSW_ES_POOL_BLOCK_INVALID);
    CHECK_STATUS(fsw_pool_put(&core, 2, pool, 99), FSW_ES_BUFFER_NOT_IN_POOL);
    CHECK_STATUS(fsw_pool_put(&core, 2, 0, 1), FSW_ES_NO_SUCH_POOL);
    CHECK_STATUS(fsw_pool_get(&core, 2, pool, 32, &grant), FSW_SUCCESS);
    CHECK(grant == 5);
    CHECK_STATUS(fsw_pool_block(&core, 0, 1, &block), FSW_ES_NO_SUCH_POOL);
    CHECK_STATUS(fsw_pool_block(&core, pool, 2, &block), FSW_ES_POOL_BLOCK_INVALID);
    CHECK_STATUS(fsw_pool_block(&core, pool, 6, &block), FSW_ES_BUFFER_NOT_IN_POOL);
    CHECK(block.offset == 0 && block.size == 0);
    CHECK_STATUS(fsw_pool_block(&core, pool, 1, &block), FSW_SUCCESS);
    CHECK_STATUS(fsw_pool_block(&core, pool, 5, &other), FSW_SUCCESS); /* where grant 2 was */
    CHECK(block.offset == 16 && other.offset == 64 && block.size == 32 && other.size == 32);
    CHECK_STATUS(fsw_pool_stats(&core, pool, &stats), FSW_SUCCESS);
    CHECK(stats.size == 200 && stats.requests == 5 && stats.errors == 2 && stats.free == 8);
    CHECK_STATUS(fsw_pool_class(&core, pool, 2, &of_size), FSW_SUCCESS);
    CHECK(of_size.size == 32 && of_size.made == 4 && of_size.free == 0);
    CHECK_STATUS(fsw_pool_class(&core, pool, 17, &of_size), FSW_ES_BAD_ARGUMENT);
    CHECK_STATUS(fsw_end(&core, 1), FSW_SUCCESS); /* gives its three back */
    CHECK_STATUS(fsw_pool_class(&core, pool, 2, &of_size), FSW_SUCCESS);
    CHECK(of_size.free == 3);
    for (uint32_t i = 1; i < 8; i++)
        CHECK_STATUS(fsw_pool_create(&core, 2, 64, &none), FSW_SUCCESS);
    CHECK_STATUS(fsw_pool_create(&core, 2, 64, &none), FSW_ES_ERR_MEM_BLOCK_SIZE);
    close_core();
}

static void events(void)
{
    static const struct fsw_filter filters[] = {{1, 0xffff}, {2, 0}}, twice[] = {{1, 0}, {1, 0}};
    char text[200];
    uint32_t passed = 9;
    struct fsw_event_counts counts;
    struct fsw_log_line line;
    open_small();
    memset(text, 'x', sizeof text);
    CHECK_STATUS(fsw_send_event(&core, 1, 1, FSW_EVENT_ERROR, NAME("no"), &passed),
                 FSW_EVS_APP_NOT_REGISTERED);
    CHECK_STATUS(fsw_reset_filter(&core, 1, 1), FSW_EVS_APP_NOT_REGISTERED);
    CHECK_STATUS(fsw_register(&core, 1, twice, 2), FSW_EVS_INVALID_PARAMETER);
    CHECK_STATUS(fsw_register(&core, 1, filters, 2), FSW_SUCCESS);
    CHECK_STATUS(fsw_send_event(&core, 1, 1, 0, NAME("no"), NULL), FSW_EVS_INVALID_PARAMETER);
    CHECK_STATUS(fsw_send_event(&core, 1, 1, FSW_EVENT_ERROR, NAME("one"), &passed), FSW_SUCCESS);
    CHECK(passed == 1);
    CHECK_STATUS(fsw_send_event(&core, 1, 1, FSW_EVENT_ERROR, NAME("two"), &passed), FSW_SUCCESS);
    CHECK(passed == 0);
    CHECK_STATUS(fsw_reset_filter(&core, 1, 3), FSW_EVS_EVT_NOT_REGISTERED);
    CHECK_STATUS(fsw_reset_filter(&core, 1, 1), FSW_SUCCESS);
    CHECK_STATUS(fsw_send_event(&core, 1, 1, FSW_EVENT_DEBUG, text, sizeof text, &passed),
                 FSW_SUCCESS);
    CHECK(passed == 1);
    CHECK_STATUS(fsw_log_line(&core, 0, &line), FSW_SUCCESS);
    CHECK(line.app == 1 && line.id == 1 && line.kind == FSW_EVENT_ERROR && line.text_len == 3 &&
          !memcmp(line.text, "one", 3));
    CHECK_STATUS(fsw_log_line(&core, 1, &line), FSW_SUCCESS);
    CHECK(line.text_len == 122);
    CHECK_STATUS(fsw_log_line(&core, 2, &line), FSW_EVS_INVALID_PARAMETER);
    CHECK_STATUS(fsw_event_counts(&core, &counts), FSW_SUCCESS);
    CHECK(counts.sent == 2 && counts.filtered == 1 && counts.cut == 1 && counts.refused == 3 &&
          counts.logged == 2);
    CHECK_STATUS(fsw_set_log_mode(&core, 1, 2), FSW_EVS_INVALID_PARAMETER);
    CHECK_STATUS(fsw_set_log_mode(&core, 1, 0), FSW_SUCCESS);
    for (int i = 0; i < 20; i++)
        CHECK_STATUS(fsw_send_event(&core, 1, 2, FSW_EVENT_CRITICAL, NAME("more"), NULL),
                     FSW_SUCCESS);
    CHECK_STATUS(fsw_event_counts(&core, &counts), FSW_SUCCESS);
    CHECK(counts.logged == 20 && counts.lost == 2 && counts.mode == 0);
    CHECK_STATUS(fsw_clear_log(&core, 1), FSW_SUCCESS);
    CHECK_STATUS(fsw_event_counts(&core, &counts), FSW_SUCCESS);
    CHECK(counts.logged == 0 && counts.lost == 2);
    close_core();
}

static void counters(void)
{
    uint32_t pipe;
    struct fsw_message message;
    struct fsw_sent sent;
    struct fsw_use now, peak;
    open_small();
    CHECK_STATUS(fsw_create_pipe(&core, 1, 3, NAME("A"), &pipe), FSW_SUCCESS);
    CHECK_STATUS(fsw_subscribe(&core, 1, 0x803, pipe, 3, FSW_GLOBAL), FSW_SUCCESS);
    CHECK_STATUS(fsw_find_pipe(&core, NAME("Z"), &pipe), FSW_SB_BAD_ARGUMENT);
    CHECK_STATUS(fsw_send_housekeeping(&core, 2, &sent), FSW_SUCCESS);
    CHECK(sent.reached == 1);
    CHECK_STATUS(fsw_receive(&core, 1, pipe, &message), FSW_SUCCESS);
    CHECK(message.len == 64 && message.at[6 + 4 * 6 + 3] == 1); /* the counter of finds */
    CHECK(message.at[6 + 40 + 3] == 1 && message.at[6 + 44 + 3] == 1 &&
          message.at[6 + 48 + 3] == 1);
    CHECK_STATUS(fsw_use(&core, &now, &peak), FSW_SUCCESS);
    CHECK(now.buffers == 1 && now.bytes == 64 && peak.bytes == 64 && now.subs == 1);
    CHECK_STATUS(fsw_receive(&core, 1, pipe, &message), FSW_SB_NO_MESSAGE);
    CHECK_STATUS(fsw_use(&core, &now, NULL), FSW_SUCCESS);
    CHECK(now.buffers == 0 && now.bytes == 0);
    close_core();
}

static void registrations_of_tables(void)
{
    static const struct fsw_rule rule = {3, 1, 9}, past = {4, 1, 9}, empty = {0, 9, 1};
    uint32_t handle = 0, shared = 0, more = 0;
    struct fsw_table_use use;
    open_small();
    CHECK_STATUS(fsw_table_register(&core, 1, NAME(""), 4, 0, NULL, 0, &handle),
                 FSW_TBL_ERR_INVALID_NAME);
    CHECK_STATUS(fsw_table_register(&core, 1, NAME("sixteen letters!"), 4, 0, NULL, 0, &handle),
                 FSW_TBL_ERR_INVALID_NAME);
    CHECK_STATUS(fsw_table_register(&core, 1, NAME("T"), 0, 0, NULL, 0, &handle),
                 FSW_TBL_ERR_INVALID_SIZE);
    CHECK_STATUS(fsw_table_register(&core, 1, NAME("T"), 65, 0, NULL, 0, &handle),
                 FSW_TBL_ERR_INVALID_SIZE);
    CHECK_STATUS(fsw_table_register(&core, 1, NAME("T"), 4, 3, NULL, 0, &handle),
                 FSW_TBL_ERR_INVALID_OPTIONS);
    CHECK_STATUS(fsw_table_register(&core, 1, NAME("T"), 4, 0, &past, 1, &handle),
                 FSW_TBL_ERR_INVALID_OPTIONS);
    CHECK_STATUS(fsw_table_register(&core, 1, NAME("T"), 4, 0, &empty, 1, &handle),
                 FSW_TBL_ERR_INVALID_OPTIONS);
    CHECK_STATUS(fsw_table_register(&core, 1, NAME("T"), 4, 0, &rule, 9, &handle), FSW_TOO_LONG);
    CHECK_STATUS(fsw_table_register(&core, 1, NAME("T"), 4, FSW_TABLE_DOUBLE, &rule, 1, &handle),
                 FSW_SUCCESS);
    CHECK_STATUS(fsw_table_register(&core, 1, NAME("T"), 4, FSW_TABLE_DOUBLE, &rule, 1, &more),
                 FSW_TBL_WARN_DUPLICATE);
    CHECK(handle == 1 && more == 1);
    CHECK_STATUS(fsw_table_register(&core, 1, NAME("T"), 5, 0, NULL, 0, &more),
                 FSW_TBL_ERR_DUPLICATE_DIFF_SIZE);
    CHECK_STATUS(fsw_table_register(&core, 2, NAME("T"), 4, 0, NULL, 0, &more),
                 FSW_TBL_ERR_DUPLICATE_NOT_OWNED);
    CHECK_STATUS(fsw_table_share(&core, 2, NAME("U"), &shared), FSW_TBL_ERR_INVALID_NAME);
    CHECK_STATUS(fsw_table_share(&core, 2, NAME("T"), &shared), FSW_SUCCESS);
    CHECK_STATUS(fsw_table_register(&core, 1, NAME("U"), 4, 0, NULL, 0, &more), FSW_SUCCESS);
    CHECK_STATUS(fsw_table_register(&core, 1, NAME("V"), 4, 0, NULL, 0, &more),
                 FSW_TBL_ERR_REGISTRY_FULL);
    CHECK_STATUS(fsw_table_share(&core, 2, NAME("U"), &more), FSW_SUCCESS);
    CHECK_STATUS(fsw_table_share(&core, 2, NAME("U"), &more), FSW_TBL_ERR_HANDLES_FULL);
    CHECK_STATUS(fsw_table_use(&core, &use), FSW_SUCCESS);
    CHECK(use.tables == 2 && use.handles == 4 && use.bytes == 24);
    CHECK_STATUS(fsw_table_unregister(&core, 2, handle), FSW_TBL_ERR_NO_ACCESS);
    CHECK_STATUS(fsw_table_unregister(&core, 1, handle), FSW_SUCCESS);
    CHECK_STATUS(fsw_table_unregister(&core, 1, handle), FSW_TBL_ERR_INVALID_HANDLE);
    CHECK_STATUS(fsw_table_stage(&core, 2, shared, 0, "abcd", 4), FSW_TBL_ERR_UNREGISTERED);
    CHECK_STATUS(fsw_end(&core, 2), FSW_SUCCESS);
    CHECK_STATUS(fsw_table_use(&core, &use), FSW_SUCCESS);
    CHECK(use.tables == 1 && use.handles == 1);
    close_core();
}

static void loads(void)
{
    static const struct fsw_rule rule = {0, 1, 9};
    static const uint8_t good[4] = {1, 2, 3, 4}, bad[4] = {0, 2, 3, 4};
    uint32_t handle, single;
    struct fsw_address address = {0}, older = {0};
    struct fsw_bytes staged;
    struct fsw_table_status figures = {0};
    open_small();
    CHECK_STATUS(fsw_table_register(&core, 1, NAME("T"), 4, FSW_TABLE_DOUBLE, &rule, 1, &handle),
                 FSW_SUCCESS);
    CHECK_STATUS(fsw_table_get_address(&core, 1, handle, &address), FSW_TBL_ERR_NEVER_LOADED);
    CHECK(address.len == 4 && address.at[0] == 0 && address.version == 0 &&
          (uintptr_t)address.at % 8 == 0);
    CHECK_STATUS(fsw_table_release_address(&core, 1, handle), FSW_SUCCESS);
    CHECK_STATUS(fsw_table_stage(&core, 1, handle, 1, good, 1), FSW_TBL_ERR_PARTIAL_LOAD);
    CHECK_STATUS(fsw_table_stage(&core, 1, handle, 1, good, 4), FSW_TBL_ERR_FILE_TOO_LARGE);
    CHECK_STATUS(fsw_table_staged(&core, 1, handle, &staged), FSW_TBL_INFO_NO_LOAD);
    CHECK_STATUS(fsw_table_validate(&core, 1, handle), FSW_TBL_INFO_NO_LOAD);
    CHECK_STATUS(fsw_table_update(&core, 1, handle), FSW_TBL_INFO_NO_UPDATE_PENDING);
    CHECK_STATUS(fsw_table_abort(&core, 1, handle), FSW_TBL_INFO_NO_LOAD);
    CHECK_STATUS(fsw_table_stage(&core, 1, handle, 0, bad, 4), FSW_SUCCESS);
    CHECK_STATUS(fsw_table_stage(&core, 1, handle, 0, good, 4), FSW_TBL_ERR_LOAD_IN_PROGRESS);
    CHECK_STATUS(fsw_table_update(&core, 1, handle), FSW_TBL_INFO_NOT_VALIDATED);
    CHECK_STATUS(fsw_table_validate(&core, 1, handle), FSW_RULE_FAILED(1));
    CHECK_STATUS(fsw_table_staged(&core, 1, handle, &staged), FSW_SUCCESS);
    CHECK(staged.len == 4 && memcmp(staged.at, bad, 4) == 0);
    CHECK_STATUS(fsw_table_status(&core, 2, handle, &figures), FSW_TBL_ERR_NO_ACCESS);
    CHECK_STATUS(fsw_table_status(&core, 1, handle, &figures), FSW_SUCCESS);
    CHECK(figures.version == 0 && figures.staged == 1 && figures.holds == 0 && !figures.loaded);
    CHECK_STATUS(fsw_table_abort(&core, 1, handle), FSW_SUCCESS);
    CHECK_STATUS(fsw_table_load(&core, 1, handle, 0, bad, 4), FSW_RULE_FAILED(1));
    CHECK_STATUS(fsw_table_load(&core, 1, handle, 0, good, 4), FSW_SUCCESS);
    CHECK_STATUS(fsw_table_get_address(&core, 1, handle, &older), FSW_TBL_INFO_UPDATED);
    CHECK_STATUS(fsw_table_load(&core, 1, handle, 3, "\x09", 1), FSW_SUCCESS);
    CHECK(older.version == 1 && memcmp(older.at, good, 4) == 0); /* held bytes stay */
    CHECK_STATUS(fsw_table_status(&core, 1, handle, &figures), FSW_SUCCESS);
    CHECK(figures.version == 2 && figures.staged == 0 && figures.holds == 1 && figures.loaded);
    CHECK_STATUS(fsw_table_load(&core, 1, handle, 0, good, 4),
                 FSW_TBL_INFO_TABLE_LOCKED); /* an older version is held */
    CHECK_STATUS(fsw_table_get_address(&core, 1, handle, &address), FSW_TBL_INFO_UPDATED);
    CHECK(address.at[2] == 3 && address.at[3] == 9);
    CHECK_STATUS(fsw_table_get_address(&core, 1, handle, &address), FSW_SUCCESS);
    CHECK_STATUS(fsw_table_register(&core, 1, NAME("S"), 4, FSW_TABLE_SINGLE, NULL, 0, &single),
                 FSW_SUCCESS);
    CHECK_STATUS(fsw_table_load(&core, 1, single, 0, good, 4), FSW_SUCCESS);
    CHECK_STATUS(fsw_table_get_address(&core, 1, single, &address), FSW_TBL_INFO_UPDATED);
    CHECK_STATUS(fsw_table_load(&core, 1, single, 0, bad, 4), FSW_TBL_INFO_TABLE_LOCKED);
    CHECK(memcmp(address.at, good, 4) == 0);
    CHECK_STATUS(fsw_table_unregister(&core, 1, single), FSW_SUCCESS);
    CHECK_STATUS(fsw_table_register(&core, 1, NAME("D"), 4, FSW_TABLE_DUMP_ONLY, NULL, 0, &single),
                 FSW_SUCCESS);
    CHECK_STATUS(fsw_table_load(&core, 1, single, 0, good, 4), FSW_TBL_ERR_DUMP_ONLY);
    close_core();
}

static void packets_and_files(void)
{
    uint8_t bytes[8] = {0}, file[120] = "cFE1", code = 99;
    struct fsw_header header;
    struct fsw_image image;
    CHECK_STATUS(fsw_write_header(bytes, 6, 0x1880, 0), FSW_SB_BAD_ARGUMENT);
    CHECK_STATUS(fsw_write_header(bytes, 8, 0x1880, 16384), FSW_SB_BAD_ARGUMENT);
    CHECK_STATUS(fsw_write_header(bytes, 8, 0x1880, 16383), FSW_SUCCESS);
    CHECK_STATUS(fsw_read_header(bytes, 5, &header), FSW_SB_BAD_ARGUMENT);
    CHECK_STATUS(fsw_read_header(bytes, 6, &header), FSW_SUCCESS);
    CHECK(header.id == 0x1880 && header.count == 16383 && header.size == 8 && header.flags == 3);
    CHECK_STATUS(fsw_set_count(bytes, 8, 7), FSW_SUCCESS);
    CHECK(bytes[2] == 0xc0 && bytes[3] == 7);
    CHECK_STATUS(fsw_set_function_code(bytes, 8, 128), FSW_SB_BAD_ARGUMENT);
    CHECK_STATUS(fsw_set_function_code(bytes, 8, 127), FSW_SUCCESS);
    CHECK_STATUS(fsw_function_code(bytes, 8, &code), FSW_SUCCESS);
    CHECK(code == 127);
    CHECK_STATUS(fsw_write_header(bytes, 8, 0x0880, 0), FSW_SUCCESS);
    CHECK_STATUS(fsw_function_code(bytes, 8, &code), FSW_SB_WRONG_MSG_TYPE);
    memcpy(file + 76, "A.T", 3);
    file[75] = 4;
    CHECK_STATUS(fsw_read_image(file, 115, &image), FSW_TBL_ERR_NO_STD_HEADER);
    CHECK_STATUS(fsw_read_image(file, 119, &image), FSW_TBL_ERR_FILE_SIZE);
    CHECK_STATUS(fsw_read_image(file, 120, &image), FSW_SUCCESS);
    CHECK(image.name.len == 3 && image.bytes.len == 4 && image.bytes.at == file + 116 &&
          image.offset == 0);
    file[76] = ' ';
    CHECK_STATUS(fsw_read_image(file, 120, &image), FSW_TBL_ERR_NO_TBL_HEADER);
    file[0] = 'x';
    CHECK_STATUS(fsw_read_image(file, 120, &image), FSW_TBL_ERR_BAD_CONTENT_ID);
}

/* As many messages as are asked for; what is in use afterwards is what it was. */
static void many_messages(unsigned long count)
{
    uint32_t pipe;
    struct fsw_message message;
    struct fsw_use now, peak;
    open_small();
    CHECK_STATUS(fsw_create_pipe(&core, 1, 3, NAME("A"), &pipe), FSW_SUCCESS);
    CHECK_STATUS(fsw_subscribe(&core, 1, 0x801, pipe, 3, FSW_GLOBAL), FSW_SUCCESS);
    for (unsigned long i = 0; i < count; i++) {
        CHECK_STATUS(fsw_transmit(&core, 1, packet(0x801, 64, (uint8_t)i), 64, true, NULL),
                     FSW_SUCCESS);
        CHECK_STATUS(fsw_receive(&core, 1, pipe, &message), FSW_SUCCESS);
        CHECK(message.number == i + 1 && message.at[63] == (uint8_t)i);
    }
    CHECK_STATUS(fsw_use(&core, &now, &peak), FSW_SUCCESS);
    CHECK(now.buffers == 1 && peak.buffers <= 2 && peak.bytes <= 128);
    close_core();
}

int main(int argc, char **argv)
{
    closed_handle();
    openings();
    null_pointers();
    applications_and_lengths();
    pipes();
    subscriptions();
    messages();
    buffers();
    buffers_left();
    waits();
    pools();
    events();
    counters();
    registrations_of_tables();
    loads();
    packets_and_files();
    many_messages(argc > 1 ? strtoul(argv[1], NULL, 10) : 1000);
    puts("calls_test passed");
    return 0;
}
