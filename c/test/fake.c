/*
 * A fake of the library: the exports of fsw.h over plain lists, slow and simple, so that programs
 * and tests link before the library is proved. Nothing of it is proved. Each message and each
 * version of a table is a block of malloc's own, freed when it is let go, so that valgrind and the
 * sanitizers see a read that comes too late. If malloc fails, the program ends; but fsw_open
 * refuses limits that an arena.c linked beside it has no room for, as the library does.
 */
#include "fsw.h"
#include "fsw_memory.h"

#include <stdio.h>
#include <stdlib.h>
#include <string.h>

enum {
    CLASSES = 17,
    OVERHEAD = 16,
    MOST_APPS = 16,
    MOST_POOLS = 8,
    LOG_LINES = 20,
    MOST_TEXT = 122
};
enum {
    MOST_NAME = 64,
    MOST_SEND = 65542,
    MOST_EVENT = 200,
    MOST_LIST = 8,
    HEADER = 6,
    LEAST_MESSAGE = 7,
    HK_BYTES = 64
};

static const uint32_t SIZES[CLASSES] = {8,   16,   32,   48,   64,   96,    128,   160,  256,
                                        512, 1024, 2048, 4096, 8192, 16384, 32768, 80000};

/* Only a program with arena.c has it: no other object asks for it. */
#pragma weak rattle_alloc
#pragma weak rattle_dealloc

/* Memory of zeros. */
static void *zeros(size_t count, size_t size)
{
    void *at = calloc(count, size);
    if (!at)
        abort();
    return at;
}

/* What a pool gave, by block size. The sizes before the first aren't the pool's. */
struct account {
    uint32_t first;
    uint32_t bytes, rest, requests, errors;
    uint32_t made[CLASSES], out[CLASSES];
};

/* A block of an application's pool, and the grant that it is out under. */
struct cut {
    uint32_t offset, class, app;
    uint64_t grant;
    bool out;
};

struct pool {
    struct account account;
    struct cut *cut;
    uint32_t cuts;
    uint64_t given;
};

/* A block of a message. */
struct block {
    uint8_t *at;
    size_t size;
    uint32_t class, uses, app;
    uint64_t number;
    struct block *next;
};

struct item {
    struct block *block;
    uint32_t sub;
};

struct pipe {
    uint32_t number, app, depth, length, name_len;
    uint8_t name[20], bits;
    struct item *queue;
    struct block *last;
    struct pipe *next;
};

struct sub {
    uint32_t number, pipe, limit, waiting;
    uint16_t id;
    struct sub *next;
};

struct route {
    uint16_t id, count;
    struct route *next;
};

struct app {
    bool ended, registered;
    uint32_t waits_on, filters;
    struct fsw_filter filter[MOST_LIST];
    uint16_t seen[MOST_LIST];
};

struct line {
    uint32_t app, id, kind, len;
    uint8_t text[MOST_TEXT];
};

/* A version of a table. */
struct value {
    uint8_t *bytes;
    uint32_t holds;
    uint64_t version;
};

struct table {
    uint32_t app, size, option, owner, handles, rules, staged_state, name_len;
    uint8_t name[16];
    struct fsw_rule rule[MOST_LIST];
    struct value *present, *older;
    uint8_t *staged;
    struct table *next;
};

struct handle {
    uint32_t number, app;
    struct table *table;
    uint64_t told;
    struct value *hold;
    struct handle *next;
};

struct core {
    struct fsw_limits limits;
    struct app app[MOST_APPS + 1];
    struct account bus_pool, table_pool;
    struct pool pool[MOST_POOLS];
    uint32_t pools, pipes_made, subs_made, handles_made;
    uint64_t numbers;
    struct pipe *pipe;
    struct sub *sub;
    struct route *route;
    struct block *unsent;
    struct line log[LOG_LINES];
    struct fsw_event_counts events;
    struct fsw_counters counters;
    struct fsw_use now, peak;
    struct table *table;
    struct handle *handle;
    struct fsw_table_use tables;
};

/* ---- Pools ---- */

static uint32_t class_of(const struct account *account, uint32_t size)
{
    uint32_t class = account->first;
    while (class < CLASSES && SIZES[class] < size)
        class ++;
    return class;
}

static bool fits(const struct account *account, uint32_t size, uint32_t count)
{
    uint32_t class = class_of(account, size);
    if (class == CLASSES)
        return false;
    uint32_t free = account->made[class] - account->out[class];
    uint64_t missing = count > free ? count - free : 0;
    return missing * (SIZES[class] + OVERHEAD) <= account->rest;
}

/* Draws a block that fits; says whether it was cut from the rest. */
static bool draw(struct account *account, uint32_t class)
{
    bool cut = account->made[class] == account->out[class];
    if (cut) {
        account->made[class]++;
        account->rest -= SIZES[class] + OVERHEAD;
    }
    account->out[class]++;
    account->requests++;
    return cut;
}

static void tell_account(const struct account *account, struct fsw_pool_stats *stats)
{
    *stats =
        (struct fsw_pool_stats){account->bytes, account->requests, account->errors, account->rest};
}

/* ---- Events ---- */

static void log_event(struct core *c, uint32_t app, uint16_t id, uint32_t kind, const void *text,
                      size_t len)
{
    c->events.sent++;
    if (len > MOST_TEXT)
        c->events.cut++;
    if (c->events.logged == LOG_LINES) {
        c->events.lost++;
        if (c->events.mode == 1)
            return;
        memmove(c->log, c->log + 1, sizeof c->log - sizeof c->log[0]);
        c->events.logged--;
    }
    struct line *line = &c->log[c->events.logged++];
    *line = (struct line){app, id, kind, (uint32_t)(len > MOST_TEXT ? MOST_TEXT : len), {0}};
    memcpy(line->text, text, line->len);
}

/* The bus's own events; those of a send have the sender, the others 0. */
static void tell_service(struct core *c, uint16_t event, uint16_t id, uint32_t pipe,
                         uint32_t sender)
{
    static const char *const words[] = {"",      "duplicate", "not subscribed", "no subscribers",
                                        "limit", "overflow",  "oldest"};
    char text[MOST_TEXT];
    int length = snprintf(text, sizeof text, "%s id 0x%04x", words[event], id);
    if (pipe)
        length += snprintf(text + length, sizeof text - (size_t)length, " pipe %u", pipe);
    if (sender)
        length += snprintf(text + length, sizeof text - (size_t)length, " sender %u", sender);
    uint32_t kind = event == 4 || event == 5 ? FSW_EVENT_ERROR : FSW_EVENT_INFORMATION;
    log_event(c, 0, event, kind, text, (size_t)length);
}

/* ---- Who may call ---- */

static struct core *opened(const struct fsw_core *core)
{
    return core->is_open ? core->at : NULL;
}

static bool is_known(const struct core *c, uint32_t app)
{
    return 1 <= app && app <= c->limits.apps;
}

/* Why the application may not call now. */
static uint32_t unasked(const struct core *c, uint32_t app)
{
    if (!c)
        return FSW_CLOSED;
    if (!is_known(c, app))
        return FSW_NO_APPLICATION;
    return c->app[app].ended || c->app[app].waits_on ? FSW_NOT_ACTIVE : FSW_SUCCESS;
}

/* The same of a call that has so many bytes, of so many at most. */
static uint32_t unasked_with(const struct core *c, uint32_t app, size_t len, size_t most)
{
    if (c && is_known(c, app) && len > most)
        return FSW_TOO_LONG;
    return unasked(c, app);
}

static uint32_t counted(uint32_t *counter, uint32_t status)
{
    ++*counter;
    return status;
}

/* ---- Opening and closing ---- */

static bool within(uint32_t value, uint32_t low, uint32_t high)
{
    return low <= value && value <= high;
}

static bool are_limits(const struct fsw_limits *l)
{
    return within(l->apps, 1, 16) && l->buffers <= 65535 && within(l->msgids, 1, 1024) &&
           within(l->pipes, 1, 256) && within(l->dests, 1, 64) && within(l->depth, 1, 1024) &&
           within(l->msgmax, 7, 65542) && within(l->pool, 24, 16777216) &&
           within(l->apppool, 24, 1048576) && within(l->tables, 1, 256) &&
           within(l->handles, 1, 1024) && within(l->tablemax, 1, 65536) &&
           within(l->tablepool, 24, 16777216) && within(l->version, 1, 2) &&
           l->blockmin <= SIZES[CLASSES - 1];
}

/* Whether an arena has room for what the library takes; without one, malloc has. */
static bool has_room(const struct fsw_limits *limits)
{
    if (!rattle_alloc || !rattle_dealloc)
        return true;
    struct rattle_tried all = rattle_alloc(fsw_bytes_needed(limits), 16);
    if (all.ok)
        rattle_dealloc(all.at);
    return all.ok;
}

uint32_t fsw_raw_open(struct fsw_core *core, const struct fsw_limits *limits)
{
    if (core->is_open)
        return FSW_ALREADY_OPEN;
    if (!are_limits(limits))
        return FSW_BAD_LIMITS;
    if (!has_room(limits))
        return FSW_NO_MEMORY;
    struct core *c = zeros(1, sizeof *c);
    c->limits = *limits;
    c->bus_pool.bytes = c->bus_pool.rest = limits->pool;
    c->table_pool.bytes = c->table_pool.rest = limits->tablepool;
    while (SIZES[c->bus_pool.first] < limits->blockmin)
        c->bus_pool.first++;
    c->table_pool.first = c->bus_pool.first;
    c->events.mode = 1;
    *core = (struct fsw_core){c, 1};
    return FSW_SUCCESS;
}

/* ---- Blocks of the bus ---- */

static void raise_peak(uint32_t *peak, uint32_t now)
{
    if (now > *peak)
        *peak = now;
}

static void see(struct core *c)
{
    raise_peak(&c->peak.msgids, c->now.msgids);
    raise_peak(&c->peak.pipes, c->now.pipes);
    raise_peak(&c->peak.subs, c->now.subs);
    raise_peak(&c->peak.buffers, c->now.buffers);
    raise_peak(&c->peak.bytes, c->now.bytes);
}

static struct block *new_block(struct core *c, uint32_t size)
{
    struct block *block = zeros(1, sizeof *block);
    block->class = class_of(&c->bus_pool, size);
    block->size = size;
    block->at = zeros(1, SIZES[block->class]);
    draw(&c->bus_pool, block->class);
    c->now.buffers++;
    c->now.bytes += SIZES[block->class];
    return block;
}

static void free_block(struct core *c, struct block *block)
{
    c->bus_pool.out[block->class]--;
    c->now.buffers--;
    c->now.bytes -= SIZES[block->class];
    free(block->at);
    free(block);
}

static void drop_use(struct core *c, struct block *block)
{
    if (--block->uses == 0)
        free_block(c, block);
}

/* ---- Pipes ---- */

static struct pipe *pipe_at(const struct core *c, uint32_t number)
{
    struct pipe *pipe = c->pipe;
    while (pipe && pipe->number != number)
        pipe = pipe->next;
    return pipe;
}

static struct pipe *own_pipe(const struct core *c, uint32_t app, uint32_t number)
{
    struct pipe *pipe = pipe_at(c, number);
    return pipe && pipe->app == app ? pipe : NULL;
}

static struct pipe *pipe_named(const struct core *c, const uint8_t *name, size_t len)
{
    struct pipe *pipe = c->pipe;
    while (pipe && (pipe->name_len != len || memcmp(pipe->name, name, len) != 0))
        pipe = pipe->next;
    return pipe;
}

static struct sub *sub_numbered(const struct core *c, uint32_t number)
{
    struct sub *sub = c->sub;
    while (sub && sub->number != number)
        sub = sub->next;
    return sub;
}

uint32_t fsw_raw_create_pipe(struct fsw_core *core, uint32_t app, uint32_t depth,
                             const uint8_t *name, size_t name_len, uint32_t *pipe)
{
    struct core *c = opened(core);
    uint32_t why = unasked_with(c, app, name_len, MOST_NAME);
    if (why)
        return why;
    if (depth == 0 || depth > c->limits.depth || !within((uint32_t)name_len, 1, 19))
        return counted(&c->counters.create, FSW_SB_BAD_ARGUMENT);
    if (c->now.pipes >= c->limits.pipes)
        return counted(&c->counters.create, FSW_SB_MAX_PIPES_MET);
    if (pipe_named(c, name, name_len))
        return counted(&c->counters.create, FSW_SB_PIPE_CR_ERR);
    struct pipe *made = zeros(1, sizeof *made);
    made->number = ++c->pipes_made;
    made->app = app;
    made->depth = depth;
    made->name_len = (uint32_t)name_len;
    memcpy(made->name, name, name_len);
    made->queue = zeros(depth, sizeof *made->queue);
    made->next = c->pipe;
    c->pipe = made;
    c->now.pipes++;
    see(c);
    *pipe = made->number;
    return FSW_SUCCESS;
}

static void let_last_go(struct core *c, struct pipe *pipe)
{
    if (pipe->last)
        drop_use(c, pipe->last);
    pipe->last = NULL;
}

static void end_subs(struct core *c, uint32_t pipe, uint16_t id)
{
    for (struct sub **at = &c->sub; *at;) {
        struct sub *sub = *at;
        if (sub->pipe != pipe || (id && sub->id != id)) {
            at = &sub->next;
            continue;
        }
        *at = sub->next;
        free(sub);
        c->now.subs--;
    }
}

static void remove_pipe(struct core *c, struct pipe *pipe)
{
    end_subs(c, pipe->number, 0);
    let_last_go(c, pipe);
    for (uint32_t i = 0; i < pipe->length; i++)
        drop_use(c, pipe->queue[i].block);
    struct pipe **at = &c->pipe;
    while (*at != pipe)
        at = &(*at)->next;
    *at = pipe->next;
    free(pipe->queue);
    free(pipe);
    c->now.pipes--;
}

uint32_t fsw_raw_delete_pipe(struct fsw_core *core, uint32_t app, uint32_t pipe)
{
    struct core *c = opened(core);
    uint32_t why = unasked(c, app);
    if (why)
        return why;
    struct pipe *found = own_pipe(c, app, pipe);
    if (!found)
        return counted(&c->counters.create, FSW_SB_BAD_ARGUMENT);
    remove_pipe(c, found);
    return FSW_SUCCESS;
}

uint32_t fsw_raw_set_options(struct fsw_core *core, uint32_t app, uint32_t pipe, uint8_t bits)
{
    struct core *c = opened(core);
    uint32_t why = unasked(c, app);
    if (why)
        return why;
    struct pipe *found = own_pipe(c, app, pipe);
    if (!found || bits > (c->limits.version == 2 ? 3 : 1))
        return counted(&c->counters.opts, FSW_SB_BAD_ARGUMENT);
    found->bits = bits;
    return FSW_SUCCESS;
}

uint32_t fsw_raw_get_options(struct fsw_core *core, uint32_t pipe, uint8_t *bits)
{
    struct core *c = opened(core);
    if (!c)
        return FSW_CLOSED;
    struct pipe *found = pipe_at(c, pipe);
    if (!found)
        return counted(&c->counters.opts, FSW_SB_BAD_ARGUMENT);
    *bits = found->bits;
    return FSW_SUCCESS;
}

uint32_t fsw_raw_find_pipe(struct fsw_core *core, const uint8_t *name, size_t name_len,
                           uint32_t *pipe)
{
    struct core *c = opened(core);
    if (!c)
        return FSW_CLOSED;
    if (name_len > MOST_NAME)
        return FSW_TOO_LONG;
    struct pipe *found = pipe_named(c, name, name_len);
    if (!found)
        return counted(&c->counters.find, FSW_SB_BAD_ARGUMENT);
    *pipe = found->number;
    return FSW_SUCCESS;
}

uint32_t fsw_raw_pipe_name(struct fsw_core *core, uint32_t pipe, uint8_t *into, size_t into_len,
                           uint32_t *name_len)
{
    struct core *c = opened(core);
    if (!c)
        return FSW_CLOSED;
    if (into_len < 19)
        return FSW_SB_BAD_ARGUMENT;
    struct pipe *found = pipe_at(c, pipe);
    if (!found)
        return counted(&c->counters.find, FSW_SB_BAD_ARGUMENT);
    memcpy(into, found->name, found->name_len);
    *name_len = found->name_len;
    return FSW_SUCCESS;
}

uint32_t fsw_raw_waiting(struct fsw_core *core, uint32_t pipe, uint32_t *count)
{
    struct core *c = opened(core);
    if (!c)
        return FSW_CLOSED;
    struct pipe *found = pipe_at(c, pipe);
    if (!found)
        return FSW_SB_BAD_ARGUMENT;
    *count = found->length;
    return FSW_SUCCESS;
}

/* ---- Subscriptions ---- */

static bool is_id(uint32_t id)
{
    return within(id, 1, 0x1fff);
}

static struct route *route_of(const struct core *c, uint16_t id)
{
    struct route *route = c->route;
    while (route && route->id != id)
        route = route->next;
    return route;
}

static uint32_t subs_of(const struct core *c, uint16_t id)
{
    uint32_t count = 0;
    for (struct sub *sub = c->sub; sub; sub = sub->next)
        count += sub->id == id;
    return count;
}

static struct sub *sub_of(const struct core *c, uint16_t id, uint32_t pipe)
{
    struct sub *sub = c->sub;
    while (sub && (sub->id != id || sub->pipe != pipe))
        sub = sub->next;
    return sub;
}

static void add_sub(struct core *c, uint16_t id, uint32_t pipe, uint32_t limit)
{
    if (!route_of(c, id)) {
        struct route *route = zeros(1, sizeof *route);
        *route = (struct route){id, 0, c->route};
        c->route = route;
        c->now.msgids++;
    }
    struct sub **at = &c->sub;
    while (*at)
        at = &(*at)->next;
    *at = zeros(1, sizeof **at);
    **at = (struct sub){++c->subs_made, pipe, limit, 0, id, NULL};
    c->now.subs++;
    see(c);
}

uint32_t fsw_raw_subscribe(struct fsw_core *core, uint32_t app, uint16_t id, uint32_t pipe,
                           uint32_t limit, uint32_t scope)
{
    struct core *c = opened(core);
    uint32_t why = unasked(c, app);
    if (why)
        return why;
    if (scope > FSW_GLOBAL)
        return FSW_SB_BAD_ARGUMENT;
    if (!is_id(id) || !own_pipe(c, app, pipe))
        return counted(&c->counters.sub, FSW_SB_BAD_ARGUMENT);
    if (sub_of(c, id, pipe)) {
        c->counters.dup++;
        tell_service(c, 1, id, pipe, 0);
        return FSW_SUCCESS;
    }
    if (!route_of(c, id) && c->now.msgids >= c->limits.msgids)
        return counted(&c->counters.sub, FSW_SB_MAX_MSGS_MET);
    if (subs_of(c, id) >= c->limits.dests)
        return counted(&c->counters.sub, FSW_SB_MAX_DESTS_MET);
    add_sub(c, id, pipe, limit);
    return FSW_SUCCESS;
}

uint32_t fsw_raw_unsubscribe(struct fsw_core *core, uint32_t app, uint16_t id, uint32_t pipe)
{
    struct core *c = opened(core);
    uint32_t why = unasked(c, app);
    if (why)
        return why;
    if (!is_id(id) || !own_pipe(c, app, pipe))
        return counted(&c->counters.sub, FSW_SB_BAD_ARGUMENT);
    if (!sub_of(c, id, pipe))
        tell_service(c, 2, id, pipe, 0);
    end_subs(c, pipe, id);
    return FSW_SUCCESS;
}

/* ---- Sends ---- */

static uint16_t id_in(const uint8_t *bytes)
{
    return (uint16_t)(bytes[0] << 8 | bytes[1]);
}

static uint32_t size_in(const uint8_t *bytes)
{
    return (uint32_t)(bytes[4] << 8 | bytes[5]) + LEAST_MESSAGE;
}

static void put_count(uint8_t *bytes, uint16_t count)
{
    bytes[2] = (uint8_t)((bytes[2] & 0xc0) | count >> 8);
    bytes[3] = (uint8_t)count;
}

static void put_message(struct pipe *pipe, struct sub *sub, struct block *block)
{
    pipe->queue[pipe->length++] = (struct item){block, sub->number};
    sub->waiting++;
    block->uses++;
}

static void take_first(struct core *c, struct pipe *pipe)
{
    struct sub *sub = sub_numbered(c, pipe->queue[0].sub);
    if (sub)
        sub->waiting--;
    pipe->length--;
    memmove(pipe->queue, pipe->queue + 1, pipe->length * sizeof *pipe->queue);
}

/* Puts the block on the pipe of a subscription, unless the pipe misses it. */
static void offer(struct core *c, uint32_t app, struct sub *sub, struct block *block,
                  struct fsw_sent *sent)
{
    struct pipe *pipe = pipe_at(c, sub->pipe);
    if (pipe->app == app && pipe->bits & FSW_PIPE_IGNORES_OWN)
        return;
    if (sub->waiting >= sub->limit) {
        c->counters.limit++;
        tell_service(c, 4, sub->id, sub->pipe, app);
        return;
    }
    if (pipe->length >= pipe->depth && !(pipe->bits & FSW_PIPE_DROPS_OLDEST)) {
        c->counters.overflow++;
        tell_service(c, 5, sub->id, sub->pipe, app);
        return;
    }
    if (pipe->length >= pipe->depth) {
        struct block *oldest = pipe->queue[0].block;
        c->counters.oldest++;
        tell_service(c, 6, sub->id, sub->pipe, app);
        take_first(c, pipe);
        drop_use(c, oldest);
    }
    put_message(pipe, sub, block);
    sent->reached++;
}

/* Delivers a block that the bus has to all subscribers of its id. */
static void deliver(struct core *c, uint32_t app, struct block *block, bool counts,
                    struct fsw_sent *sent)
{
    uint16_t id = id_in(block->at);
    struct route *route = route_of(c, id);
    if (counts) {
        route->count = (uint16_t)((route->count + 1) & 0x3fff);
        put_count(block->at, route->count);
    }
    *sent = (struct fsw_sent){block->number, 0};
    block->uses = 1;
    for (struct sub *sub = c->sub; sub; sub = sub->next)
        if (sub->id == id)
            offer(c, app, sub, block, sent);
    if (sent->reached > 0)
        see(c);
    drop_use(c, block);
}

static void go_nowhere(struct core *c, uint16_t id, struct fsw_sent *sent)
{
    c->counters.nosub++;
    tell_service(c, 3, id, 0, 0);
    *sent = (struct fsw_sent){0, 0};
}

static uint32_t send_bytes(struct core *c, uint32_t app, const uint8_t *bytes, size_t len,
                           bool counts, struct fsw_sent *sent)
{
    if (len < LEAST_MESSAGE || size_in(bytes) != len || !is_id(id_in(bytes)))
        return counted(&c->counters.send, FSW_SB_BAD_ARGUMENT);
    if (len > c->limits.msgmax)
        return counted(&c->counters.send, FSW_SB_MSG_TOO_BIG);
    if (subs_of(c, id_in(bytes)) == 0) {
        go_nowhere(c, id_in(bytes), sent);
        return FSW_SUCCESS;
    }
    if (!fits(&c->bus_pool, (uint32_t)len, 1))
        return counted(&c->counters.send, FSW_SB_BUF_ALOC_ERR);
    struct block *block = new_block(c, (uint32_t)len);
    memcpy(block->at, bytes, len);
    block->number = ++c->numbers;
    deliver(c, app, block, counts, sent);
    return FSW_SUCCESS;
}

uint32_t fsw_raw_transmit(struct fsw_core *core, uint32_t app, const uint8_t *bytes,
                          size_t bytes_len, bool counts, struct fsw_sent *sent)
{
    struct core *c = opened(core);
    uint32_t why = unasked_with(c, app, bytes_len, MOST_SEND);
    return why ? why : send_bytes(c, app, bytes, bytes_len, counts, sent);
}

/* ---- Buffers ---- */

static bool is_empty(const struct fsw_buffer *buffer)
{
    return !buffer->is_out;
}

static uint32_t unsent_of(const struct core *c, uint32_t app)
{
    uint32_t count = 0;
    for (struct block *block = c->unsent; block; block = block->next)
        count += block->app == app;
    return count;
}

/* Where the list names a buffer of the caller's; at its end, null, if it has no such. */
static struct block **own_buffer(struct core *c, uint32_t app, const struct fsw_buffer *buffer)
{
    struct block **at = &c->unsent;
    while (*at && (is_empty(buffer) || (*at)->number != buffer->number || (*at)->app != app))
        at = &(*at)->next;
    return at;
}

uint32_t fsw_raw_allocate_buffer(struct fsw_core *core, uint32_t app, uint32_t size,
                                 struct fsw_buffer *buffer)
{
    struct core *c = opened(core);
    uint32_t why = unasked(c, app);
    if (why)
        return why;
    if (!is_empty(buffer))
        return FSW_BUFFER_OUT;
    if (unsent_of(c, app) >= c->limits.buffers)
        return FSW_NO_ROOM;
    if (size < LEAST_MESSAGE)
        return counted(&c->counters.send, FSW_SB_BAD_ARGUMENT);
    if (size > c->limits.msgmax)
        return counted(&c->counters.send, FSW_SB_MSG_TOO_BIG);
    if (!fits(&c->bus_pool, size, 1))
        return counted(&c->counters.send, FSW_SB_BUF_ALOC_ERR);
    struct block *block = new_block(c, size);
    see(c);
    block->app = app;
    block->number = ++c->numbers;
    block->next = c->unsent;
    c->unsent = block;
    *buffer = (struct fsw_buffer){block->at, SIZES[block->class], block->number, 1};
    return FSW_SUCCESS;
}

uint32_t fsw_raw_transmit_buffer(struct fsw_core *core, uint32_t app, struct fsw_buffer *buffer,
                                 bool counts, struct fsw_sent *sent)
{
    struct core *c = opened(core);
    uint32_t why = unasked(c, app);
    if (why)
        return why;
    struct block **at = own_buffer(c, app, buffer), *block = *at;
    if (!block)
        return counted(&c->counters.send, FSW_SB_BUFFER_INVALID);
    if (size_in(block->at) > block->size || !is_id(id_in(block->at)))
        return counted(&c->counters.send, FSW_SB_BAD_ARGUMENT);
    *at = block->next;
    *buffer = (struct fsw_buffer){NULL, 0, 0, 0};
    if (subs_of(c, id_in(block->at)) == 0) {
        go_nowhere(c, id_in(block->at), sent);
        free_block(c, block);
    } else {
        deliver(c, app, block, counts, sent);
    }
    return FSW_SUCCESS;
}

uint32_t fsw_raw_release_buffer(struct fsw_core *core, uint32_t app, struct fsw_buffer *buffer)
{
    struct core *c = opened(core);
    uint32_t why = unasked(c, app);
    if (why)
        return why;
    struct block **at = own_buffer(c, app, buffer), *block = *at;
    if (!block)
        return counted(&c->counters.send, FSW_SB_BUFFER_INVALID);
    *at = block->next;
    free_block(c, block);
    *buffer = (struct fsw_buffer){NULL, 0, 0, 0};
    return FSW_SUCCESS;
}

/* ---- Receives ---- */

static void tell_message(const struct block *block, struct fsw_message *message)
{
    *message = (struct fsw_message){block->at, size_in(block->at), block->number};
}

static uint32_t take_message(struct core *c, struct pipe *pipe, struct fsw_message *message)
{
    let_last_go(c, pipe);
    if (pipe->length == 0)
        return FSW_SB_NO_MESSAGE;
    pipe->last = pipe->queue[0].block;
    take_first(c, pipe);
    tell_message(pipe->last, message);
    return FSW_SUCCESS;
}

uint32_t fsw_raw_receive(struct fsw_core *core, uint32_t app, uint32_t pipe,
                         struct fsw_message *message)
{
    struct core *c = opened(core);
    uint32_t why = unasked(c, app);
    if (why)
        return why;
    struct pipe *found = own_pipe(c, app, pipe);
    if (!found)
        return counted(&c->counters.recv, FSW_SB_BAD_ARGUMENT);
    return take_message(c, found, message);
}

static bool are_others_idle(const struct core *c, uint32_t app)
{
    for (uint32_t i = 1; i <= c->limits.apps; i++) {
        const struct app *other = &c->app[i];
        if (i != app && !other->ended &&
            !(other->waits_on && pipe_at(c, other->waits_on)->length == 0))
            return false;
    }
    return true;
}

static uint32_t wait_or_take(struct core *c, uint32_t app, struct pipe *pipe,
                             struct fsw_message *message)
{
    uint32_t status = take_message(c, pipe, message);
    if (status == FSW_SUCCESS)
        return status;
    return are_others_idle(c, app) ? FSW_SB_TIME_OUT : FSW_PENDING;
}

uint32_t fsw_raw_pend(struct fsw_core *core, uint32_t app, uint32_t pipe,
                      struct fsw_message *message)
{
    struct core *c = opened(core);
    uint32_t why = unasked(c, app);
    if (why)
        return why;
    struct pipe *found = own_pipe(c, app, pipe);
    if (!found)
        return counted(&c->counters.recv, FSW_SB_BAD_ARGUMENT);
    uint32_t status = wait_or_take(c, app, found, message);
    c->app[app].waits_on = status == FSW_PENDING ? pipe : 0;
    return status;
}

uint32_t fsw_raw_look(struct fsw_core *core, uint32_t app, struct fsw_message *message)
{
    struct core *c = opened(core);
    if (!c)
        return FSW_CLOSED;
    if (!is_known(c, app))
        return FSW_NO_APPLICATION;
    if (c->app[app].ended || !c->app[app].waits_on)
        return FSW_NOT_ACTIVE;
    uint32_t status = wait_or_take(c, app, pipe_at(c, c->app[app].waits_on), message);
    if (status != FSW_PENDING)
        c->app[app].waits_on = 0;
    return status;
}

/* ---- Memory pools of applications ---- */

static struct pool *pool_at(struct core *c, uint32_t pool)
{
    return within(pool, 1, c->pools) ? &c->pool[pool - 1] : NULL;
}

static struct cut *cut_of(struct pool *pool, uint64_t grant)
{
    for (uint32_t i = 0; i < pool->cuts; i++)
        if (pool->cut[i].out && pool->cut[i].grant == grant)
            return &pool->cut[i];
    return NULL;
}

uint32_t fsw_raw_pool_create(struct fsw_core *core, uint32_t app, uint32_t bytes, uint32_t *pool)
{
    struct core *c = opened(core);
    uint32_t why = unasked(c, app);
    if (why)
        return why;
    const uint32_t least = SIZES[c->bus_pool.first] + OVERHEAD;
    if (c->pools == MOST_POOLS || !within(bytes, least, c->limits.apppool))
        return FSW_ES_ERR_MEM_BLOCK_SIZE;
    struct pool *made = &c->pool[c->pools++];
    made->account.bytes = made->account.rest = bytes;
    made->account.first = c->bus_pool.first;
    made->cut = zeros(bytes / least, sizeof *made->cut);
    *pool = c->pools;
    return FSW_SUCCESS;
}

static struct cut *draw_cut(struct pool *pool, uint32_t class)
{
    uint32_t used = pool->account.bytes - pool->account.rest;
    if (draw(&pool->account, class)) {
        struct cut *cut = &pool->cut[pool->cuts++];
        cut->offset = used + OVERHEAD;
        cut->class = class;
        return cut;
    }
    for (uint32_t i = 0; i < pool->cuts; i++)
        if (!pool->cut[i].out && pool->cut[i].class == class)
            return &pool->cut[i];
    abort();
}

uint32_t fsw_raw_pool_get(struct fsw_core *core, uint32_t app, uint32_t pool, uint32_t size,
                          uint64_t *grant)
{
    struct core *c = opened(core);
    uint32_t why = unasked(c, app);
    if (why)
        return why;
    struct pool *found = pool_at(c, pool);
    if (!found)
        return FSW_ES_NO_SUCH_POOL;
    if (!fits(&found->account, size, 1))
        return FSW_ES_ERR_MEM_BLOCK_SIZE;
    struct cut *cut = draw_cut(found, class_of(&found->account, size));
    cut->out = true;
    cut->app = app;
    cut->grant = ++found->given;
    *grant = cut->grant;
    return FSW_SUCCESS;
}

/* Why the grant isn't out. */
static uint32_t not_out(const struct pool *pool, uint64_t grant)
{
    return grant == 0 || grant > pool->given ? FSW_ES_BUFFER_NOT_IN_POOL
                                             : FSW_ES_POOL_BLOCK_INVALID;
}

uint32_t fsw_raw_pool_put(struct fsw_core *core, uint32_t app, uint32_t pool, uint64_t grant)
{
    struct core *c = opened(core);
    uint32_t why = unasked(c, app);
    if (why)
        return why;
    struct pool *found = pool_at(c, pool);
    if (!found)
        return FSW_ES_NO_SUCH_POOL;
    struct cut *cut = cut_of(found, grant);
    if (!cut)
        return counted(&found->account.errors, not_out(found, grant));
    cut->out = false;
    found->account.out[cut->class]--;
    return FSW_SUCCESS;
}

uint32_t fsw_raw_pool_stats(struct fsw_core *core, uint32_t pool, struct fsw_pool_stats *stats)
{
    struct core *c = opened(core);
    if (!c)
        return FSW_CLOSED;
    struct pool *found = pool_at(c, pool);
    if (!found)
        return FSW_ES_NO_SUCH_POOL;
    tell_account(&found->account, stats);
    return FSW_SUCCESS;
}

uint32_t fsw_raw_pool_class(struct fsw_core *core, uint32_t pool, uint32_t place,
                            struct fsw_class_stats *stats)
{
    struct core *c = opened(core);
    if (!c)
        return FSW_CLOSED;
    struct pool *found = pool_at(c, pool);
    if (!found)
        return FSW_ES_NO_SUCH_POOL;
    const struct account *account = &found->account;
    if (place >= CLASSES - account->first)
        return FSW_ES_BAD_ARGUMENT;
    place += account->first;
    *stats = (struct fsw_class_stats){SIZES[place], account->made[place],
                                      account->made[place] - account->out[place]};
    return FSW_SUCCESS;
}

uint32_t fsw_raw_pool_block(struct fsw_core *core, uint32_t pool, uint64_t grant,
                            struct fsw_pool_block *block)
{
    struct core *c = opened(core);
    if (!c)
        return FSW_CLOSED;
    struct pool *found = pool_at(c, pool);
    if (!found)
        return FSW_ES_NO_SUCH_POOL;
    const struct cut *cut = cut_of(found, grant);
    if (!cut)
        return not_out(found, grant);
    *block = (struct fsw_pool_block){cut->offset, SIZES[cut->class]};
    return FSW_SUCCESS;
}

/* ---- Events of applications ---- */

uint32_t fsw_raw_register(struct fsw_core *core, uint32_t app, const struct fsw_filter *filters,
                          size_t filters_len)
{
    struct core *c = opened(core);
    uint32_t why = unasked_with(c, app, filters_len, MOST_LIST);
    if (why)
        return why;
    for (size_t i = 0; i < filters_len; i++)
        for (size_t k = 0; k < i; k++)
            if (filters[i].id == filters[k].id)
                return FSW_EVS_INVALID_PARAMETER;
    struct app *who = &c->app[app];
    who->registered = true;
    who->filters = (uint32_t)filters_len;
    memset(who->seen, 0, sizeof who->seen);
    for (size_t i = 0; i < filters_len; i++)
        who->filter[i] = filters[i];
    return FSW_SUCCESS;
}

/* Whether the event passes; its filter counts it. */
static bool passes(struct app *who, uint16_t id)
{
    for (uint32_t i = 0; i < who->filters; i++) {
        if (who->filter[i].id != id)
            continue;
        bool open = (who->seen[i] & who->filter[i].mask) == 0;
        if (who->seen[i] < UINT16_MAX)
            who->seen[i]++;
        return open;
    }
    return true;
}

uint32_t fsw_raw_send_event(struct fsw_core *core, uint32_t app, uint16_t id, uint32_t kind,
                            const uint8_t *text, size_t text_len, uint32_t *passed)
{
    struct core *c = opened(core);
    uint32_t why = unasked_with(c, app, text_len, MOST_EVENT);
    if (why)
        return why;
    if (!within(kind, FSW_EVENT_DEBUG, FSW_EVENT_CRITICAL))
        return FSW_EVS_INVALID_PARAMETER;
    if (!c->app[app].registered)
        return counted(&c->events.refused, FSW_EVS_APP_NOT_REGISTERED);
    *passed = passes(&c->app[app], id);
    if (*passed)
        log_event(c, app, id, kind, text, text_len);
    else
        c->events.filtered++;
    return FSW_SUCCESS;
}

uint32_t fsw_raw_reset_filter(struct fsw_core *core, uint32_t app, uint16_t id)
{
    struct core *c = opened(core);
    uint32_t why = unasked(c, app);
    if (why)
        return why;
    struct app *who = &c->app[app];
    if (!who->registered)
        return counted(&c->events.refused, FSW_EVS_APP_NOT_REGISTERED);
    for (uint32_t i = 0; i < who->filters; i++)
        if (who->filter[i].id == id) {
            who->seen[i] = 0;
            return FSW_SUCCESS;
        }
    return counted(&c->events.refused, FSW_EVS_EVT_NOT_REGISTERED);
}

uint32_t fsw_raw_set_log_mode(struct fsw_core *core, uint32_t app, uint8_t mode)
{
    struct core *c = opened(core);
    uint32_t why = unasked(c, app);
    if (why)
        return why;
    if (mode > 1)
        return FSW_EVS_INVALID_PARAMETER;
    c->events.mode = mode;
    return FSW_SUCCESS;
}

uint32_t fsw_raw_clear_log(struct fsw_core *core, uint32_t app)
{
    struct core *c = opened(core);
    uint32_t why = unasked(c, app);
    if (why)
        return why;
    c->events.logged = 0;
    return FSW_SUCCESS;
}

uint32_t fsw_raw_log_line(struct fsw_core *core, uint32_t place, struct fsw_log_line *line)
{
    struct core *c = opened(core);
    if (!c)
        return FSW_CLOSED;
    if (place >= c->events.logged)
        return FSW_EVS_INVALID_PARAMETER;
    const struct line *found = &c->log[place];
    *line = (struct fsw_log_line){found->app, found->id, found->kind, found->text, found->len};
    return FSW_SUCCESS;
}

uint32_t fsw_raw_event_counts(struct fsw_core *core, struct fsw_event_counts *counts)
{
    struct core *c = opened(core);
    if (!c)
        return FSW_CLOSED;
    *counts = c->events;
    return FSW_SUCCESS;
}

/* ---- Counters ---- */

static void put_number(uint8_t *at, uint32_t number)
{
    for (int i = 0; i < 4; i++)
        at[i] = (uint8_t)(number >> (24 - 8 * i));
}

uint32_t fsw_raw_send_housekeeping(struct fsw_core *core, uint32_t app, struct fsw_sent *sent)
{
    struct core *c = opened(core);
    uint32_t why = unasked(c, app);
    if (why)
        return why;
    uint8_t packet[HK_BYTES] = {0x08, 0x03, 0xc0, 0, 0, HK_BYTES - LEAST_MESSAGE};
    const uint32_t *counters = &c->counters.nosub;
    const uint32_t now[4] = {c->now.msgids, c->now.pipes, c->now.subs, c->now.bytes};
    for (int i = 0; i < 10; i++)
        put_number(packet + HEADER + 4 * i, counters[i]);
    for (int i = 0; i < 4; i++)
        put_number(packet + HEADER + 40 + 4 * i, now[i]);
    return send_bytes(c, app, packet, sizeof packet, true, sent);
}

uint32_t fsw_raw_counters(struct fsw_core *core, struct fsw_counters *counters)
{
    struct core *c = opened(core);
    if (!c)
        return FSW_CLOSED;
    *counters = c->counters;
    return FSW_SUCCESS;
}

uint32_t fsw_raw_use(struct fsw_core *core, struct fsw_use *now, struct fsw_use *peak)
{
    struct core *c = opened(core);
    if (!c)
        return FSW_CLOSED;
    *now = c->now;
    *peak = c->peak;
    return FSW_SUCCESS;
}

/* ---- Tables ---- */

/* A call of Table Services is open to an application that waits. */
static uint32_t unasked_table(const struct core *c, uint32_t app)
{
    if (!c)
        return FSW_CLOSED;
    if (!is_known(c, app))
        return FSW_NO_APPLICATION;
    return c->app[app].ended ? FSW_NOT_ACTIVE : FSW_SUCCESS;
}

static struct handle *handle_at(const struct core *c, uint32_t number)
{
    struct handle *handle = c->handle;
    while (handle && handle->number != number)
        handle = handle->next;
    return handle;
}

/* Finds a handle of the caller's, or says why not. */
static uint32_t own_handle(const struct core *c, uint32_t app, uint32_t number,
                           struct handle **handle)
{
    uint32_t why = unasked_table(c, app);
    if (why)
        return why;
    *handle = handle_at(c, number);
    if (!*handle)
        return FSW_TBL_ERR_INVALID_HANDLE;
    return (*handle)->app == app ? FSW_SUCCESS : FSW_TBL_ERR_NO_ACCESS;
}

/* The same of a handle whose table is registered. */
static uint32_t own_table(const struct core *c, uint32_t app, uint32_t number,
                          struct handle **handle)
{
    uint32_t why = own_handle(c, app, number, handle);
    if (why)
        return why;
    return (*handle)->table->owner ? FSW_SUCCESS : FSW_TBL_ERR_UNREGISTERED;
}

static struct table *table_named(const struct core *c, const uint8_t *name, size_t len)
{
    struct table *table = c->table;
    while (table &&
           (!table->owner || table->name_len != len || memcmp(table->name, name, len) != 0))
        table = table->next;
    return table;
}

static struct value *new_value(uint32_t size, uint64_t version, const uint8_t *bytes)
{
    struct value *value = zeros(1, sizeof *value);
    value->bytes = zeros(1, size);
    value->version = version;
    if (bytes)
        memcpy(value->bytes, bytes, size);
    return value;
}

static void free_value(struct value *value)
{
    if (value)
        free(value->bytes);
    free(value);
}

static uint32_t add_handle(struct core *c, uint32_t app, struct table *table)
{
    struct handle *handle = zeros(1, sizeof *handle);
    *handle = (struct handle){++c->handles_made, app, table, 0, NULL, c->handle};
    c->handle = handle;
    c->tables.handles++;
    table->handles++;
    return handle->number;
}

static bool has_misfit(uint32_t size, const struct fsw_rule *rules, size_t len)
{
    for (size_t i = 0; i < len; i++)
        if (rules[i].offset >= size || rules[i].low > rules[i].high)
            return true;
    return false;
}

static uint32_t blocks_of(uint32_t option)
{
    return option == FSW_TABLE_DOUBLE ? 2 : 1;
}

static struct table *add_table(struct core *c, uint32_t app, const uint8_t *name, size_t name_len,
                               uint32_t size, uint32_t option)
{
    struct table *table = zeros(1, sizeof *table);
    table->app = app;
    table->size = size;
    table->option = option;
    table->name_len = (uint32_t)name_len;
    memcpy(table->name, name, name_len);
    table->present = new_value(size, 0, NULL);
    for (uint32_t i = 0; i < blocks_of(option); i++)
        draw(&c->table_pool, class_of(&c->table_pool, size));
    table->next = c->table;
    c->table = table;
    c->tables.tables++;
    c->tables.bytes += blocks_of(option) * SIZES[class_of(&c->table_pool, size)];
    return table;
}

/* Why a table that nobody registered can't be. */
static uint32_t no_new_table(const struct core *c, uint32_t size, uint32_t option)
{
    if (c->tables.tables >= c->limits.tables)
        return FSW_TBL_ERR_REGISTRY_FULL;
    if (c->tables.handles >= c->limits.handles)
        return FSW_TBL_ERR_HANDLES_FULL;
    return fits(&c->table_pool, size, blocks_of(option)) ? FSW_SUCCESS : FSW_ES_ERR_MEM_BLOCK_SIZE;
}

uint32_t fsw_raw_table_register(struct fsw_core *core, uint32_t app, const uint8_t *name,
                                size_t name_len, uint32_t size, uint32_t option,
                                const struct fsw_rule *rules, size_t rules_len, uint32_t *handle)
{
    struct core *c = opened(core);
    uint32_t why = unasked_table(c, app);
    if (why)
        return why;
    if (rules_len > MOST_LIST)
        return FSW_TOO_LONG;
    if (!within((uint32_t)name_len, 1, 15))
        return FSW_TBL_ERR_INVALID_NAME;
    if (!within(size, 1, c->limits.tablemax))
        return FSW_TBL_ERR_INVALID_SIZE;
    if (option > FSW_TABLE_DUMP_ONLY || has_misfit(size, rules, rules_len))
        return FSW_TBL_ERR_INVALID_OPTIONS;
    struct table *table = table_named(c, name, name_len);
    if (table) {
        if (table->app != app)
            return FSW_TBL_ERR_DUPLICATE_NOT_OWNED;
        if (table->size != size)
            return FSW_TBL_ERR_DUPLICATE_DIFF_SIZE;
        *handle = table->owner;
        return FSW_TBL_WARN_DUPLICATE;
    }
    why = no_new_table(c, size, option);
    if (why)
        return why;
    table = add_table(c, app, name, name_len, size, option);
    table->rules = (uint32_t)rules_len;
    for (size_t i = 0; i < rules_len; i++)
        table->rule[i] = rules[i];
    table->owner = *handle = add_handle(c, app, table);
    return FSW_SUCCESS;
}

uint32_t fsw_raw_table_share(struct fsw_core *core, uint32_t app, const uint8_t *name,
                             size_t name_len, uint32_t *handle)
{
    struct core *c = opened(core);
    uint32_t why = unasked_table(c, app);
    if (why)
        return why;
    struct table *table = table_named(c, name, name_len);
    if (!table)
        return FSW_TBL_ERR_INVALID_NAME;
    if (c->tables.handles >= c->limits.handles)
        return FSW_TBL_ERR_HANDLES_FULL;
    *handle = add_handle(c, app, table);
    return FSW_SUCCESS;
}

static void let_hold_go(struct table *table, struct handle *handle)
{
    struct value *hold = handle->hold;
    handle->hold = NULL;
    if (!hold || --hold->holds > 0 || hold == table->present)
        return;
    table->older = NULL;
    free_value(hold);
}

static void drop_staged(struct table *table)
{
    free(table->staged);
    table->staged = NULL;
    table->staged_state = 0;
}

static void remove_table(struct core *c, struct table *table)
{
    for (uint32_t i = 0; i < blocks_of(table->option); i++)
        c->table_pool.out[class_of(&c->table_pool, table->size)]--;
    c->tables.tables--;
    c->tables.bytes -= blocks_of(table->option) * SIZES[class_of(&c->table_pool, table->size)];
    struct table **at = &c->table;
    while (*at != table)
        at = &(*at)->next;
    *at = table->next;
    free_value(table->present);
    free(table->staged);
    free(table);
}

static void drop_handle(struct core *c, struct handle *handle)
{
    struct table *table = handle->table;
    let_hold_go(table, handle);
    if (table->owner == handle->number) {
        table->owner = 0;
        drop_staged(table);
    }
    struct handle **at = &c->handle;
    while (*at != handle)
        at = &(*at)->next;
    *at = handle->next;
    free(handle);
    c->tables.handles--;
    if (--table->handles == 0)
        remove_table(c, table);
}

uint32_t fsw_raw_table_unregister(struct fsw_core *core, uint32_t app, uint32_t handle)
{
    struct handle *found;
    uint32_t why = own_handle(opened(core), app, handle, &found);
    if (!why)
        drop_handle(opened(core), found);
    return why;
}

static uint32_t single_staged(const struct core *c)
{
    uint32_t count = 0;
    for (struct table *table = c->table; table; table = table->next)
        count += table->option == FSW_TABLE_SINGLE && table->staged;
    return count;
}

/* Why these bytes can't be staged. */
static uint32_t unstaged(const struct core *c, const struct table *table, uint32_t offset,
                         size_t len)
{
    if (table->option == FSW_TABLE_DUMP_ONLY)
        return FSW_TBL_ERR_DUMP_ONLY;
    if ((uint64_t)offset + len > table->size)
        return FSW_TBL_ERR_FILE_TOO_LARGE;
    if (table->present->version == 0 && len != table->size)
        return FSW_TBL_ERR_PARTIAL_LOAD;
    if (table->staged)
        return FSW_TBL_ERR_LOAD_IN_PROGRESS;
    if (table->older)
        return FSW_TBL_INFO_TABLE_LOCKED;
    if (table->option == FSW_TABLE_SINGLE && single_staged(c) >= 4)
        return FSW_TBL_ERR_NO_BUFFER_AVAIL;
    return FSW_SUCCESS;
}

static uint32_t loadable(const struct core *c, uint32_t app, uint32_t handle, uint32_t offset,
                         size_t len, struct handle **found)
{
    uint32_t why = unasked_table(c, app);
    if (why)
        return why;
    if (!within((uint32_t)(len > 65536 ? 0 : len), 1, 65536) || offset > 65536)
        return FSW_TOO_LONG;
    why = own_table(c, app, handle, found);
    return why ? why : unstaged(c, (*found)->table, offset, len);
}

static void stage(struct table *table, uint32_t offset, const uint8_t *bytes, size_t len)
{
    table->staged = zeros(1, table->size);
    memcpy(table->staged, table->present->bytes, table->size);
    memcpy(table->staged + offset, bytes, len);
    table->staged_state = 1;
}

uint32_t fsw_raw_table_stage(struct fsw_core *core, uint32_t app, uint32_t handle, uint32_t offset,
                             const uint8_t *bytes, size_t bytes_len)
{
    struct handle *found;
    uint32_t why = loadable(opened(core), app, handle, offset, bytes_len, &found);
    if (!why)
        stage(found->table, offset, bytes, bytes_len);
    return why;
}

uint32_t fsw_raw_table_staged(struct fsw_core *core, uint32_t app, uint32_t handle,
                              struct fsw_bytes *bytes)
{
    struct handle *found;
    uint32_t why = own_table(opened(core), app, handle, &found);
    if (why)
        return why;
    if (!found->table->staged)
        return FSW_TBL_INFO_NO_LOAD;
    *bytes = (struct fsw_bytes){found->table->staged, found->table->size};
    return FSW_SUCCESS;
}

/* Why the staged value isn't valid: the first rule that it fails. */
static uint32_t failed_rule(const struct table *table)
{
    for (uint32_t i = 0; i < table->rules; i++)
        if (!within(table->staged[table->rule[i].offset], table->rule[i].low, table->rule[i].high))
            return FSW_RULE_FAILED(i + 1);
    return FSW_SUCCESS;
}

uint32_t fsw_raw_table_validate(struct fsw_core *core, uint32_t app, uint32_t handle)
{
    struct handle *found;
    uint32_t why = own_table(opened(core), app, handle, &found);
    if (why)
        return why;
    if (!found->table->staged)
        return FSW_TBL_INFO_NO_LOAD;
    why = failed_rule(found->table);
    if (!why)
        found->table->staged_state = 2;
    return why;
}

static bool is_locked(const struct table *table)
{
    return table->option != FSW_TABLE_DOUBLE && table->present->holds > 0;
}

static void update(struct table *table)
{
    struct value *before = table->present;
    table->present = new_value(table->size, before->version + 1, table->staged);
    if (before->holds > 0)
        table->older = before;
    else
        free_value(before);
    drop_staged(table);
}

uint32_t fsw_raw_table_update(struct fsw_core *core, uint32_t app, uint32_t handle)
{
    struct handle *found;
    uint32_t why = own_table(opened(core), app, handle, &found);
    if (why)
        return why;
    if (!found->table->staged)
        return FSW_TBL_INFO_NO_UPDATE_PENDING;
    if (found->table->staged_state != 2)
        return FSW_TBL_INFO_NOT_VALIDATED;
    if (is_locked(found->table))
        return FSW_TBL_INFO_TABLE_LOCKED;
    update(found->table);
    return FSW_SUCCESS;
}

uint32_t fsw_raw_table_abort(struct fsw_core *core, uint32_t app, uint32_t handle)
{
    struct handle *found;
    uint32_t why = own_table(opened(core), app, handle, &found);
    if (why)
        return why;
    if (!found->table->staged)
        return FSW_TBL_INFO_NO_LOAD;
    drop_staged(found->table);
    return FSW_SUCCESS;
}

uint32_t fsw_raw_table_load(struct fsw_core *core, uint32_t app, uint32_t handle, uint32_t offset,
                            const uint8_t *bytes, size_t bytes_len)
{
    struct handle *found;
    uint32_t why = loadable(opened(core), app, handle, offset, bytes_len, &found);
    if (why)
        return why;
    struct table *table = found->table;
    stage(table, offset, bytes, bytes_len);
    why = failed_rule(table);
    if (!why && is_locked(table))
        why = FSW_TBL_INFO_TABLE_LOCKED;
    if (why)
        drop_staged(table);
    else
        update(table);
    return why;
}

uint32_t fsw_raw_table_get_address(struct fsw_core *core, uint32_t app, uint32_t handle,
                                   struct fsw_address *address)
{
    struct handle *found;
    uint32_t why = own_table(opened(core), app, handle, &found);
    if (why)
        return why;
    struct table *table = found->table;
    let_hold_go(table, found);
    found->hold = table->present;
    found->hold->holds++;
    *address = (struct fsw_address){found->hold->bytes, table->size, found->hold->version};
    uint64_t before = found->told;
    found->told = found->hold->version;
    if (found->hold->version == 0)
        return FSW_TBL_ERR_NEVER_LOADED;
    return before == found->told ? FSW_SUCCESS : FSW_TBL_INFO_UPDATED;
}

uint32_t fsw_raw_table_release_address(struct fsw_core *core, uint32_t app, uint32_t handle)
{
    struct handle *found;
    uint32_t why = own_handle(opened(core), app, handle, &found);
    if (!why)
        let_hold_go(found->table, found);
    return why;
}

uint32_t fsw_raw_table_status(struct fsw_core *core, uint32_t app, uint32_t handle,
                              struct fsw_table_status *figures)
{
    struct handle *found;
    uint32_t why = own_handle(opened(core), app, handle, &found);
    if (why)
        return why;
    const struct table *table = found->table;
    *figures = (struct fsw_table_status){.version = table->present->version,
                                         .staged = table->staged ? table->staged_state : 0,
                                         .holds = table->present->holds +
                                                  (table->older ? table->older->holds : 0),
                                         .loaded = table->present->version > 0};
    return FSW_SUCCESS;
}

uint32_t fsw_raw_table_use(struct fsw_core *core, struct fsw_table_use *now)
{
    struct core *c = opened(core);
    if (!c)
        return FSW_CLOSED;
    *now = c->tables;
    return FSW_SUCCESS;
}

/* ---- Ends ---- */

static void end_tables(struct core *c, uint32_t app)
{
    for (struct handle *handle = c->handle, *next; handle; handle = next) {
        next = handle->next;
        if (handle->app == app)
            drop_handle(c, handle);
    }
}

static void end_bus(struct core *c, uint32_t app)
{
    for (struct pipe *pipe = c->pipe, *next; pipe; pipe = next) {
        next = pipe->next;
        if (pipe->app == app)
            remove_pipe(c, pipe);
    }
    for (uint32_t i = 0; i < c->pools; i++)
        for (uint32_t k = 0; k < c->pool[i].cuts; k++) {
            struct cut *cut = &c->pool[i].cut[k];
            if (cut->out && cut->app == app) {
                cut->out = false;
                c->pool[i].account.out[cut->class]--;
            }
        }
}

uint32_t fsw_raw_end(struct fsw_core *core, uint32_t app)
{
    struct core *c = opened(core);
    uint32_t why = unasked_table(c, app);
    if (why)
        return why;
    if (unsent_of(c, app) > 0)
        return FSW_BUFFER_OUT;
    end_tables(c, app);
    end_bus(c, app);
    c->app[app] = (struct app){.ended = true};
    return FSW_SUCCESS;
}

uint32_t fsw_raw_close(struct fsw_core *core)
{
    struct core *c = opened(core);
    if (!c)
        return FSW_CLOSED;
    for (uint32_t app = 1; app <= c->limits.apps; app++) {
        end_tables(c, app);
        end_bus(c, app);
    }
    while (c->unsent) {
        struct block *block = c->unsent;
        c->unsent = block->next;
        free_block(c, block);
    }
    while (c->route) {
        struct route *route = c->route;
        c->route = route->next;
        free(route);
    }
    for (uint32_t i = 0; i < c->pools; i++)
        free(c->pool[i].cut);
    free(c);
    *core = (struct fsw_core){NULL, 0};
    return FSW_SUCCESS;
}

/* ---- Packets and files ---- */

uint32_t fsw_raw_read_header(const uint8_t *bytes, size_t bytes_len, struct fsw_header *header)
{
    if (bytes_len < HEADER)
        return FSW_SB_BAD_ARGUMENT;
    uint16_t word = (uint16_t)(bytes[2] << 8 | bytes[3]);
    *header =
        (struct fsw_header){size_in(bytes), id_in(bytes), word & 0x3fff, (uint8_t)(word >> 14)};
    return FSW_SUCCESS;
}

uint32_t fsw_raw_write_header(uint8_t *bytes, size_t bytes_len, uint16_t id, uint16_t count)
{
    if (bytes_len < LEAST_MESSAGE || bytes_len > MOST_SEND || !is_id(id) || count > 16383)
        return FSW_SB_BAD_ARGUMENT;
    size_t length = bytes_len - LEAST_MESSAGE;
    const uint8_t header[HEADER] = {(uint8_t)(id >> 8),           (uint8_t)id,
                                    (uint8_t)(0xc0 | count >> 8), (uint8_t)count,
                                    (uint8_t)(length >> 8),       (uint8_t)length};
    memcpy(bytes, header, HEADER);
    return FSW_SUCCESS;
}

uint32_t fsw_raw_set_count(uint8_t *bytes, size_t bytes_len, uint16_t count)
{
    if (bytes_len < HEADER || count > 16383)
        return FSW_SB_BAD_ARGUMENT;
    put_count(bytes, count);
    return FSW_SUCCESS;
}

uint32_t fsw_raw_function_code(const uint8_t *bytes, size_t bytes_len, uint8_t *code)
{
    if (bytes_len < LEAST_MESSAGE)
        return FSW_SB_BAD_ARGUMENT;
    if ((bytes[0] & 0x18) != 0x18)
        return FSW_SB_WRONG_MSG_TYPE;
    *code = bytes[HEADER] & 0x7f;
    return FSW_SUCCESS;
}

uint32_t fsw_raw_set_function_code(uint8_t *bytes, size_t bytes_len, uint8_t code)
{
    if (bytes_len < LEAST_MESSAGE || code > 127)
        return FSW_SB_BAD_ARGUMENT;
    if ((bytes[0] & 0x18) != 0x18)
        return FSW_SB_WRONG_MSG_TYPE;
    bytes[HEADER] = (uint8_t)((bytes[HEADER] & 0x80) | code);
    return FSW_SUCCESS;
}

static uint32_t number_at(const uint8_t *at)
{
    return (uint32_t)at[0] << 24 | (uint32_t)at[1] << 16 | (uint32_t)at[2] << 8 | at[3];
}

uint32_t fsw_raw_read_image(const uint8_t *file, size_t file_len, struct fsw_image *image)
{
    enum { HEADERS = 116, NAME_AT = 76, NAME_BYTES = 40 };
    if (file_len < HEADERS)
        return FSW_TBL_ERR_NO_STD_HEADER;
    if (number_at(file) != 0x63464531)
        return FSW_TBL_ERR_BAD_CONTENT_ID;
    size_t name_len = strnlen((const char *)file + NAME_AT, NAME_BYTES);
    bool visible = true;
    for (size_t i = 0; i < name_len; i++)
        visible = visible && within(file[NAME_AT + i], 0x21, 0x7e);
    if (name_len == 0 || name_len == NAME_BYTES || !visible)
        return FSW_TBL_ERR_NO_TBL_HEADER;
    uint32_t said = number_at(file + 72);
    if (said == 0 || said != file_len - HEADERS)
        return FSW_TBL_ERR_FILE_SIZE;
    *image = (struct fsw_image){{file + 32, 32},
                                {file + NAME_AT, name_len},
                                {file + HEADERS, said},
                                number_at(file + 68)};
    return FSW_SUCCESS;
}
