/* A bus by hand, for the comparison with cost_bus: a mutex round each call, a message in a block that counts its uses, a ring
 * of blocks for each pipe, free lists of blocks by size, and a table of two blocks. It does what the bus's core does for the
 * same calls: it checks its arguments, counts what it refuses, keeps the number and the bytes of the blocks in use with their
 * peaks, gives each id its own sequence count, and each subscription its limit. It writes no journal and tells no event.
 * Build with cc -O2 -pthread.
 *
 *     plain_bus WORD ROUNDS [APPLICATIONS [parked]]
 *
 * send1, fan16    a message of 64 bytes is sent to 1 or 16 pipes, and received on each
 * big, fanbig     the same with 32768 bytes
 * zc              a buffer of 64 bytes is asked for, written, sent as it lies, and received on 1 pipe
 * table           16384 bytes are loaded into a table, its address is taken, a byte is read, and the address goes back
 * port1, port16   as send1 and fan16, by 1, 2 or 4 applications, each of several on a thread of its own and with ids of its own
 *
 * With `parked` a second thread sleeps meanwhile: some C libraries leave a mutex's atomic steps out while a process has one thread.
 */
#include <pthread.h>
#include <stdbool.h>
#include <stdint.h>
#include <stdio.h>
#include <stdlib.h>
#include <string.h>
#include <unistd.h>

/* So that what is known of a share where it is made is known in its rounds. */
#define ALWAYS_INLINE static inline __attribute__((always_inline))

enum { IDS = 4, MOST_ROUTES = 256, MOST_PIPES = 64, MOST_DESTS = 16, DEPTH = 256, MOST_BUFFERS = 64, CLASSES = 17 };
enum { MOST_MESSAGE = 32768, LEAST_MESSAGE = 7, TABLE_BYTES = 16384, POOL_BYTES = 524288, NONE = 0 };

enum status { DONE, BAD_ARGUMENT, TOO_BIG, NO_BLOCK, NO_MESSAGE, NO_SUBSCRIBERS };

static const uint32_t SIZES[CLASSES] = {8,   16,   32,   48,   64,   96,    128,   160,  256,
                                        512, 1024, 2048, 4096, 8192, 16384, 32768, 80000};

/* A block of the pool, and how many pipes name it. */
struct block {
    struct block *next;
    uint32_t uses;
    uint32_t size;
    uint32_t class;
    uint32_t owner;
    uint8_t bytes[];
};

struct dest {
    uint32_t pipe;
    uint32_t limit;
    uint32_t waiting;
};

struct route {
    uint16_t id;
    uint16_t sequence;
    uint32_t dests;
    struct dest dest[MOST_DESTS];
};

struct waiting {
    struct block *block;
    struct dest *dest;
};

struct pipe {
    uint32_t owner;
    uint32_t depth;
    uint32_t first;
    uint32_t length;
    bool ignores_own;
    struct block *last;
    struct waiting ring[DEPTH];
};

struct table {
    uint32_t owner;
    uint32_t size;
    uint32_t version;
    uint32_t holds;
    uint32_t active;
    bool loaded;
    uint8_t *block[2];
};

struct bus {
    pthread_mutex_t mutex;
    uint8_t *pool;
    uint32_t cut;
    struct block *free[CLASSES];
    uint32_t buffers, most_buffers, bytes, most_bytes;
    uint32_t refused_sends, refused_receives, limit, overflow, unsubscribed;
    uint16_t route_of[65536];
    uint32_t routes;
    uint32_t pipes;
    struct route route[MOST_ROUTES];
    struct pipe pipe[MOST_PIPES];
    struct block *unsent[MOST_BUFFERS];
    struct table table;
};

static struct bus bus;

static uint32_t class_of(uint32_t size)
{
    for (uint32_t class = 0; class < CLASSES; class++)
        if (size <= SIZES[class])
            return class;
    return CLASSES;
}

/* A block for so many bytes: one that was given back, or one cut off the pool. */
static struct block *draw(uint32_t size)
{
    uint32_t class = class_of(size);
    if (class == CLASSES)
        return NULL;
    struct block *block = bus.free[class];
    if (block) {
        bus.free[class] = block->next;
    } else {
        uint32_t whole = (uint32_t)(sizeof *block + SIZES[class] + 7) / 8 * 8;
        if (whole > POOL_BYTES - bus.cut)
            return NULL;
        block = (struct block *)(bus.pool + bus.cut);
        bus.cut += whole;
        block->class = class;
    }
    block->uses = 0;
    block->size = size;
    block->owner = 0;
    bus.buffers++;
    bus.bytes += SIZES[class];
    if (bus.buffers > bus.most_buffers)
        bus.most_buffers = bus.buffers;
    if (bus.bytes > bus.most_bytes)
        bus.most_bytes = bus.bytes;
    return block;
}

static void give_back(struct block *block)
{
    bus.buffers--;
    bus.bytes -= SIZES[block->class];
    block->next = bus.free[block->class];
    bus.free[block->class] = block;
}

static void drop_use(struct block *block)
{
    if (--block->uses == 0)
        give_back(block);
}

static uint16_t id_in(const uint8_t *bytes)
{
    return (uint16_t)(bytes[0] << 8 | bytes[1]);
}

/* Whether the bytes are a message: an id, and a length that says how many they are. */
static bool is_message(const uint8_t *bytes, uint32_t size)
{
    return size >= LEAST_MESSAGE && (bytes[0] & 0xe0) == 0 && (uint32_t)(bytes[4] << 8 | bytes[5]) + LEAST_MESSAGE == size;
}

static void stamp(struct route *route, uint8_t *bytes, bool counts)
{
    if (!counts)
        return;
    route->sequence = (route->sequence + 1) & 0x3fff;
    bytes[2] = (uint8_t)((bytes[2] & 0xc0) | route->sequence >> 8);
    bytes[3] = (uint8_t)route->sequence;
}

/* Puts the block on each pipe of the route that takes it; gives it back where none does. Answers how many took it. */
static uint32_t deliver(struct route *route, struct block *block, uint32_t app)
{
    for (uint32_t i = 0; i < route->dests; i++) {
        struct dest *dest = &route->dest[i];
        struct pipe *pipe = &bus.pipe[dest->pipe - 1];
        if (pipe->ignores_own && pipe->owner == app)
            continue;
        if (dest->waiting >= dest->limit) {
            bus.limit++;
        } else if (pipe->length >= pipe->depth) {
            bus.overflow++;
        } else {
            pipe->ring[(pipe->first + pipe->length) % DEPTH] = (struct waiting){block, dest};
            pipe->length++;
            dest->waiting++;
            block->uses++;
        }
    }
    uint32_t reached = block->uses;
    if (reached == 0)
        give_back(block);
    return reached;
}

static enum status refuse_send(enum status status)
{
    bus.refused_sends++;
    return status;
}

ALWAYS_INLINE enum status send_bytes(uint32_t app, const uint8_t *bytes, uint32_t size, bool counts, uint32_t *reached)
{
    if (!is_message(bytes, size))
        return refuse_send(BAD_ARGUMENT);
    if (size > MOST_MESSAGE)
        return refuse_send(TOO_BIG);
    uint16_t place = bus.route_of[id_in(bytes)];
    if (place == NONE || bus.route[place - 1].dests == 0) {
        bus.unsubscribed++;
        return NO_SUBSCRIBERS;
    }
    struct block *block = draw(size);
    if (!block)
        return refuse_send(NO_BLOCK);
    struct route *route = &bus.route[place - 1];
    memcpy(block->bytes, bytes, size);
    stamp(route, block->bytes, counts);
    *reached = deliver(route, block, app);
    return DONE;
}

ALWAYS_INLINE enum status transmit(uint32_t app, const uint8_t *bytes, uint32_t size, bool counts, uint32_t *reached)
{
    pthread_mutex_lock(&bus.mutex);
    enum status status = send_bytes(app, bytes, size, counts, reached);
    pthread_mutex_unlock(&bus.mutex);
    return status;
}

/* A buffer to write a message into; its number is that of its place. */
ALWAYS_INLINE enum status allocate(uint32_t app, uint32_t size, uint32_t *number, uint8_t **bytes)
{
    enum status status = DONE;
    pthread_mutex_lock(&bus.mutex);
    uint32_t place = 0;
    while (place < MOST_BUFFERS && bus.unsent[place])
        place++;
    struct block *block = NULL;
    if (size < LEAST_MESSAGE)
        status = refuse_send(BAD_ARGUMENT);
    else if (size > MOST_MESSAGE)
        status = refuse_send(TOO_BIG);
    else if (place == MOST_BUFFERS || !(block = draw(size)))
        status = refuse_send(NO_BLOCK);
    if (block) {
        memset(block->bytes, 0, size);
        block->owner = app;
        bus.unsent[place] = block;
        *number = place + 1;
        *bytes = block->bytes;
    }
    pthread_mutex_unlock(&bus.mutex);
    return status;
}

ALWAYS_INLINE enum status send_buffer(uint32_t app, uint32_t number, bool counts, uint32_t *reached)
{
    if (number == 0 || number > MOST_BUFFERS || !bus.unsent[number - 1] || bus.unsent[number - 1]->owner != app)
        return refuse_send(BAD_ARGUMENT);
    struct block *block = bus.unsent[number - 1];
    if (!is_message(block->bytes, block->size))
        return refuse_send(BAD_ARGUMENT);
    bus.unsent[number - 1] = NULL;
    uint16_t place = bus.route_of[id_in(block->bytes)];
    if (place == NONE || bus.route[place - 1].dests == 0) {
        bus.unsubscribed++;
        give_back(block);
        return NO_SUBSCRIBERS;
    }
    stamp(&bus.route[place - 1], block->bytes, counts);
    *reached = deliver(&bus.route[place - 1], block, app);
    return DONE;
}

ALWAYS_INLINE enum status transmit_buffer(uint32_t app, uint32_t number, bool counts, uint32_t *reached)
{
    pthread_mutex_lock(&bus.mutex);
    enum status status = send_buffer(app, number, counts, reached);
    pthread_mutex_unlock(&bus.mutex);
    return status;
}

/* The oldest message of the pipe; the one received from it before goes back. */
ALWAYS_INLINE enum status take(uint32_t app, uint32_t number, const uint8_t **bytes, uint32_t *size)
{
    if (number == 0 || number > bus.pipes || bus.pipe[number - 1].owner != app) {
        bus.refused_receives++;
        return BAD_ARGUMENT;
    }
    struct pipe *pipe = &bus.pipe[number - 1];
    if (pipe->last)
        drop_use(pipe->last);
    pipe->last = NULL;
    if (pipe->length == 0)
        return NO_MESSAGE;
    struct waiting *waiting = &pipe->ring[pipe->first];
    pipe->first = (pipe->first + 1) % DEPTH;
    pipe->length--;
    waiting->dest->waiting--;
    pipe->last = waiting->block;
    *bytes = waiting->block->bytes;
    *size = waiting->block->size;
    return DONE;
}

ALWAYS_INLINE enum status receive(uint32_t app, uint32_t number, const uint8_t **bytes, uint32_t *size)
{
    pthread_mutex_lock(&bus.mutex);
    enum status status = take(app, number, bytes, size);
    pthread_mutex_unlock(&bus.mutex);
    return status;
}

static uint32_t create_pipe(uint32_t app, uint32_t depth)
{
    pthread_mutex_lock(&bus.mutex);
    struct pipe *pipe = &bus.pipe[bus.pipes++];
    pipe->owner = app;
    pipe->depth = depth;
    uint32_t number = bus.pipes;
    pthread_mutex_unlock(&bus.mutex);
    return number;
}

static void subscribe(uint16_t id, uint32_t pipe, uint32_t limit)
{
    pthread_mutex_lock(&bus.mutex);
    if (bus.route_of[id] == NONE) {
        bus.route[bus.routes++].id = id;
        bus.route_of[id] = (uint16_t)bus.routes;
    }
    struct route *route = &bus.route[bus.route_of[id] - 1];
    route->dest[route->dests++] = (struct dest){pipe, limit, 0};
    pthread_mutex_unlock(&bus.mutex);
}

/* Loads bytes into the block that isn't read, which is the one that is read from then on. */
static enum status load(uint32_t app, uint32_t offset, const uint8_t *bytes, uint32_t size)
{
    enum status status = DONE;
    pthread_mutex_lock(&bus.mutex);
    struct table *table = &bus.table;
    if (table->owner != app || offset > table->size || size > table->size - offset || table->holds) {
        status = BAD_ARGUMENT;
    } else {
        uint8_t *to = table->block[1 - table->active];
        if (size < table->size)
            memcpy(to, table->block[table->active], table->size);
        memcpy(to + offset, bytes, size);
        table->active = 1 - table->active;
        table->version++;
        table->loaded = true;
    }
    pthread_mutex_unlock(&bus.mutex);
    return status;
}

static const uint8_t *get_address(uint32_t app)
{
    const uint8_t *bytes = NULL;
    pthread_mutex_lock(&bus.mutex);
    if (bus.table.owner == app && bus.table.loaded) {
        bus.table.holds++;
        bytes = bus.table.block[bus.table.active];
    }
    pthread_mutex_unlock(&bus.mutex);
    return bytes;
}

static void release_address(uint32_t app)
{
    pthread_mutex_lock(&bus.mutex);
    if (bus.table.owner == app && bus.table.holds)
        bus.table.holds--;
    pthread_mutex_unlock(&bus.mutex);
}

/* The header of a message of so many bytes: the id, unsegmented, count 0, and the length. */
static void write_header(uint8_t *bytes, uint16_t id, uint32_t size)
{
    bytes[0] = (uint8_t)(id >> 8);
    bytes[1] = (uint8_t)id;
    bytes[2] = 0xc0;
    bytes[3] = 0;
    bytes[4] = (uint8_t)((size - LEAST_MESSAGE) >> 8);
    bytes[5] = (uint8_t)(size - LEAST_MESSAGE);
}

/* What one application does: so many rounds, in each a message to the next of its ids, which it receives on the id's pipes. */
struct share {
    uint32_t number, ids, dests, size;
    unsigned long rounds, received;
};

/* The applications count from 1; pipes have the numbers 1, 2, 3 and so on, those of the first application first. */
static uint32_t app_of(struct share share)
{
    return share.number + 1;
}

static uint16_t id_of(struct share share, uint32_t place)
{
    return (uint16_t)(0x0801 + share.number * share.ids + place);
}

ALWAYS_INLINE uint32_t receive_on(struct share share, uint32_t place, volatile uint8_t *seen)
{
    uint32_t received = 0;
    for (uint32_t dest = 0; dest < share.dests; dest++) {
        const uint8_t *bytes;
        uint32_t size;
        uint32_t pipe = 1 + share.number * share.ids * share.dests + place + share.ids * dest;
        if (receive(app_of(share), pipe, &bytes, &size) == DONE) {
            *seen = bytes[0];
            received++;
        }
    }
    return received;
}

ALWAYS_INLINE unsigned long carry_messages(struct share share)
{
    unsigned long received = 0;
    volatile uint8_t seen;
    uint8_t *message = calloc(1, share.size);
    for (unsigned long round = 0; round < share.rounds; round++) {
        uint32_t place = (uint32_t)round % share.ids;
        uint32_t reached;
        write_header(message, id_of(share, place), share.size);
        if (transmit(app_of(share), message, share.size, true, &reached) == DONE)
            received += receive_on(share, place, &seen);
    }
    free(message);
    return received;
}

static void *carry(void *of)
{
    struct share *share = of;
    share->received = carry_messages(*share);
    return NULL;
}

ALWAYS_INLINE unsigned long carry_buffers(struct share share)
{
    unsigned long received = 0;
    volatile uint8_t seen;
    for (unsigned long round = 0; round < share.rounds; round++) {
        uint32_t place = (uint32_t)round % share.ids;
        uint32_t number, reached;
        uint8_t *bytes;
        if (allocate(app_of(share), share.size, &number, &bytes) != DONE)
            continue;
        write_header(bytes, id_of(share, place), share.size);
        if (transmit_buffer(app_of(share), number, true, &reached) == DONE)
            received += receive_on(share, place, &seen);
    }
    return received;
}

static unsigned long load_and_read(unsigned long rounds)
{
    unsigned long read = 0;
    volatile uint8_t seen;
    uint8_t *value = calloc(1, TABLE_BYTES);
    for (unsigned long round = 0; round < rounds; round++) {
        const uint8_t *bytes;
        if (load(1, 0, value, TABLE_BYTES) == DONE && (bytes = get_address(1))) {
            seen = bytes[0];
            (void)seen;
            release_address(1);
            read++;
        }
    }
    free(value);
    return read;
}

static void open_pipes(struct share share)
{
    for (uint32_t place = 0; place < share.ids * share.dests; place++)
        subscribe(id_of(share, place % share.ids), create_pipe(app_of(share), DEPTH), DEPTH);
}

/* The rounds of one application that has all ids. */
static unsigned long carry_alone(struct share share)
{
    share.number = 0;
    share.ids = IDS;
    open_pipes(share);
    return carry_messages(share);
}

/* The rounds of so many applications, at most IDS, each of several on a thread of its own. */
static unsigned long carry_by(uint32_t apps, struct share share)
{
    struct share shares[IDS];
    pthread_t threads[IDS];
    unsigned long received = 0;
    for (uint32_t number = 0; number < apps; number++) {
        shares[number] = share;
        shares[number].number = number;
        shares[number].ids = IDS / apps;
        open_pipes(shares[number]);
    }
    for (uint32_t number = 1; number < apps; number++)
        pthread_create(&threads[number], NULL, carry, &shares[number]);
    carry(&shares[0]);
    for (uint32_t number = 1; number < apps; number++)
        pthread_join(threads[number], NULL);
    for (uint32_t number = 0; number < apps; number++)
        received += shares[number].received;
    return received;
}

static void *park(void *nothing)
{
    pause();
    return nothing;
}

static void open_bus(void)
{
    pthread_mutex_init(&bus.mutex, NULL);
    bus.pool = calloc(1, POOL_BYTES);
    bus.table = (struct table){.owner = 1, .size = TABLE_BYTES};
    bus.table.block[0] = calloc(1, TABLE_BYTES);
    bus.table.block[1] = calloc(1, TABLE_BYTES);
}

int main(int argc, char **argv)
{
    static const struct {
        const char *word;
        uint32_t size, dests;
    } sends[] = {{"send1", 64, 1},      {"fan16", 64, 16}, {"big", 32768, 1},
                 {"fanbig", 32768, 16}, {"port1", 64, 1},  {"port16", 64, 16}};
    const char *word = argc > 1 ? argv[1] : "";
    unsigned long rounds = argc > 2 ? strtoul(argv[2], NULL, 10) : 0;
    uint32_t apps = argc <= 3 ? 1 : strcmp(argv[3], "4") == 0 ? 4 : strcmp(argv[3], "2") == 0 ? 2 : 1;
    struct share share = {.rounds = rounds};
    unsigned long received = 0;
    pthread_t other;

    if (argc > 4 && strcmp(argv[4], "parked") == 0 && pthread_create(&other, NULL, park, NULL) != 0)
        return 1;
    open_bus();
    for (size_t i = 0; i < sizeof sends / sizeof sends[0]; i++) {
        if (strcmp(word, sends[i].word) == 0) {
            share.size = sends[i].size;
            share.dests = sends[i].dests;
            received = word[0] == 'p' ? carry_by(apps, share) : carry_alone(share);
        }
    }
    if (strcmp(word, "zc") == 0) {
        struct share buffers = {.ids = IDS, .dests = 1, .size = 64, .rounds = rounds};
        open_pipes(buffers);
        received = carry_buffers(buffers);
    }
    if (strcmp(word, "table") == 0)
        received = load_and_read(rounds);
    printf("%s rounds=%lu received=%lu blocks=%u\n", word, rounds, received, bus.buffers);
    return 0;
}
