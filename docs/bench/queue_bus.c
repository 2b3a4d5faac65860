/* A bus by hand whose pipes are POSIX message queues, as cFE's are on Linux, for the comparison with plain_bus: a message is
 * copied into a block that counts its uses, and the block's address goes into the queue of each pipe. A mutex stands round what
 * applications share, not round the wait for a queue. A second thread is parked, so that the mutex is the one of a program with
 * threads. Build with cc -O2 -pthread .. -lrt.
 *
 *     queue_bus WORD ROUNDS
 *
 * send1, fan16    a message of 64 bytes is sent to 1 or 16 pipes, and received on each
 * big, fanbig     the same with 32768 bytes
 */
#include "sends.h"

#include <fcntl.h>
#include <mqueue.h>

/* Without a right of its own a process gets queues of 10 messages. */
enum { IDS = 4, MOST_DESTS = 16, MOST_PIPES = IDS * MOST_DESTS, DEPTH = 10, BLOCKS = 16, FIRST_ID = 0x0801 };

/* A message, and how many pipes name it. */
struct block {
    struct block *next;
    uint32_t uses;
    uint32_t size;
    uint8_t bytes[32768];
};

struct pipe {
    mqd_t queue;
    uint32_t owner;
    struct block *last;
};

struct route {
    uint16_t sequence;
    uint32_t dests;
    uint32_t dest[MOST_DESTS];
};

static struct {
    pthread_mutex_t mutex;
    struct block block[BLOCKS];
    struct block *free;
    struct route route[IDS];
    struct pipe pipe[MOST_PIPES];
    uint32_t pipes, refused, overflow;
} bus = {.mutex = PTHREAD_MUTEX_INITIALIZER};

static void drop_use(struct block *block)
{
    if (--block->uses > 0)
        return;
    block->next = bus.free;
    bus.free = block;
}

static struct block *draw(const uint8_t *bytes, uint32_t size)
{
    struct block *block = bus.free;
    if (!block)
        return NULL;
    bus.free = block->next;
    block->size = size;
    block->uses = 1;
    memcpy(block->bytes, bytes, size);
    return block;
}

/* Writes the next sequence count of the route into the message. */
static void stamp(struct route *route, uint8_t *bytes)
{
    route->sequence = (route->sequence + 1) & 0x3fff;
    bytes[2] = (uint8_t)((bytes[2] & 0xc0) | route->sequence >> 8);
    bytes[3] = (uint8_t)route->sequence;
}

/* Puts the block's address into the queue of each pipe. */
static void deliver(const struct route *route, struct block *block)
{
    for (uint32_t i = 0; i < route->dests; i++) {
        block->uses++;
        if (mq_send(bus.pipe[route->dest[i]].queue, (const char *)&block, sizeof block, 0) != 0) {
            bus.overflow++;
            block->uses--;
        }
    }
}

static bool transmit(const uint8_t *bytes, uint32_t size)
{
    const uint32_t place = (uint32_t)(bytes[0] << 8 | bytes[1]) - FIRST_ID;
    struct block *block = NULL;
    pthread_mutex_lock(&bus.mutex);
    if (place < IDS && size <= sizeof block->bytes)
        block = draw(bytes, size);
    if (block) {
        stamp(&bus.route[place], block->bytes);
        deliver(&bus.route[place], block);
        drop_use(block);
    } else {
        bus.refused++;
    }
    pthread_mutex_unlock(&bus.mutex);
    return block;
}

/* Lets the last message of the pipe go; whether the application may receive there. */
static bool let_go(uint32_t app, uint32_t number)
{
    pthread_mutex_lock(&bus.mutex);
    const bool is_owner = number < bus.pipes && bus.pipe[number].owner == app;
    if (is_owner && bus.pipe[number].last) {
        drop_use(bus.pipe[number].last);
        bus.pipe[number].last = NULL;
    }
    pthread_mutex_unlock(&bus.mutex);
    return is_owner;
}

/* The oldest message of the pipe, in the block that all its receivers read. */
static const struct block *receive(uint32_t app, uint32_t number)
{
    struct block *block;
    if (!let_go(app, number) || mq_receive(bus.pipe[number].queue, (char *)&block, sizeof block, NULL) != sizeof block)
        return NULL;
    pthread_mutex_lock(&bus.mutex);
    bus.pipe[number].last = block;
    pthread_mutex_unlock(&bus.mutex);
    return block;
}

static bool open_pipes(uint32_t dests)
{
    struct mq_attr attr = {.mq_maxmsg = DEPTH, .mq_msgsize = sizeof(struct block *)};
    for (uint32_t i = 0; i < IDS * dests; i++) {
        char name[40];
        struct route *route = &bus.route[i % IDS];
        snprintf(name, sizeof name, "/queue_bus.%ld.%u", (long)getpid(), (unsigned)i);
        bus.pipe[i] = (struct pipe){.queue = mq_open(name, O_RDWR | O_CREAT | O_EXCL | O_NONBLOCK, 0600, &attr), .owner = 1};
        if (bus.pipe[i].queue == (mqd_t)-1)
            return false;
        mq_unlink(name);
        route->dest[route->dests++] = bus.pipes++;
    }
    return true;
}

static unsigned long carry(unsigned long rounds, uint32_t size, uint32_t dests)
{
    unsigned long received = 0;
    volatile uint8_t seen;
    uint8_t *message = calloc(1, size);
    for (unsigned long round = 0; message && round < rounds; round++) {
        const uint32_t place = (uint32_t)(round % IDS);
        message[0] = (uint8_t)((FIRST_ID + place) >> 8);
        message[1] = (uint8_t)(FIRST_ID + place);
        if (!transmit(message, size))
            break;
        for (uint32_t i = 0; i < dests; i++) {
            const struct block *block = receive(1, place + i * IDS);
            if (!block)
                continue;
            seen = block->bytes[0];
            (void)seen;
            received++;
        }
    }
    free(message);
    return received;
}

int main(int argc, char **argv)
{
    for (size_t i = 0; i < BLOCKS; i++)
        bus.block[i].next = i + 1 < BLOCKS ? &bus.block[i + 1] : NULL;
    bus.free = bus.block;
    return do_word(argc, argv, open_pipes, carry);
}
