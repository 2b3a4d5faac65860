/* A bus over ZeroMQ within one process, for the comparison with plain_bus: a publisher, and a subscriber for each pipe, joined by
 * inproc. A message's first two bytes, its id, are the topic. What the bus does besides isn't here: no sequence counts, no
 * limit of a pipe or a subscription. A second thread is parked. Build with cc -O2 -pthread .. -lzmq.
 *
 *     zmq_bus WORD ROUNDS
 *
 * send1, fan16    a message of 64 bytes is sent to 1 or 16 pipes, and received on each
 * big, fanbig     the same with 32768 bytes
 */
#include "sends.h"

#include <zmq.h>

enum { IDS = 4, MOST_DESTS = 16, MOST_PIPES = IDS * MOST_DESTS, MOST_LEFT = 1000, FIRST_ID = 0x0801 };

static void *context, *publisher, *pipes[MOST_PIPES];

static void write_id(uint8_t *bytes, uint32_t place)
{
    bytes[0] = (uint8_t)((FIRST_ID + place) >> 8);
    bytes[1] = (uint8_t)(FIRST_ID + place);
}

/* The publisher learns once in a while what was received, so it would drop messages of a bounded pipe that is read at once. */
static bool has_no_limit(void *socket, int option)
{
    const int none = 0;
    return zmq_setsockopt(socket, option, &none, sizeof none) == 0;
}

static bool open_pipe(void **pipe, uint32_t place)
{
    uint8_t topic[2];
    write_id(topic, place);
    *pipe = zmq_socket(context, ZMQ_SUB);
    return *pipe && has_no_limit(*pipe, ZMQ_RCVHWM) &&
           zmq_connect(*pipe, "inproc://bus") == 0 && zmq_setsockopt(*pipe, ZMQ_SUBSCRIBE, topic, sizeof topic) == 0;
}

static bool open_bus(uint32_t dests)
{
    context = zmq_ctx_new();
    publisher = context ? zmq_socket(context, ZMQ_PUB) : NULL;
    if (!publisher || !has_no_limit(publisher, ZMQ_SNDHWM) || zmq_bind(publisher, "inproc://bus") != 0)
        return false;
    for (uint32_t i = 0; i < IDS * dests; i++)
        if (!open_pipe(&pipes[i], i % IDS))
            return false;
    return true;
}

/* Reads the first byte of the pipe's oldest message, and lets it go. */
static bool receive(void *pipe)
{
    volatile uint8_t seen;
    zmq_msg_t message;
    zmq_msg_init(&message);
    const bool has_come = zmq_msg_recv(&message, pipe, ZMQ_DONTWAIT) > 0;
    if (has_come)
        seen = *(const uint8_t *)zmq_msg_data(&message);
    (void)seen;
    zmq_msg_close(&message);
    return has_come;
}

/* The publisher learns of a subscription some time after it is made. Sends until each pipe has received; false if one doesn't. */
static bool has_joined(void *pipe, uint32_t place)
{
    uint8_t message[8] = {0};
    write_id(message, place);
    for (int tries = 0; tries < 1000; tries++) {
        if (zmq_send(publisher, message, sizeof message, 0) < 0)
            return false;
        usleep(1000);
        if (receive(pipe))
            return true;
    }
    return false;
}

/* Drops what the pipes have by now. */
static bool join_all(uint32_t dests)
{
    for (uint32_t i = 0; i < IDS * dests; i++)
        if (!has_joined(pipes[i], i % IDS))
            return false;
    for (uint32_t i = 0; i < IDS * dests; i++)
        for (int left = 0; left < MOST_LEFT && receive(pipes[i]); left++)
            continue;
    return true;
}

static unsigned long carry(unsigned long rounds, uint32_t size, uint32_t dests)
{
    unsigned long received = 0;
    uint8_t *message = calloc(1, size);
    for (unsigned long round = 0; message && round < rounds; round++) {
        const uint32_t place = (uint32_t)(round % IDS);
        write_id(message, place);
        if (zmq_send(publisher, message, size, 0) < 0)
            break;
        for (uint32_t i = 0; i < dests; i++)
            received += receive(pipes[place + i * IDS]);
    }
    free(message);
    return received;
}

static void close_bus(uint32_t dests)
{
    for (uint32_t i = 0; i < IDS * dests; i++)
        zmq_close(pipes[i]);
    zmq_close(publisher);
    zmq_ctx_term(context);
}

static unsigned long carry_and_close(unsigned long rounds, uint32_t size, uint32_t dests)
{
    const unsigned long received = carry(rounds, size, dests);
    close_bus(dests);
    return received;
}

static bool open_and_join(uint32_t dests)
{
    return open_bus(dests) && join_all(dests);
}

int main(int argc, char **argv)
{
    return do_word(argc, argv, open_and_join, carry_and_close);
}
