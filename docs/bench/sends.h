/* sends.h: the words of queue_bus and zmq_bus, and the thread that is parked beside them, so that a mutex is the one of a program
 * with threads. */
#ifndef SENDS_H
#define SENDS_H

#include <pthread.h>
#include <stdbool.h>
#include <stdint.h>
#include <stdio.h>
#include <stdlib.h>
#include <string.h>
#include <unistd.h>

static void *park(void *nothing)
{
    pause();
    return nothing;
}

/* Does the word: opens the bus for so many pipes of a message, has it carry the rounds, and prints how many messages came. */
static int do_word(int argc, char **argv, bool (*open_bus)(uint32_t dests),
                   unsigned long (*carry)(unsigned long rounds, uint32_t size, uint32_t dests))
{
    static const struct {
        const char *word;
        uint32_t size, dests;
    } sends[] = {{"send1", 64, 1}, {"fan16", 64, 16}, {"big", 32768, 1}, {"fanbig", 32768, 16}};
    const char *word = argc > 1 ? argv[1] : "";
    const unsigned long rounds = argc > 2 ? strtoul(argv[2], NULL, 10) : 0;
    pthread_t other;
    if (pthread_create(&other, NULL, park, NULL) != 0)
        return 1;
    for (size_t i = 0; i < sizeof sends / sizeof sends[0]; i++)
        if (strcmp(word, sends[i].word) == 0) {
            if (!open_bus(sends[i].dests))
                return 1;
            const unsigned long received = carry(rounds, sends[i].size, sends[i].dests);
            printf("%s rounds=%lu received=%lu\n", word, rounds, received);
            return received == rounds * sends[i].dests ? 0 : 1;
        }
    return 2;
}

#endif
