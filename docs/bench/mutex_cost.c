/* Locks and unlocks a pthread mutex as often as its argument says, with nobody else at it: what the
   program cost_turn is timed beside. A second thread sleeps meanwhile, since some C libraries leave
   the atomic steps out while a process has one thread.
   Build it with: cc -O2 -pthread -o mutex_cost mutex_cost.c */
#include <pthread.h>
#include <stdio.h>
#include <stdlib.h>
#include <unistd.h>

static void *sleeper(void *nothing) {
    pause();
    return nothing;
}

int main(int argc, char **argv) {
    unsigned long long turns = argc > 1 ? strtoull(argv[1], NULL, 10) : 0;
    pthread_t other;
    if (pthread_create(&other, NULL, sleeper, NULL) != 0)
        return 1;
    pthread_mutex_t lock = PTHREAD_MUTEX_INITIALIZER;
    for (unsigned long long i = 0; i < turns; i++) {
        pthread_mutex_lock(&lock);
        pthread_mutex_unlock(&lock);
    }
    printf("application 1 took %llu turns\n", turns);
    return 0;
}
