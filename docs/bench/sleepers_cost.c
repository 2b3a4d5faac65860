/* What threads cost that only sleep once: starts as many as its argument says, wakes all at once,
   and joins them. It prints the milliseconds of a processor that this took, of 101 processes the
   least and the middle: what the script `waiting` of scripts.py is timed beside.
   Build it with: cc -O2 -pthread -o sleepers_cost sleepers_cost.c */
#include <pthread.h>
#include <stdio.h>
#include <stdlib.h>
#include <sys/resource.h>
#include <sys/wait.h>
#include <unistd.h>

enum { MOST = 64, ROUNDS = 101 };

static pthread_mutex_t lock = PTHREAD_MUTEX_INITIALIZER;
static pthread_cond_t news = PTHREAD_COND_INITIALIZER;
static int is_news;

static void *sleeper(void *nothing) {
    pthread_mutex_lock(&lock);
    while (!is_news)
        pthread_cond_wait(&news, &lock);
    pthread_mutex_unlock(&lock);
    return nothing;
}

static double milliseconds(struct timeval time) {
    return time.tv_sec * 1e3 + time.tv_usec / 1e3;
}

static double taken(void) {
    struct rusage now;
    getrusage(RUSAGE_SELF, &now);
    return milliseconds(now.ru_utime) + milliseconds(now.ru_stime);
}

static double round_of(int count) {
    pthread_t threads[MOST];
    double before = taken();
    for (int i = 0; i < count; i++)
        if (pthread_create(&threads[i], NULL, sleeper, NULL) != 0)
            exit(1);
    usleep(10000);
    pthread_mutex_lock(&lock);
    is_news = 1;
    pthread_cond_broadcast(&news);
    pthread_mutex_unlock(&lock);
    for (int i = 0; i < count; i++)
        pthread_join(threads[i], NULL);
    return taken() - before;
}

static int by_size(const void *one, const void *other) {
    double a = *(const double *)one, b = *(const double *)other;
    return (a > b) - (a < b);
}

int main(int argc, char **argv) {
    int count = argc > 1 ? atoi(argv[1]) : 0, ends[2];
    double rounds[ROUNDS];
    if (count < 1 || count > MOST || pipe(ends) != 0)
        return 1;
    for (int i = 0; i < ROUNDS; i++) {
        int status;
        pid_t child = fork();
        if (child == 0) {
            double it = round_of(count);
            _exit(write(ends[1], &it, sizeof it) != sizeof it);
        }
        if (child < 0 || wait(&status) != child || status != 0)
            return 1;
        if (read(ends[0], &rounds[i], sizeof rounds[i]) != sizeof rounds[i])
            return 1;
    }
    qsort(rounds, ROUNDS, sizeof rounds[0], by_size);
    printf("%d threads: %.2f ms, %.2f in the middle\n", count, rounds[0], rounds[ROUNDS / 2]);
    return 0;
}
