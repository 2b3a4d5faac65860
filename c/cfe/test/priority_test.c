/*
 * priority_test.c: tasks have the priority, the stack and the name that they are to have, and no
 * task of a middle priority holds up a high one that waits for the layer's mutex. All on one
 * processor.
 *
 *     priority_test      the status is 77 if the system doesn't allow SCHED_FIFO
 */
#define _GNU_SOURCE
#include "check.h"
#include "cfe.h"
#include "layer.h"

#include <sched.h>
#include <semaphore.h>
#include <stdatomic.h>
#include <string.h>
#include <sys/resource.h>
#include <sys/wait.h>
#include <time.h>
#include <unistd.h>

enum { SKIPPED = 77, HIGH = 20, MIDDLE = 120, LOW = 220, STACK = 262144 };

/* How long the middle task uses the processor, and how long the high one may wait, in us. */
enum { BUSY = 200000, MOST_WAIT = 20000 };

static sem_t high, middle, low;
static atomic_long waited = -1;

static long now(void)
{
    struct timespec time;
    CHECK(clock_gettime(CLOCK_MONOTONIC, &time) == 0);
    return time.tv_sec * 1000000L + time.tv_nsec / 1000;
}

static void use_processor(void)
{
    long end = now() + BUSY;
    while (now() < end)
        ;
}

/* ---- Three priorities ---- */

static void be_high(void)
{
    CHECK(sem_wait(&high) == 0);
    long begin = now();
    CHECK(sem_post(&middle) == 0);
    CHECK(fsw_enter());
    fsw_leave();
    atomic_store(&waited, now() - begin);
}

static void be_middle(void)
{
    CHECK(sem_wait(&middle) == 0);
    use_processor();
}

/* It has the mutex when the other two come. */
static void be_low(void)
{
    CHECK(sem_wait(&low) == 0);
    CHECK(fsw_enter());
    CHECK(sem_post(&high) == 0);
    fsw_leave();
}

static void begin_low(void)
{
    CFE_ES_WaitForStartupSync(100);
    CHECK(sem_post(&low) == 0);
}

static void check_inversion(void)
{
    static const struct fsw_app apps[] = {
        {.name = "HIGH", .entry = be_high, .priority = HIGH},
        {.name = "MIDDLE", .entry = be_middle, .priority = MIDDLE},
        {.name = "LOW", .entry = be_low, .priority = LOW},
        {.name = "BEGIN", .entry = begin_low, .priority = UINT8_MAX}};
    cpu_set_t one;
    CPU_ZERO(&one);
    CPU_SET(sched_getcpu(), &one);
    CHECK(sched_setaffinity(0, sizeof one, &one) == 0);
    CHECK(sem_init(&high, 0, 0) == 0 && sem_init(&middle, 0, 0) == 0 && sem_init(&low, 0, 0) == 0);
    CHECK(fsw_run(NULL, apps, 4) == 0);
    printf("the high task waited %ld us for the mutex\n", atomic_load(&waited));
    CHECK(0 <= waited && waited < MOST_WAIT);
}

/* ---- What a thread is ---- */

static void check_self(int policy, uint8_t priority, const char *name)
{
    char is[16];
    int is_policy;
    struct sched_param parameters;
    CHECK(pthread_getname_np(pthread_self(), is, sizeof is) == 0 && strcmp(is, name) == 0);
    CHECK(pthread_getschedparam(pthread_self(), &is_policy, &parameters) == 0);
    CHECK(is_policy == policy);
    /* 0 is 98 and 255 is 1, of SCHED_FIFO's 1 to 99. */
    CHECK(policy != SCHED_FIFO || parameters.sched_priority == 98 - priority * 97 / 255);
}

static size_t own_stack(void)
{
    pthread_attr_t attributes;
    size_t size = 0;
    CHECK(pthread_getattr_np(pthread_self(), &attributes) == 0);
    CHECK(pthread_attr_getstacksize(&attributes, &size) == 0);
    CHECK(pthread_attr_destroy(&attributes) == 0);
    return size;
}

static int policy;

static void be_child(void)
{
    check_self(policy, 0, "A_NAME_OF_15_BY");
    CHECK(own_stack() >= 8192 + 16384 && own_stack() < STACK);
}

static void be_parent(void)
{
    CFE_ES_TaskId_t task;
    check_self(policy, 255, "PARENT");
    CHECK(own_stack() >= STACK && own_stack() < 2 * STACK);
    CHECK_STATUS(CFE_ES_CreateChildTask(&task, "A_NAME_OF_15_BYTES", be_child, NULL, 8192, 0, 0),
                 CFE_SUCCESS);
    CHECK_STATUS(CFE_ES_CreateChildTask(&task, "TOO_LARGE", be_child, NULL, SIZE_MAX, 0, 0),
                 CFE_ES_ERR_CHILD_TASK_CREATE);
}

static void check_threads(bool is_real_time)
{
    const struct fsw_app app = {.name = "PARENT",
                                .entry = be_parent,
                                .priority = is_real_time ? UINT8_MAX : 0,
                                .stack_size = STACK};
    policy = is_real_time ? SCHED_FIFO : SCHED_OTHER;
    CHECK(fsw_run(NULL, &app, 1) == 0);
}

/* Without the right to it, a run goes on, and says so once. */
static void be_refused(void)
{
    static const struct fsw_app app = {.name = "PARENT",
                                       .entry = be_parent,
                                       .priority = 1,
                                       .stack_size = STACK};
    const struct rlimit none = {0, 0};
    policy = SCHED_OTHER;
    CHECK(setrlimit(RLIMIT_RTPRIO, &none) == 0 && (geteuid() != 0 || setuid(65534) == 0));
    CHECK(fsw_run(NULL, &app, 1) == 0);
    CHECK(fsw_run(NULL, &app, 1) == 0);
}

static void check_refusal(void)
{
    static const char notice[] =
        "fsw: the system doesn't allow SCHED_FIFO: priorities have no effect\n";
    char said[200] = "";
    int ends[2], status;
    CHECK(pipe(ends) == 0);
    pid_t child = fork();
    CHECK(child >= 0);
    if (child == 0) {
        CHECK(dup2(ends[1], STDERR_FILENO) >= 0 && close(ends[0]) == 0 && close(ends[1]) == 0);
        be_refused();
        _exit(0);
    }
    CHECK(close(ends[1]) == 0 && waitpid(child, &status, 0) == child);
    CHECK(read(ends[0], said, sizeof said - 1) >= 0 && close(ends[0]) == 0);
    CHECK(status == 0 && strcmp(said, notice) == 0);
}

static bool is_allowed(void)
{
    const struct sched_param usual = {0}, least = {.sched_priority = 1};
    if (pthread_setschedparam(pthread_self(), SCHED_FIFO, &least) != 0)
        return false;
    CHECK(pthread_setschedparam(pthread_self(), SCHED_OTHER, &usual) == 0);
    return true;
}

int main(void)
{
    check_refusal();
    check_threads(false);
    if (!is_allowed())
        return SKIPPED;
    check_threads(true);
    check_inversion();
    printf("priority_test passed\n");
    return 0;
}
