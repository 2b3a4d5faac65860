/*
 * layer_held.c: how long the layer's mutex is held by calls at their most, in nanoseconds: the
 * least of several times, so that what else the machine does isn't in it. It is linked with --wrap
 * of the functions below.
 */
#include "cfe.h"
#include "check.h"
#include "fsw_run.h"

#include <pthread.h>
#include <string.h>
#include <time.h>

enum {
    ROUNDS = 5,
    PIPES = 255,
    DESTS = 64,
    DEPTH = 1024,
    IDS = 1000,
    PACKET = 64,
    TABLE_BYTES = 65536,
    FULL = 0x0810,
    OTHER = 0x1001
};

/* As in calls_range.c. */
static const struct fsw_limits limits = {16,    16,  1024, 256,   64,      1024, 65542, 1 << 22,
                                         65536, 256, 1024, 65536, 1 << 22, 2,    64};

/* ---- The mutex, watched ---- */

static int64_t since, longest; /* when it was taken; the longest time of the call */

static int64_t now(void)
{
    struct timespec time;
    clock_gettime(CLOCK_MONOTONIC, &time);
    return time.tv_sec * INT64_C(1000000000) + time.tv_nsec;
}

static void let_go(void)
{
    int64_t time = now() - since;
    if (time > longest)
        longest = time;
}

int __real_pthread_mutex_lock(pthread_mutex_t *mutex);
int __real_pthread_mutex_unlock(pthread_mutex_t *mutex);
int __wrap_pthread_mutex_lock(pthread_mutex_t *mutex);
int __wrap_pthread_mutex_unlock(pthread_mutex_t *mutex);

int __wrap_pthread_mutex_lock(pthread_mutex_t *mutex)
{
    int status = __real_pthread_mutex_lock(mutex);
    since = now();
    return status;
}

int __wrap_pthread_mutex_unlock(pthread_mutex_t *mutex)
{
    let_go();
    return __real_pthread_mutex_unlock(mutex);
}

/* ---- The calls ---- */

static CFE_SB_PipeId_t pipe[PIPES], last;
static CFE_TBL_Handle_t table;
static union {
    CFE_MSG_Message_t message;
    uint8 bytes[PACKET];
} packet;
static uint8 value[TABLE_BYTES];
static CFE_SB_Buffer_t *buffer;

static void make_pipe(CFE_SB_PipeId_t *made, uint32 number, uint16 depth)
{
    char name[OS_MAX_API_NAME];
    snprintf(name, sizeof name, "%019u", (unsigned)number);
    CHECK_STATUS(CFE_SB_CreatePipe(made, depth, name), CFE_SUCCESS);
}

static void set_up(void)
{
    CHECK_STATUS(CFE_EVS_Register(NULL, 0, CFE_EVS_EventFilter_BINARY), CFE_SUCCESS);
    for (uint32 i = 0; i < PIPES; i++)
        make_pipe(&pipe[i], i, 1);
    for (uint32 i = 0; i < DESTS; i++)
        CHECK_STATUS(CFE_SB_SubscribeEx(FULL, pipe[i], CFE_SB_DEFAULT_QOS, 1), CFE_SUCCESS);
    CHECK_STATUS(CFE_MSG_Init(&packet.message, FULL, sizeof packet), CFE_SUCCESS);
    CHECK_STATUS(CFE_TBL_Register(&table, "TABLE", TABLE_BYTES, CFE_TBL_OPT_DBL_BUFFER, NULL),
                 CFE_SUCCESS);
}

static void transmit(void)
{
    CHECK_STATUS(CFE_SB_TransmitMsg(&packet.message, true), CFE_SUCCESS);
}

static void receive(void)
{
    CHECK_STATUS(CFE_SB_ReceiveBuffer(&buffer, pipe[0], CFE_SB_POLL), CFE_SUCCESS);
}

static void send_event(void)
{
    CHECK_STATUS(CFE_EVS_SendEvent(1, CFE_EVS_EventType_ERROR, "%0120d", 1), CFE_SUCCESS);
}

static void load(void)
{
    CHECK_STATUS(CFE_TBL_Load(table, CFE_TBL_SRC_ADDRESS, value), CFE_SUCCESS);
}

static void fill_last(void)
{
    make_pipe(&last, PIPES, DEPTH);
    for (uint32 i = 0; i < IDS; i++)
        CHECK_STATUS(CFE_SB_SubscribeEx(OTHER + i, last, CFE_SB_DEFAULT_QOS, DEPTH), CFE_SUCCESS);
    CHECK_STATUS(CFE_MSG_SetMsgId(&packet.message, OTHER), CFE_SUCCESS);
    for (uint32 i = 0; i < DEPTH; i++)
        transmit();
    CHECK_STATUS(CFE_MSG_SetMsgId(&packet.message, FULL), CFE_SUCCESS);
}

static void delete_last(void)
{
    CHECK_STATUS(CFE_SB_DeletePipe(last), CFE_SUCCESS);
}

static void measure(const char *call, void (*prepare)(void), void (*make)(void))
{
    int64_t least = INT64_MAX;
    for (int i = 0; i < ROUNDS; i++) {
        prepare();
        longest = 0;
        make();
        if (longest < least)
            least = longest;
    }
    printf("%s held %lld\n", call, (long long)least);
}

static void measure_all(void)
{
    set_up();
    transmit();
    measure("CFE_SB_TransmitMsg", receive, transmit);
    measure("CFE_SB_ReceiveBuffer", transmit, receive);
    measure("CFE_EVS_SendEvent", transmit, send_event);
    measure("CFE_TBL_Load", transmit, load);
    measure("CFE_SB_DeletePipe", fill_last, delete_last);
    fill_last();
    longest = 0;
}

int main(void)
{
    static const struct fsw_app app = {.name = "HELD", .entry = measure_all};
    static const struct fsw_config config = {.sends_events = true, .all_bus_events = true};
    fsw_configure(&config);
    CHECK(fsw_run(&limits, &app, 1) == 0);
    printf("CFE_ES_ExitApp held %lld\n", (long long)longest);
    return 0;
}
