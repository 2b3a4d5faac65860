/*
 * faults_test.c: what goes wrong round the layer's calls: signals before a run and in one, tasks
 * that end within a call, memory that goes before its pool, threads that call the layer as they
 * end.
 *
 *     faults_test FOLDER      what is printed goes there
 */
#define _GNU_SOURCE
#include "cfe.h"
#include "check.h"
#include "fsw_run.h"

#include <fcntl.h>
#include <link.h>
#include <pthread.h>
#include <signal.h>
#include <stdatomic.h>
#include <string.h>
#include <time.h>
#include <unistd.h>

enum { POOL_BYTES = 4096, HANGS = 60 /* s: the test ends then */ };

static const char *folder = ".";
static atomic_int phase;

static void wait_for_phase(int number)
{
    while (atomic_load(&phase) < number)
        OS_TaskDelay(1);
}

static int run(void (*first)(void), void (*second)(void))
{
    const struct fsw_app apps[2] = {{.name = "FIRST", .entry = first},
                                    {.name = "SECOND", .entry = second}};
    atomic_store(&phase, 0);
    return fsw_run(NULL, apps, second ? 2 : 1);
}

/* ---- Stops ---- */

static void go_on_until_stop(void)
{
    uint32 status = CFE_ES_RunStatus_APP_RUN;
    while (CFE_ES_RunLoop(&status))
        OS_TaskDelay(1);
    CHECK(status == CFE_ES_RunStatus_SYS_DELETE);
    atomic_store(&phase, 2);
}

static void go_on_for_a_while(void)
{
    uint32 status = CFE_ES_RunStatus_APP_RUN;
    for (int i = 0; i < 5; i++) {
        CHECK(CFE_ES_RunLoop(&status));
        OS_TaskDelay(1);
    }
}

static void stop_by_signal(void)
{
    OS_TaskDelay(20);
    CHECK(kill(getpid(), SIGINT) == 0);
}

/* One before the run is kept for it, and for no other. */
static void check_stops(void)
{
    fsw_stop();
    CHECK(run(go_on_until_stop, NULL) == 0 && atomic_load(&phase) == 2);
    CHECK(run(go_on_for_a_while, NULL) == 0);
    CHECK(fsw_stop_at_signals());
    CHECK(kill(getpid(), SIGTERM) == 0);
    CHECK(run(go_on_until_stop, NULL) == 0 && atomic_load(&phase) == 2);
    CHECK(run(go_on_until_stop, stop_by_signal) == 0 && atomic_load(&phase) == 2);
}

/* ---- Memory of pools ---- */

static CFE_ES_MemHandle_t pool;
static CFE_ES_MemPoolBuf_t block;
static pthread_key_t freed_at_end;

/* Its memory lies on its stack; the other application has a block of it when it ends. */
static void lend_stack(void)
{
    CFE_ES_STATIC_POOL_TYPE(POOL_BYTES) memory;
    CHECK_STATUS(CFE_ES_PoolCreate(&pool, memory.Data, POOL_BYTES), CFE_SUCCESS);
    atomic_store(&phase, 1);
    wait_for_phase(2);
}

static void lend_heap(void)
{
    void *memory = malloc(POOL_BYTES);
    CHECK(memory);
    CHECK_STATUS(CFE_ES_PoolCreate(&pool, memory, POOL_BYTES), CFE_SUCCESS);
    atomic_store(&phase, 1);
    wait_for_phase(2);
    CHECK(pthread_setspecific(freed_at_end, memory) == 0);
}

static void borrow(void)
{
    CFE_ES_MemPoolStats_t stats;
    CFE_ES_AppId_t app;
    CFE_ES_MemPoolBuf_t second;
    wait_for_phase(1);
    CHECK(CFE_ES_GetPoolBuf(&block, pool, 100) == 100);
    atomic_store(&phase, 2);
    while (CFE_ES_GetAppIDByName(&app, "FIRST") == CFE_SUCCESS)
        OS_TaskDelay(1);
    CHECK_STATUS(CFE_ES_PutPoolBuf(pool, block), CFE_ES_ERR_RESOURCEID_NOT_VALID);
    CHECK_STATUS(CFE_ES_GetPoolBuf(&second, pool, 8), CFE_ES_ERR_RESOURCEID_NOT_VALID);
    CHECK_STATUS(CFE_ES_GetPoolBufInfo(pool, block), CFE_ES_ERR_RESOURCEID_NOT_VALID);
    CHECK_STATUS(CFE_ES_GetMemPoolStats(&stats, pool), CFE_ES_ERR_RESOURCEID_NOT_VALID);
    /* It ends with the block, and with one of a pool behind it. */
    static CFE_ES_STATIC_POOL_TYPE(POOL_BYTES) other;
    CHECK_STATUS(CFE_ES_PoolCreate(&pool, other.Data, POOL_BYTES), CFE_SUCCESS);
    CHECK(CFE_ES_GetPoolBuf(&second, pool, 8) == 8);
}

/* ---- Ends ---- */

static pthread_key_t at_end;
static atomic_int destroyed;

/* The thread of a task that is done is one of no application. */
static void call_at_end(void *of)
{
    CFE_ES_AppId_t app;
    CFE_SB_PipeId_t pipe;
    CHECK(of);
    CHECK_STATUS(CFE_ES_GetAppID(&app), CFE_ES_ERR_RESOURCEID_NOT_VALID);
    CHECK_STATUS(CFE_SB_CreatePipe(&pipe, 4, "LATE"), CFE_SB_BAD_ARGUMENT);
    CHECK(OS_TaskDelay(20) == OS_SUCCESS);
    fsw_configure(&(struct fsw_config){.processor = 1});
    atomic_fetch_add(&destroyed, 1);
}

static void end_in_a_call(void)
{
    CHECK(pthread_setspecific(at_end, &at_end) == 0);
    CFE_ES_ExitApp(CFE_ES_RunStatus_APP_EXIT);
    CHECK(false);
}

/* An application's own way, which cFE hasn't. */
static void end_by_system(void)
{
    CHECK(pthread_setspecific(at_end, &at_end) == 0);
    pthread_exit(NULL);
}

static void stage_for_ever(void)
{
    for (;;)
        CHECK_STATUS(fsw_stage_table("none"), CFE_TBL_ERR_ACCESS);
}

/* Deleted children end at their next call, whichever it is. */
static void delete_children(void)
{
    CFE_ES_TaskId_t task;
    CHECK_STATUS(CFE_ES_CreateChildTask(&task, "STAGE", stage_for_ever, NULL, 0, 0, 0),
                 CFE_SUCCESS);
    OS_TaskDelay(5);
    CHECK_STATUS(CFE_ES_DeleteChildTask(task), CFE_SUCCESS);
    while (CFE_ES_DeleteChildTask(task) == CFE_SUCCESS)
        OS_TaskDelay(1);
}

/* Counts libraries that pthread_exit needs. */
static int count_unwinder(struct dl_phdr_info *info, size_t size, void *count)
{
    (void)size;
    *(int *)count += strstr(info->dlpi_name, "libgcc_s") != NULL;
    return 0;
}

static void check_ends(void)
{
    int before = 0, after = 0;
    CHECK(pthread_key_create(&at_end, call_at_end) == 0);
    dl_iterate_phdr(count_unwinder, &before);
    CHECK(run(end_in_a_call, delete_children) == 0 && atomic_load(&destroyed) == 1);
    dl_iterate_phdr(count_unwinder, &after);
    CHECK(after == before);
    CHECK(run(end_by_system, NULL) == 0 && atomic_load(&destroyed) == 2);
    CHECK(pthread_key_delete(at_end) == 0);
}

/* ---- Time ---- */

static void ignore(int number)
{
    (void)number;
}

static long now_ms(void)
{
    struct timespec now;
    CHECK(clock_gettime(CLOCK_MONOTONIC, &now) == 0);
    return now.tv_sec * 1000L + now.tv_nsec / 1000000;
}

/* A signal doesn't end the delay of a thread that is of no application. */
static void check_delay(void)
{
    const struct sigaction action = {.sa_handler = ignore};
    const struct itimerspec soon = {.it_value = {0, 5000000}};
    struct sigevent event = {.sigev_notify = SIGEV_SIGNAL, .sigev_signo = SIGUSR1};
    timer_t timer;
    CHECK(sigaction(SIGUSR1, &action, NULL) == 0);
    CHECK(timer_create(CLOCK_MONOTONIC, &event, &timer) == 0);
    long begin = now_ms();
    CHECK(timer_settime(timer, 0, &soon, NULL) == 0);
    CHECK(OS_TaskDelay(50) == OS_SUCCESS && now_ms() - begin >= 49);
    CHECK(timer_delete(timer) == 0);
}

static void *ask_for_time(void *of)
{
    while (atomic_load(&phase) < 3)
        CFE_TIME_GetTime();
    return of;
}

static void end_at_once(void)
{
}

/* The time may be asked for while a run starts. */
static void check_time(void)
{
    pthread_t asker;
    atomic_store(&phase, 0);
    CHECK(pthread_create(&asker, NULL, ask_for_time, NULL) == 0);
    for (int i = 0; i < 10; i++)
        CHECK(run(end_at_once, NULL) == 0);
    atomic_store(&phase, 3);
    CHECK(pthread_join(asker, NULL) == 0);
}

/* ---- What is printed ---- */

static void print_controls(void)
{
    static const wchar_t no_text[] = {0x110000, 0};
    CHECK_STATUS(CFE_EVS_Register(NULL, 0, CFE_EVS_EventFilter_BINARY), CFE_SUCCESS);
    CHECK_STATUS(CFE_EVS_SendInfo(1, "red \033[31m\nEVS Port1 \x9b %d", 7), CFE_SUCCESS);
    CHECK_STATUS(CFE_EVS_SendInfo(1, "%ls", no_text), CFE_EVS_INVALID_PARAMETER);
    CHECK_STATUS(CFE_ES_WriteToSysLog("red \033[31m\nline\n"), CFE_SUCCESS);
    CHECK_STATUS(CFE_ES_WriteToSysLog("%ls", no_text), CFE_ES_BAD_ARGUMENT);
}

static void check_printed(void)
{
    const struct fsw_config printing = {.prints_events = true}, usual = {.prints_events = false};
    char path[200], event[100], line[100];
    int out = dup(STDOUT_FILENO), error = dup(STDERR_FILENO);
    CHECK(snprintf(path, sizeof path, "%s/printed", folder) < (int)sizeof path);
    CHECK(out >= 0 && error >= 0);
    fflush(stdout);
    FILE *file = fopen(path, "w+");
    CHECK(file && dup2(fileno(file), STDOUT_FILENO) >= 0 && dup2(fileno(file), STDERR_FILENO) >= 0);
    fsw_configure(&printing);
    int answer = run(print_controls, NULL);
    fsw_configure(&usual);
    CHECK(dup2(out, STDOUT_FILENO) >= 0 && dup2(error, STDERR_FILENO) >= 0);
    rewind(file);
    CHECK(answer == 0 && fgets(event, sizeof event, file) && fgets(line, sizeof line, file));
    CHECK(strcmp(event, "EVS Port1 0/0/FIRST 1: red .[31m.EVS Port1 . 7\n") == 0);
    CHECK(strstr(line, " FIRST: red .[31m.line\n") && fgetc(file) == EOF);
    CHECK(fclose(file) == 0 && unlink(path) == 0);
}

/* Nobody reads what is printed: the program goes on and ends, and says what is missing. */
static void print_many(void)
{
    CHECK_STATUS(CFE_EVS_Register(NULL, 0, CFE_EVS_EventFilter_BINARY), CFE_SUCCESS);
    for (int i = 0; i < 3000; i++)
        CHECK_STATUS(CFE_EVS_SendInfo(1, "a line of some bytes, and its number %d", i),
                     CFE_SUCCESS);
    atomic_store(&phase, 1);
    wait_for_phase(2);
    CHECK_STATUS(CFE_EVS_SendInfo(1, "the last"), CFE_SUCCESS);
}

static int reader;

/* Reads what is there by then. */
static void read_late(void)
{
    static char text[1 << 20];
    size_t length = 0;
    ssize_t more = 1;
    wait_for_phase(1);
    while (more > 0 && length < sizeof text - 1) {
        more = read(reader, text + length, sizeof text - 1 - length);
        length += more > 0 ? (size_t)more : 0;
    }
    atomic_store(&phase, 2);
    CHECK(length > 0 && text[length - 1] == '\n' && strstr(text, "its number 0\n"));
}

static void check_blocked(void)
{
    const struct fsw_config printing = {.prints_events = true}, usual = {.prints_events = false};
    char text[200] = "";
    int ends[2], out = dup(STDOUT_FILENO);
    fflush(stdout);
    CHECK(out >= 0 && pipe2(ends, O_NONBLOCK) == 0 && dup2(ends[1], STDOUT_FILENO) >= 0);
    CHECK(fcntl(ends[1], F_SETFL, 0) == 0);
    reader = ends[0];
    fsw_configure(&printing);
    int answer = run(print_many, read_late);
    fsw_configure(&usual);
    CHECK(dup2(out, STDOUT_FILENO) >= 0 && close(ends[1]) == 0 && answer == 0);
    CHECK(read(reader, text, sizeof text - 1) > 0 && close(reader) == 0);
    CHECK(strncmp(text, "fsw: ", 5) == 0);
    CHECK(strstr(text, " lines weren't printed\nEVS Port1 0/0/FIRST 1: the last\n"));
}

int main(int argc, char **argv)
{
    if (argc > 1)
        folder = argv[1];
    alarm(HANGS);
    check_stops();
    CHECK(run(lend_stack, borrow) == 0);
    CHECK(pthread_key_create(&freed_at_end, free) == 0);
    CHECK(run(lend_heap, borrow) == 0);
    check_ends();
    check_delay();
    check_time();
    check_printed();
    check_blocked();
    printf("faults_test passed\n");
    return 0;
}
