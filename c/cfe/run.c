/* run.c: the run of the applications, from fsw_run to their ends. */
#include "layer.h"

#include <errno.h>
#include <signal.h>
#include <stdio.h>
#include <stdlib.h>
#include <string.h>

struct layer fsw_layer;

/* ---- Every call ---- */

void fsw_break(void)
{
    fputs("fsw: a call of the system's failed that can't\n", stderr);
    abort();
}

/*
 * A task that has the mutex runs at the highest priority of those that wait for it, so that no task
 * of a middle priority holds them up. Where the system hasn't that, the mutex is a plain one.
 */
static void make_mutex(pthread_mutex_t *mutex)
{
    pthread_mutexattr_t kind;
    fsw_must(pthread_mutexattr_init(&kind));
    if (pthread_mutexattr_setprotocol(&kind, PTHREAD_PRIO_INHERIT) != 0 ||
        pthread_mutex_init(mutex, &kind) != 0)
        fsw_must(pthread_mutex_init(mutex, NULL));
    fsw_must(pthread_mutexattr_destroy(&kind));
}

static void make_mutexes(void)
{
    make_mutex(&fsw_layer.mutex);
    make_mutex(&fsw_layer.printing);
}

void fsw_prepare(void)
{
    static pthread_once_t once = PTHREAD_ONCE_INIT;
    fsw_must(pthread_once(&once, make_mutexes));
}

void fsw_wake_all(void)
{
    fsw_must(pthread_cond_broadcast(&fsw_layer.changed));
    for (struct pipe *pipe = fsw_layer.asleep; pipe; pipe = pipe->next_asleep)
        fsw_must(pthread_cond_broadcast(&pipe->arrived));
}

struct timespec fsw_after(uint32_t milliseconds)
{
    struct timespec time;
    fsw_must(clock_gettime(CLOCK_MONOTONIC, &time));
    time.tv_sec += milliseconds / 1000;
    time.tv_nsec += milliseconds % 1000 * 1000000L;
    if (time.tv_nsec >= 1000000000L) {
        time.tv_sec++;
        time.tv_nsec -= 1000000000L;
    }
    return time;
}

int fsw_wait_until(const struct timespec *until)
{
    int woken = pthread_cond_timedwait(&fsw_layer.changed, &fsw_layer.mutex, until);
    fsw_must(woken != 0 && woken != ETIMEDOUT);
    return woken;
}

void fsw_delay(uint32_t milliseconds)
{
    struct timespec until = fsw_after(milliseconds);
    int woken = 0;
    if (!fsw_enter()) {
        /* A signal doesn't end the delay. */
        while (clock_nanosleep(CLOCK_MONOTONIC, TIMER_ABSTIME, &until, NULL) == EINTR)
            ;
        return;
    }
    while (woken == 0) {
        woken = fsw_wait_until(&until);
        fsw_end_if_asked();
    }
    fsw_leave();
}

static int64_t now_in_nanoseconds(void)
{
    struct timespec now;
    fsw_must(clock_gettime(CLOCK_MONOTONIC, &now));
    return (int64_t)now.tv_sec * 1000000000 + now.tv_nsec;
}

CFE_TIME_SysTime_t CFE_TIME_GetTime(void)
{
    int64_t began = atomic_load(&fsw_layer.began);
    int64_t since = now_in_nanoseconds() - began, nanoseconds = since % 1000000000;
    return (CFE_TIME_SysTime_t){(uint32)(since / 1000000000),
                                (uint32)((nanoseconds << 32) / 1000000000)};
}

void fsw_copy_printable(char *to, size_t room, const char *from)
{
    size_t length = 0;
    while (length + 1 < room && from[length] != '\0') {
        to[length] = ' ' <= from[length] && from[length] <= '~' ? from[length] : '.';
        length++;
    }
    to[length] = '\0';
}

/* ---- The loop of an application ---- */

static void be_up(struct app *app)
{
    if (app->is_up)
        return;
    app->is_up = true;
    fsw_wake_all();
}

bool CFE_ES_RunLoop(uint32 *RunStatus)
{
    struct app *app = fsw_enter();
    if (!app)
        return false;
    be_up(app);
    fsw_self->counter++;
    bool is_stopping = fsw_layer.is_stopping;
    fsw_leave();
    if (is_stopping && RunStatus)
        *RunStatus = CFE_ES_RunStatus_SYS_DELETE;
    return !is_stopping && (!RunStatus || *RunStatus == CFE_ES_RunStatus_APP_RUN);
}

static bool are_all_up(void)
{
    for (uint32_t i = 0; i < fsw_layer.apps; i++)
        if (!fsw_layer.app[i].is_up && !fsw_layer.app[i].is_ending)
            return false;
    return true;
}

/* Whether a state has come. Between the core's start and the applications' loops there is none. */
static bool is_in_state(uint32_t state)
{
    if (state <= CFE_ES_SystemState_CORE_READY)
        return true;
    return state == CFE_ES_SystemState_SHUTDOWN ? fsw_layer.is_stopping : are_all_up();
}

CFE_Status_t CFE_ES_WaitForSystemState(uint32 MinSystemState, uint32 TimeOutMilliseconds)
{
    struct timespec until = fsw_after(TimeOutMilliseconds);
    struct app *app = fsw_enter();
    if (!app)
        return CFE_ES_ERR_RESOURCEID_NOT_VALID;
    if (MinSystemState > CFE_ES_SystemState_CORE_READY)
        be_up(app);
    int woken = 0;
    while (!is_in_state(MinSystemState) && !fsw_layer.is_stopping && woken == 0) {
        woken = fsw_wait_until(&until);
        fsw_end_if_asked();
    }
    bool is_there = is_in_state(MinSystemState);
    fsw_leave();
    return is_there ? CFE_SUCCESS : CFE_ES_OPERATION_TIMED_OUT;
}

void CFE_ES_WaitForStartupSync(uint32 TimeOutMilliseconds)
{
    CFE_ES_WaitForSystemState(CFE_ES_SystemState_OPERATIONAL, TimeOutMilliseconds);
}

/* ---- The run ---- */

void fsw_configure(const struct fsw_config *config)
{
    if (!config)
        return;
    fsw_prepare();
    fsw_resume();
    if (!fsw_layer.is_running)
        fsw_layer.config = *config;
    fsw_leave();
}

void fsw_stop(void)
{
    fsw_prepare();
    fsw_resume();
    fsw_layer.is_stopping = true;
    if (fsw_layer.is_running)
        fsw_wake_all();
    fsw_leave();
}

/* Each signal stops, since one may come before a run. */
static void *stop_at_signals(void *of)
{
    int number = 0;
    while (sigwait(of, &number) == 0)
        fsw_stop();
    return NULL;
}

bool fsw_stop_at_signals(void)
{
    static sigset_t signals;
    pthread_t stopper;
    if (sigemptyset(&signals) != 0 || sigaddset(&signals, SIGTERM) != 0 ||
        sigaddset(&signals, SIGINT) != 0)
        return false;
    /* Threads inherit this, so that the stopper alone gets the signals. */
    if (pthread_sigmask(SIG_BLOCK, &signals, NULL) != 0 ||
        pthread_create(&stopper, NULL, stop_at_signals, &signals) != 0)
        return false;
    return pthread_detach(stopper) == 0;
}

static bool are_apps(const struct fsw_limits *limits, const struct fsw_app *apps, size_t count)
{
    if (!apps || count == 0 || count > limits->apps || count > MOST_APPS)
        return false;
    for (size_t i = 0; i < count; i++) {
        if (!apps[i].name || !apps[i].entry || apps[i].name[0] == '\0' ||
            strlen(apps[i].name) >= CFE_MISSION_MAX_API_LEN)
            return false;
        for (size_t k = 0; k < i; k++)
            if (strcmp(apps[i].name, apps[k].name) == 0)
                return false;
    }
    return true;
}

/* The conditions that tasks wait for, by the clock that isn't set. */
static void make_conditions(void)
{
    pthread_condattr_t clock;
    fsw_must(pthread_condattr_init(&clock));
    fsw_must(pthread_condattr_setclock(&clock, CLOCK_MONOTONIC));
    fsw_must(pthread_cond_init(&fsw_layer.changed, &clock));
    for (size_t i = 0; i < PIPE_PLACES; i++)
        fsw_must(pthread_cond_init(&fsw_layer.pipe[i].arrived, &clock));
    fsw_must(pthread_condattr_destroy(&clock));
}

/* Clears all that a run before left, but for the mutex and what was configured. */
static bool open_layer(const struct fsw_limits *limits)
{
    struct layer *layer = &fsw_layer;
    memset(layer->app, 0, sizeof layer->app);
    memset(layer->task, 0, sizeof layer->task);
    memset(layer->pipe, 0, sizeof layer->pipe);
    memset(layer->pool, 0, sizeof layer->pool);
    memset(layer->table, 0, sizeof layer->table);
    memset(layer->handle, 0, sizeof layer->handle);
    memset(&layer->table_counts, 0, sizeof layer->table_counts);
    memset(layer->bus_events, 0, sizeof layer->bus_events);
    layer->events_seen = 0;
    memset(layer->counter, 0, sizeof layer->counter);
    layer->requests = 0;
    layer->apps = 0;
    memset(&layer->bus_counters, 0, sizeof layer->bus_counters);
    layer->bus_commands = layer->bus_command_errors = 0;
    memset(&layer->event_counts, 0, sizeof layer->event_counts);
    layer->events_sent = 0;
    layer->event_commands = layer->event_command_errors = layer->unregistered_events = 0;
    layer->asleep = NULL;
    layer->first_table = NULL;
    layer->starting = NULL;
    layer->has_started = false;
    layer->limits = *limits;
    layer->buffer = calloc((size_t)limits->apps * limits->buffers + 1, sizeof *layer->buffer);
    if (!layer->buffer)
        return false;
    if (fsw_open(&layer->core, limits) != FSW_SUCCESS) {
        free(layer->buffer);
        return false;
    }
    /* A full log drops its oldest line, so that the bus's newest events are there to be told. */
    fsw_set_log_mode(&layer->core, 1, 0);
    make_conditions();
    atomic_store(&layer->began, now_in_nanoseconds());
    return true;
}

static void close_layer(void)
{
    struct layer *layer = &fsw_layer;
    fsw_close(&layer->core);
    free(layer->buffer);
    layer->buffer = NULL;
    fsw_must(pthread_cond_destroy(&layer->changed));
    for (size_t i = 0; i < PIPE_PLACES; i++)
        fsw_must(pthread_cond_destroy(&layer->pipe[i].arrived));
}

/* Each library's start, in order, before any application's. */
static bool start_libraries(void)
{
    const struct fsw_config *config = &fsw_layer.config;
    for (size_t i = 0; i < config->library_count; i++) {
        fsw_leave();
        int32 status = config->libraries[i].init();
        if (status != CFE_SUCCESS)
            CFE_ES_WriteToSysLog("library %s: 0x%08lx", config->libraries[i].name,
                                 (unsigned long)(uint32)status);
        fsw_resume();
        if (status != CFE_SUCCESS)
            return false;
    }
    return true;
}

/* Starts all applications or none: those whose threads are there wait until all are. */
static bool start_apps(const struct fsw_app *apps, size_t count)
{
    size_t started = 0;
    fsw_layer.apps = (uint32_t)count;
    fsw_layer.has_priorities = false;
    for (uint32_t i = 0; i < count; i++) {
        fsw_layer.app[i] = (struct app){.name = apps[i].name,
                                        .number = i + 1,
                                        .stack_size = apps[i].stack_size,
                                        .priority = apps[i].priority};
        fsw_layer.has_priorities |= apps[i].priority > 0;
    }
    while (started < count && fsw_start_main(&fsw_layer.app[started], apps[started].entry))
        started++;
    for (size_t i = 0; started < count && i < count; i++)
        fsw_end_app(&fsw_layer.app[i]);
    fsw_layer.has_started = true;
    fsw_wake_all();
    return started == count;
}

/* Ends the applications whose tasks have all ended; answers how many aren't there yet. */
static uint32_t end_apps(void)
{
    uint32_t left = 0;
    for (uint32_t i = 0; i < fsw_layer.apps; i++) {
        struct app *app = &fsw_layer.app[i];
        if (app->is_ending && app->tasks == 0 && !app->has_ended) {
            fsw_end_buffers(app);
            fsw_end_tables(app);
            fsw_end(&fsw_layer.core, app->number);
            fsw_end_pipes();
            app->has_ended = true;
        }
        left += !app->has_ended;
    }
    return left;
}

/* Waits for the applications' ends; answers how many of them ended by an error. */
static int wait_for_ends(void)
{
    int errors = 0;
    fsw_join_tasks();
    while (end_apps() > 0) {
        fsw_must(pthread_cond_wait(&fsw_layer.changed, &fsw_layer.mutex));
        fsw_join_tasks();
    }
    for (uint32_t i = 0; i < fsw_layer.apps; i++)
        errors += fsw_layer.app[i].has_failed;
    return errors;
}

int fsw_run(const struct fsw_limits *limits, const struct fsw_app *apps, size_t count)
{
    static const struct fsw_limits usual = FSW_USUAL_LIMITS;
    int answer = -1;
    if (!limits)
        limits = &usual;
    fsw_prepare();
    fsw_resume();
    if (!fsw_layer.is_running && are_apps(limits, apps, count) && open_layer(limits)) {
        fsw_layer.is_running = true;
        bool has_started = start_libraries() && start_apps(apps, count);
        int errors = wait_for_ends();
        answer = has_started ? errors : -1;
        close_layer();
        fsw_layer.is_running = fsw_layer.is_stopping = false;
    }
    fsw_leave();
    return answer;
}
