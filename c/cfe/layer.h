/*
 * layer.h: what the files of the layer share. One mutex stands round all calls on the core and all
 * that is here. The layer keeps what the core hasn't: names, threads, who sleeps on which pipe,
 * which pointer is which buffer, block or table.
 */
#ifndef LAYER_H
#define LAYER_H

#include "cfe_es.h"
#include "cfe_evs.h"
#include "cfe_sb.h"
#include "cfe_tbl.h"
#include "cfe_time.h"
#include "cfe_tbl_msg.h"
#include "fsw_run.h"

#include <pthread.h>
#include <setjmp.h>
#include <stdatomic.h>
#include <time.h>

enum {
    MOST_APPS = 16,
    MOST_TASKS = 64,
    MOST_PIPES = 256,
    PIPE_PLACES = MOST_PIPES + MOST_TASKS, /* a deleted pipe may have sleepers for a moment */
    MOST_COUNTERS = CFE_PLATFORM_ES_MAX_GEN_COUNTERS,
    MOST_POOLS = 8,
    MOST_TABLES = 256,
    MOST_HANDLES = 1024,
    MOST_FILTERS = CFE_PLATFORM_EVS_MAX_EVENT_FILTERS,
    BLOCK_SIZES = CFE_MISSION_ES_POOL_MAX_BUCKETS,
    MOST_TEXT = 200, /* the bytes of an event's text that the core takes */
    BUS_EVENTS = 6   /* kinds of events that the bus itself logs, numbered from 1 */
};

/* A filter of events. */
struct filter {
    uint16_t id;
    uint16_t mask;
    uint16_t seen; /* how many events it has seen since it was reset, at most 65535 */
};

struct app {
    const char *name;
    uint32_t number;     /* the core's */
    uint32_t stack_size; /* of its main task, as struct fsw_app's */
    uint8_t priority;
    uint32_t tasks; /* threads of it that were not joined yet */
    bool is_up;     /* it has reached its loop */
    bool is_ending; /* so are all its tasks */
    bool has_ended;
    bool has_failed;     /* it ended by an error */
    bool is_registered;  /* for events */
    bool sends_events;   /* unless a ground command turned them off */
    uint8_t event_types; /* those that are on, a bit each, the lowest DEBUG's */
    uint16_t events_sent;
    uint32_t filters;
    struct filter filter[MOST_FILTERS];
};

enum task_state { TASK_NONE, TASK_RUNS, TASK_DONE };

struct task {
    pthread_t thread;
    enum task_state state;
    bool is_main;
    bool is_joined; /* at its end: its thread is the layer's own */
    bool is_ending; /* it ends at its next call: it was asked to, or its application was */
    uint8_t priority;
    uint32_t counter;
    size_t stack_size; /* as it was asked for */
    char name[CFE_MISSION_MAX_API_LEN];
    struct app *app;
    void (*entry)(void);
    jmp_buf end; /* where it goes on to end, from within a call */
};

struct pipe {
    uint32_t number; /* the core's; 0 while there is none */
    uint32_t depth;
    uint32_t sleepers;
    pthread_cond_t arrived;
    struct pipe *next_asleep; /* the next pipe that has sleepers */
};

/* A block size of a pool, and its place among the core's. */
struct pool_size {
    uint32_t size;
    uint32_t place;
};

struct pool {
    uint8_t *at; /* null: there is none, it was deleted, or its creator ends */
    const struct app *creator;
    CFE_ES_MemHandle_t handle; /* the last one; MOST_POOLS more than the one before */
    uint32_t size;             /* 0: the core has no such pool yet */
    uint32_t requests_before;  /* by pools that had this place before */
    uint32_t errors_before;
    uint32_t sizes;
    struct pool_size size_of[BLOCK_SIZES]; /* the largest first */
};

/* How far the load of a table has come that waits. */
enum load_state {
    NO_LOAD,
    LOADED, /* by a ground command, which asked for nothing more */
    VALIDATION_PENDING,
    VALIDATED,
    UPDATE_PENDING
};

/* Where the bytes of a table are from. */
struct source {
    char name[CFE_MISSION_MAX_PATH_LEN]; /* a file, or an address */
    uint32 seconds;                      /* the file's time */
    uint32 subseconds;
};

struct table {
    char name[CFE_TBL_MAX_FULL_NAME_LEN]; /* the full name */
    uint32_t users;                       /* handles; 0 while there is no table */
    uint32_t owner;                       /* the owner's handle in the core; 0 if it gave it back */
    uint32_t loader;                      /* the handle by which it is loaded just now, or 0 */
    const struct task *loading;           /* the task that does so */
    enum load_state state;
    bool is_commanded;  /* a ground command leads the load */
    bool is_active_due; /* a ground command asked for a validation of the table as it is */
    bool is_change;     /* what is staged is the owner's change of the bytes in place */
    CFE_TBL_CallbackFuncPtr_t validate;
    struct source source; /* of what is staged */
    uint32_t staged_crc;  /* of what was validated last */
    uint8_t *memory;      /* for the image and the copy */
    size_t memory_size;
    struct table *next; /* whose memory lies behind, in that which fsw_configure gave */
    uint8_t *image;     /* room for what is read and validated; null of a dump-only table */
    uint8_t *copy;      /* where the owner writes: a dump-only table, or a copy of another */
    uint64_t copied;    /* the version that the copy is of */
    uint64_t changes;   /* of a dump-only table: how often its owner said that it changed */
    CFE_TBL_Info_t info;
};

struct handle {
    uint32_t number; /* the core's; 0 while there is none */
    struct app *app;
    struct table *table;
    uint64_t told; /* the version that its application knows of */
    bool has_address;
};

/* A generic counter of Executive Services. */
struct counter {
    bool is_there;
    uint32_t count;
    char name[CFE_MISSION_MAX_API_LEN];
};

struct layer {
    pthread_mutex_t mutex;    /* it inherits priority; fsw_prepare makes it and the next */
    pthread_mutex_t printing; /* stands round a line that is printed */
    pthread_cond_t changed; /* a task or an application changed its state, or fsw_stop was called */
    bool has_priorities;    /* tasks run by their priorities */
    bool has_noticed;       /* that the system doesn't allow that */
    struct task *starting;  /* the task that the next thread of fsw_config.start_task is of */
    bool is_running;
    bool has_started;           /* all applications have: their tasks begin */
    bool is_stopping;           /* since fsw_stop, also one before the run */
    atomic_int_least64_t began; /* when the run did, in ns: read without the mutex */
    struct fsw_core core;
    struct fsw_limits limits;
    struct fsw_config config; /* it stays as it is during a run, but for what ground commands set */
    uint32_t events_seen; /* events that the core had logged when the last of the bus was told */
    uint32_t requests;    /* messages to services that no pipe got, since the counters' reset */
    struct fsw_counters bus_counters; /* the bus's, when they were reset */
    uint8_t bus_commands;
    uint8_t bus_command_errors;
    struct fsw_event_counts event_counts; /* when they were reset */
    uint8_t event_commands;
    uint8_t event_command_errors;
    uint16_t events_sent;                /* of applications, services and the bus; it wraps */
    uint8_t unregistered_events;         /* events of applications that weren't registered */
    uint16_t bus_events[BUS_EVENTS + 1]; /* how many of each kind there were, at most 65535 */
    uint32_t apps;
    struct app app[MOST_APPS];
    struct task task[MOST_TASKS];
    struct pipe pipe[PIPE_PLACES];
    struct pipe *asleep;       /* the first pipe that has sleepers */
    struct fsw_buffer *buffer; /* limits.buffers for each application */
    struct pool pool[MOST_POOLS];
    struct table table[MOST_TABLES];
    CFE_TBL_HousekeepingTlm_Payload_t table_counts; /* what isn't counted in the tables */
    struct table *first_table; /* whose memory lies first in that which fsw_configure gave */
    struct handle handle[MOST_HANDLES];
    struct counter counter[MOST_COUNTERS];
};

extern struct layer fsw_layer;

/* The task of this thread; null if it is of no application. */
extern _Thread_local struct task *fsw_self;

/* What is seldom called stays out of the callers' way. */
#define FSW_SELDOM __attribute__((noinline, cold))

/* Ends the program: a call of the system's failed that only overwritten memory can make fail. */
FSW_SELDOM _Noreturn void fsw_break(void);

static inline void fsw_must(int failed)
{
    if (failed)
        fsw_break();
}

/* Makes the mutex, once. Threads that are of no application call this before they take it. */
void fsw_prepare(void);

/* Ends the calling task, which has the mutex. */
FSW_SELDOM _Noreturn void fsw_end_task(void);

/* Ends the calling task, which has the mutex, if it was asked to end. */
static inline void fsw_end_if_asked(void)
{
    if (fsw_self->is_ending)
        fsw_end_task();
}

/*
 * Begins a call: the mutex is taken, and the caller's application is the answer. If the thread is
 * of no application, nothing is taken, and the answer is null. If the task was asked to end, it
 * ends here.
 */
static inline struct app *fsw_enter(void)
{
    const struct task *self = fsw_self;
    if (!self)
        return NULL;
    fsw_must(pthread_mutex_lock(&fsw_layer.mutex));
    if (self->is_ending)
        fsw_end_task();
    return self->app;
}

static inline void fsw_leave(void)
{
    fsw_must(pthread_mutex_unlock(&fsw_layer.mutex));
}

/* Goes on with a call that let the mutex go; the task doesn't end within it. */
static inline void fsw_resume(void)
{
    fsw_must(pthread_mutex_lock(&fsw_layer.mutex));
}

/* Has every task that sleeps look at what changed. */
void fsw_wake_all(void);

/* Starts the main task of an application; the caller has the mutex. */
bool fsw_start_main(struct app *app, void (*entry)(void));

/* Has an application end: each of its tasks at its next call. */
void fsw_end_app(struct app *app);

/* Joins the tasks that are done; the mutex is let go meanwhile. */
void fsw_join_tasks(void);

/* The time so many milliseconds from now, for waits. */
struct timespec fsw_after(uint32_t milliseconds);

/* Lets the mutex go until something changed: 0 then, ETIMEDOUT if the time comes first. */
int fsw_wait_until(const struct timespec *until);

/* Copies a text that is printed, cut to its room: what is no printable ASCII is a dot there. */
void fsw_copy_printable(char *to, size_t room, const char *from);

/* A status for an application: a status of the library's own, which cFE hasn't, is `otherwise`. */
static inline CFE_Status_t fsw_status(uint32_t status, CFE_Status_t otherwise)
{
    return status >> 16 == 0xc000 ? otherwise : (CFE_Status_t)status;
}

/* Ends a call with such a status. */
static inline CFE_Status_t fsw_leave_with(uint32_t status, CFE_Status_t otherwise)
{
    fsw_leave();
    return fsw_status(status, otherwise);
}

/* Wakes those who sleep on a pipe that has a message. */
FSW_SELDOM void fsw_wake_sleepers(void);

/* Wakes those who sleep on a pipe that this send reached. */
static inline void fsw_wake(const struct fsw_sent *sent)
{
    if (fsw_layer.asleep && sent->reached > 0)
        fsw_wake_sleepers();
}

/* Sends telemetry of the layer's own, with this or the present time, as an application's message.
 */
void fsw_send_at(const struct app *app, CFE_MSG_TelemetryHeader_t *packet, size_t size,
                 CFE_TIME_SysTime_t time);
void fsw_send_own(const struct app *app, CFE_MSG_TelemetryHeader_t *packet, size_t size);

/* An event that goes out. */
struct fsw_event {
    const char *from;
    uint16 id;
    uint16 type;
    CFE_TIME_SysTime_t time;
    const char *text;
};

/* Sends its packet, as a message of the caller's application. The caller has the mutex. */
void fsw_send_event_packet(const struct fsw_event *event);

/* Prints its line, or what is given, if the reader isn't behind. The caller hasn't the mutex. */
void fsw_print_event(const struct fsw_config *config, const struct fsw_event *event);
void fsw_print_line(int file, const char *line);

/* Sets the filters of an application, the first of each id, and their counts to 0. */
uint32_t fsw_set_filters(struct app *app, const CFE_EVS_BinFilter_t *filters, uint32_t count);

/* Resets a filter, or all. */
uint32_t fsw_unlock_filter(struct app *app, uint16 id);
uint32_t fsw_unlock_filters(struct app *app);

/* A live application by its number, or by its name; or null. */
struct app *fsw_app_numbered(CFE_ES_AppId_t number);
struct app *fsw_app_named(const char *name);

/* A message to a service: whole, or of one that is longer its header alone. */
struct fsw_command {
    size_t size; /* as its header says */
    union {
        CFE_MSG_Message_t message;
        uint8_t bytes[128];
        uint64_t alignment;
    };
};

/* Does what a message asks of the service that its id names. The caller hasn't the mutex. */
void fsw_serve(const struct fsw_command *command);

/* What services do with theirs. */
void fsw_serve_bus(const struct fsw_command *command);
void fsw_send_bus_housekeeping(const struct fsw_command *command);
void fsw_serve_events(const struct fsw_command *command);
void fsw_send_event_housekeeping(const struct fsw_command *command);
void fsw_serve_tables(const struct fsw_command *command);
void fsw_send_table_housekeeping(const struct fsw_command *command);

/* The function code; UINT8_MAX if the message is no command. */
uint32_t fsw_code_of(const struct fsw_command *command);

/* Sends and prints an event of a service's, where the configuration asks. */
void fsw_reply(const char *service, uint16 id, uint16 type, const char *format, ...)
    OS_PRINTF(4, 5);

/* A call of the bus, if cFE tells by an event that it was refused. */
struct fsw_asked {
    const char *call;
    uint16 bad_argument; /* the event for CFE_SB_BAD_ARGUMENT */
    uint32 id;           /* the message id, or 0 */
};

/*
 * Ends the caller's call with this status. What the bus logged of it is sent and printed where the
 * configuration asks, and that it was refused.
 */
FSW_SELDOM CFE_Status_t fsw_leave_telling(struct fsw_asked asked, uint32_t status);

/* Whether the configuration asks. */
static inline bool fsw_tells_events(void)
{
    return fsw_layer.config.sends_events || fsw_layer.config.prints_events;
}

static inline CFE_Status_t fsw_leave_bus(struct fsw_asked asked, uint32_t status)
{
    return fsw_tells_events() ? fsw_leave_telling(asked, status)
                              : fsw_leave_with(status, CFE_SB_BAD_ARGUMENT);
}

/* Lets go what an application still has, before its end in the core; and its pipes, behind it. */
void fsw_end_buffers(struct app *app);
void fsw_end_tables(struct app *app);
void fsw_end_pipes(void);

/* The layer doesn't touch the memory of an application's pools from now on: it may go away. */
void fsw_retire_pools(const struct app *app);

/* Drops what a task loads, if it ends within a validation function. */
void fsw_end_loads(const struct task *task);

/*
 * Sends and prints an event of a service of the layer's own, where the configuration asks. The
 * caller's task is an application's, and hasn't the mutex.
 */
void fsw_send_service_event(const char *service, uint16 id, uint16 type, const char *text);

#endif
