/* fsw_run.h: starts applications written in cFE's names. This is what a program's main calls. */
#ifndef FSW_RUN_H
#define FSW_RUN_H

#include "cfe_error.h"
#include "fsw.h"

#ifdef __cplusplus
extern "C" {
#endif

/*
 * An application. If one of a run has a priority other than 0, all tasks of the run have theirs,
 * under SCHED_FIFO; otherwise the system schedules them as its other threads. If the system doesn't
 * allow SCHED_FIFO, a line on the standard error output says so, once, and they run without.
 */
struct fsw_app {
    const char *name;    /* 1 to 19 bytes; its thread has the first 15 */
    void (*entry)(void); /* its main function */
    uint8_t priority;    /* cFE's: 0 is the highest, 255 the lowest */
    uint32_t stack_size; /* bytes of stack for its own frames; 0: the system's usual stack */
};

/* A library in the shape of cFE's: its name, and what starts it, as LIB_Init. */
struct fsw_library {
    const char *name;
    int32_t (*init)(void);
};

/*
 * What becomes of events beside the log, and the numbers that they carry. All zero at first. Events
 * are the applications' and the bus's own (cfe_sb_events.h); of the latter only the first four of a
 * run that say that nobody subscribes, or that a subscription stood already, and the first sixteen
 * for a limit or a full pipe, as in cFE's usual configuration, unless all_bus_events is set.
 */
struct fsw_config {
    bool sends_events;   /* each goes out as a packet, CFE_EVS_LONG_EVENT_MSG_MID */
    bool prints_events;  /* each is printed as a line, as on cFE's port 1 */
    bool all_bus_events; /* the bus's own are not filtered */
    uint32_t spacecraft;
    uint32_t processor;
    /* The folder that the names of table files begin at: with "." /cf/x.tbl is ./cf/x.tbl, as by
     * cFE's OS layer on POSIX. No name leads out of it: `..` and links are refused. Null: names are
     * the system's. It stays where it is while the program runs. */
    const char *file_root;
    /* Memory for the layer's copies of tables, at a multiple of 8: twice the size of each table,
     * the size of a dump-only one, each size rounded up to a multiple of 16; and 16 bytes more.
     * Null: CFE_TBL_Register takes what it needs from malloc. */
    void *table_memory;
    size_t table_memory_size;
    /* Called in order before the applications start, on the thread of fsw_run. If one doesn't
     * answer CFE_SUCCESS, nothing is started. */
    const struct fsw_library *libraries;
    size_t library_count;
    /*
     * Starts a thread that calls `entry` once; 0 if there will be one. Null: the layer starts its
     * threads itself. With cFE's OS layer it calls OS_TaskCreate. It makes no call of the layer.
     */
    int (*start_task)(const char *name, void (*entry)(void), size_t stack_size, uint8_t priority);
};

/* Says this before fsw_run; it stays. During a run it has no effect. */
void fsw_configure(const struct fsw_config *config);

/*
 * Opens a bus of these limits (null: FSW_USUAL_LIMITS), runs each application on a thread of its
 * own, and returns when all have ended; the bus is closed then. The memory of messages and tables
 * stays taken (fsw_close), so a program runs once, or a few times.
 *
 * Answers 0 if nothing went wrong; otherwise how many applications ended by
 * CFE_ES_RunStatus_APP_ERROR and its neighbours, before a fsw_stop; or -1 if nothing was started: a
 * limit is out of its range, there is no memory or no thread, a library didn't start, there are 0
 * or more than limits.apps applications, a name isn't 1 to 19 bytes or is there twice, or the
 * program runs already.
 */
int fsw_run(const struct fsw_limits *limits, const struct fsw_app *apps, size_t count);

/* Sleeps. A task whose application ends meanwhile ends here; so OS_TaskDelay of c/osal does. */
void fsw_delay(uint32_t milliseconds);

/*
 * Asks all applications to end: CFE_ES_RunLoop answers false, and a CFE_SB_ReceiveBuffer that waits
 * is refused. Before fsw_run, it is kept for the next run. Any thread may call it; no signal
 * handler may.
 */
void fsw_stop(void);

/*
 * Has each SIGTERM and SIGINT call fsw_stop, on a thread of its own. Called by main before it
 * starts a thread: the signals are blocked in the caller, and in the threads that it starts then.
 * False if the system refuses.
 */
bool fsw_stop_at_signals(void);

/*
 * Stages the table file for the table that it names, as cFE's command CFE_TBL_LOAD_CC does, to be
 * validated and updated by the table's owner (CFE_TBL_Manage). Called by an application.
 *
 * Refused as CFE_TBL_Load of a file is, and with CFE_TBL_ERR_INVALID_NAME if no such table is
 * registered.
 */
CFE_Status_t fsw_stage_table(const char *file);

#ifdef __cplusplus
}
#endif

#endif
