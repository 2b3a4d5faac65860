/*
 * task.c: the tasks of applications: threads with a name, a stack and a priority, from their start
 * to their end.
 */
#define _GNU_SOURCE
#include "layer.h"

#include <errno.h>
#include <sched.h>
#include <stdio.h>
#include <string.h>
#include <unistd.h>

/* What the layer's own calls take of a task's stack at most, format strings among them. */
enum { OWN_STACK = 65536 };

/* The bytes of a thread's name that the system keeps, with its zero byte. */
enum { SYSTEM_NAME = 16 };

/* How long a thread of fsw_config.start_task may take to begin. */
enum { START_MS = 10000 };

_Thread_local struct task *fsw_self;

/* A jump, since pthread_exit needs a library that it loads then, and passes no catch (...). */
void fsw_end_task(void)
{
    fsw_leave();
    longjmp(fsw_self->end, 1);
}

void fsw_end_app(struct app *app)
{
    app->is_ending = true;
    fsw_retire_pools(app);
    for (size_t i = 0; i < MOST_TASKS; i++)
        if (fsw_layer.task[i].app == app)
            fsw_layer.task[i].is_ending = true;
}

/* However a task ends. Of what its thread still calls, the layer refuses all, as of any thread. */
static void finish_task(void *of)
{
    struct task *task = of;
    fsw_self = NULL;
    fsw_resume();
    fsw_end_loads(task);
    task->state = TASK_DONE;
    if (task->is_main)
        fsw_end_app(task->app);
    fsw_wake_all();
    fsw_leave();
}

/* Waits until all applications have a thread; false if the task was asked to end before. */
static bool may_begin(const struct task *task)
{
    fsw_resume();
    while (!fsw_layer.has_started)
        fsw_must(pthread_cond_wait(&fsw_layer.changed, &fsw_layer.mutex));
    bool may = !task->is_ending;
    fsw_leave();
    return may;
}

static void *run_task(void *of)
{
    struct task *task = of;
    fsw_self = task;
    pthread_cleanup_push(finish_task, task);
    if (may_begin(task) && setjmp(task->end) == 0)
        task->entry();
    pthread_cleanup_pop(1);
    return NULL;
}

/* ---- Threads ---- */

/* A priority of cFE's, 0 the highest, as one of SCHED_FIFO, whose highest is left to the system. */
static int fifo_priority(uint8_t priority)
{
    int least = sched_get_priority_min(SCHED_FIFO);
    int most = sched_get_priority_max(SCHED_FIFO) - 1;
    return most - priority * (most - least) / UINT8_MAX;
}

/* Writes a thread's stack, if a size is asked for, and priority, if tasks have them. */
static int set_attributes(pthread_attr_t *attributes, size_t stack_size, uint8_t priority)
{
    const struct sched_param parameters = {.sched_priority = fifo_priority(priority)};
    const size_t page = 4096, least = (size_t)sysconf(_SC_THREAD_STACK_MIN);
    int failed = 0;
    if (stack_size > SIZE_MAX / 2)
        return EINVAL;
    if (stack_size > 0)
        failed = pthread_attr_setstacksize(attributes, (stack_size + OWN_STACK + least + page - 1) /
                                                           page * page);
    if (failed || !fsw_layer.has_priorities)
        return failed;
    failed = pthread_attr_setinheritsched(attributes, PTHREAD_EXPLICIT_SCHED);
    if (!failed)
        failed = pthread_attr_setschedpolicy(attributes, SCHED_FIFO);
    return failed ? failed : pthread_attr_setschedparam(attributes, &parameters);
}

/* Says once that tasks run as the system's other threads do. */
static void notice_refusal(void)
{
    if (!fsw_layer.has_noticed)
        fputs("fsw: the system doesn't allow SCHED_FIFO: priorities have no effect\n", stderr);
    fsw_layer.has_noticed = true;
}

static void *run_named_task(void *of)
{
    const struct task *task = of;
    char short_name[SYSTEM_NAME];
    snprintf(short_name, sizeof short_name, "%.*s", SYSTEM_NAME - 1, task->name);
    fsw_must(pthread_setname_np(pthread_self(), short_name));
    return run_task(of);
}

/* Starts a thread of the layer's own. Answers 0, or why there is none. */
static int start_thread(struct task *task, size_t stack_size, uint8_t priority)
{
    pthread_attr_t attributes;
    int failed = pthread_attr_init(&attributes);
    if (failed)
        return failed;
    failed = set_attributes(&attributes, stack_size, priority);
    if (!failed)
        failed = pthread_create(&task->thread, &attributes, run_named_task, task);
    if (failed == EPERM) {
        notice_refusal();
        failed = pthread_attr_setinheritsched(&attributes, PTHREAD_INHERIT_SCHED);
        if (!failed)
            failed = pthread_create(&task->thread, &attributes, run_named_task, task);
    }
    fsw_must(pthread_attr_destroy(&attributes));
    return failed;
}

/* What a thread of fsw_config.start_task calls: it takes the task that is started. */
static void run_started_task(void)
{
    fsw_resume();
    struct task *task = fsw_layer.starting;
    fsw_layer.starting = NULL;
    fsw_wake_all();
    fsw_leave();
    if (task)
        run_task(task);
}

/* Waits, for a time, until no task is being started that way. */
static bool is_start_over(void)
{
    struct timespec until = fsw_after(START_MS);
    int woken = 0;
    while (fsw_layer.starting && woken == 0)
        woken = fsw_wait_until(&until);
    return !fsw_layer.starting;
}

/* Starts a thread as the configuration has it. Answers 0, or that there is none. */
static int start_thread_outside(struct task *task, size_t stack_size, uint8_t priority)
{
    if (!is_start_over())
        return EAGAIN;
    fsw_layer.starting = task;
    int failed = fsw_layer.config.start_task(task->name, run_started_task, stack_size, priority);
    if (!failed && is_start_over())
        return 0;
    fsw_layer.starting = NULL;
    return EAGAIN;
}

/* ---- Tasks ---- */

/* What a task is to be. */
struct wanted {
    struct app *app;
    const char *name;
    void (*entry)(void);
    size_t stack_size;
    uint8_t priority;
    bool is_main;
};

/* Starts a task; the caller has the mutex. Answers its place, from 1; 0: none. */
static uint32_t start_task(struct wanted wanted)
{
    uint32_t place = 0;
    while (place < MOST_TASKS && fsw_layer.task[place].state != TASK_NONE)
        place++;
    if (place == MOST_TASKS)
        return 0;
    struct task *task = &fsw_layer.task[place];
    bool is_own = !fsw_layer.config.start_task;
    *task = (struct task){.state = TASK_RUNS,
                          .is_main = wanted.is_main,
                          .is_joined = is_own,
                          .priority = wanted.priority,
                          .stack_size = wanted.stack_size,
                          .app = wanted.app,
                          .entry = wanted.entry};
    snprintf(task->name, sizeof task->name, "%s", wanted.name);
    wanted.app->tasks++;
    int failed = is_own ? start_thread(task, wanted.stack_size, wanted.priority)
                        : start_thread_outside(task, wanted.stack_size, wanted.priority);
    if (failed) {
        wanted.app->tasks--;
        task->state = TASK_NONE;
        return 0;
    }
    return place + 1;
}

bool fsw_start_main(struct app *app, void (*entry)(void))
{
    return start_task((struct wanted){app, app->name, entry, app->stack_size, app->priority, true});
}

/* A task that is done and wasn't joined yet; or null. */
static struct task *done_task(void)
{
    for (size_t i = 0; i < MOST_TASKS; i++)
        if (fsw_layer.task[i].state == TASK_DONE)
            return &fsw_layer.task[i];
    return NULL;
}

/* A thread that ends may still call the layer, so the mutex is let go. */
static void join_task(struct task *task)
{
    if (task->is_joined) {
        fsw_leave();
        fsw_must(pthread_join(task->thread, NULL));
        fsw_resume();
    }
    task->app->tasks--;
    task->state = TASK_NONE;
}

void fsw_join_tasks(void)
{
    struct task *task;
    while ((task = done_task()) != NULL)
        join_task(task);
}

/* ---- Calls ---- */

CFE_Status_t CFE_ES_CreateChildTask(CFE_ES_TaskId_t *TaskIdPtr, const char *TaskName,
                                    CFE_ES_ChildTaskMainFuncPtr_t FunctionPtr,
                                    CFE_ES_StackPointer_t StackPtr, size_t StackSize,
                                    CFE_ES_TaskPriority_Atom_t Priority, uint32 Flags)
{
    (void)StackPtr;
    (void)Flags;
    if (!TaskIdPtr || !TaskName || !FunctionPtr)
        return CFE_ES_BAD_ARGUMENT;
    struct app *app = fsw_enter();
    if (!app)
        return CFE_ES_ERR_RESOURCEID_NOT_VALID;
    /* As in cFE, a child has no children. */
    uint32_t place = 0;
    if (fsw_self->is_main)
        place = start_task(
            (struct wanted){app, TaskName, FunctionPtr, StackSize, Priority, .is_main = false});
    fsw_leave();
    if (!place)
        return CFE_ES_ERR_CHILD_TASK_CREATE;
    *TaskIdPtr = place;
    return CFE_SUCCESS;
}

CFE_Status_t CFE_ES_GetTaskID(CFE_ES_TaskId_t *TaskIdPtr)
{
    if (!TaskIdPtr)
        return CFE_ES_BAD_ARGUMENT;
    if (!fsw_enter())
        return CFE_ES_ERR_RESOURCEID_NOT_VALID;
    *TaskIdPtr = (CFE_ES_TaskId_t)(fsw_self - fsw_layer.task) + 1;
    fsw_leave();
    return CFE_SUCCESS;
}

static CFE_Status_t delete_task(uint32_t place)
{
    if (place < 1 || place > MOST_TASKS || fsw_layer.task[place - 1].state != TASK_RUNS)
        return CFE_ES_ERR_RESOURCEID_NOT_VALID;
    if (fsw_layer.task[place - 1].is_main)
        return CFE_ES_ERR_CHILD_TASK_DELETE_MAIN_TASK;
    fsw_layer.task[place - 1].is_ending = true;
    fsw_wake_all();
    return CFE_SUCCESS;
}

CFE_Status_t CFE_ES_DeleteChildTask(CFE_ES_TaskId_t TaskId)
{
    if (!fsw_enter())
        return CFE_ES_ERR_RESOURCEID_NOT_VALID;
    CFE_Status_t status = delete_task(TaskId);
    fsw_leave();
    return status;
}

void CFE_ES_ExitChildTask(void)
{
    if (!fsw_enter())
        return;
    if (!fsw_self->is_main)
        fsw_self->is_ending = true;
    fsw_end_if_asked();
    fsw_leave();
}

void CFE_ES_ExitApp(uint32 ExitStatus)
{
    struct app *app = fsw_enter();
    if (!app)
        return;
    app->has_failed = ExitStatus > CFE_ES_RunStatus_APP_EXIT && !fsw_layer.is_stopping;
    fsw_end_app(app);
    fsw_wake_all();
    fsw_end_task();
}
