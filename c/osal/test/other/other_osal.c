/* other_osal.c: the tasks are detached threads, as cFE's OS layer has them on POSIX. */
#include "osapi.h"

#include <pthread.h>
#include <time.h>

enum { MOST_TASKS = 16 };

struct entry {
    osal_task_entry function;
};

static pthread_mutex_t mutex = PTHREAD_MUTEX_INITIALIZER, semaphore = PTHREAD_MUTEX_INITIALIZER;
static struct entry entries[MOST_TASKS];
static struct other_tasks tasks;

static void *run(void *of)
{
    const struct entry *entry = of;
    entry->function();
    pthread_mutex_lock(&mutex);
    tasks.ended++;
    pthread_mutex_unlock(&mutex);
    return NULL;
}

int32 OS_TaskCreate(osal_id_t *task_id, const char *task_name, osal_task_entry function_pointer,
                    osal_stackptr_t stack_pointer, size_t stack_size, osal_priority_t priority,
                    uint32 flags)
{
    pthread_t thread;
    int32 status = OS_ERROR;
    (void)stack_pointer;
    (void)flags;
    pthread_mutex_lock(&mutex);
    if (tasks.created < MOST_TASKS && strcmp(task_name, "NEVER") != 0) {
        struct entry *entry = &entries[tasks.created];
        entry->function = function_pointer;
        if (pthread_create(&thread, NULL, run, entry) == 0 && pthread_detach(thread) == 0) {
            task_id->object = entry;
            tasks.created++;
            snprintf(tasks.name, sizeof tasks.name, "%s", task_name);
            tasks.stack_size = stack_size;
            tasks.priority = priority;
            status = OS_SUCCESS;
        }
    }
    pthread_mutex_unlock(&mutex);
    return status;
}

int32 OS_TaskDelay(uint32 millisecond)
{
    const struct timespec time = {millisecond / 1000, millisecond % 1000 * 1000000L};
    return nanosleep(&time, NULL) == 0 ? OS_SUCCESS : OS_ERROR;
}

void OS_printf(const char *string, ...)
{
    va_list arguments;
    va_start(arguments, string);
    vprintf(string, arguments);
    va_end(arguments);
}

int32 OS_MutSemCreate(osal_id_t *sem_id, const char *sem_name, uint32 options)
{
    (void)sem_name;
    (void)options;
    sem_id->object = &semaphore;
    return OS_SUCCESS;
}

int32 OS_MutSemTake(osal_id_t sem_id)
{
    return sem_id.object == &semaphore && pthread_mutex_lock(&semaphore) == 0 ? OS_SUCCESS
                                                                              : OS_ERROR;
}

int32 OS_MutSemGive(osal_id_t sem_id)
{
    return sem_id.object == &semaphore && pthread_mutex_unlock(&semaphore) == 0 ? OS_SUCCESS
                                                                                : OS_ERROR;
}

struct other_tasks other_tasks(void)
{
    pthread_mutex_lock(&mutex);
    struct other_tasks now = tasks;
    pthread_mutex_unlock(&mutex);
    return now;
}
