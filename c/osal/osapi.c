/* osapi.c: delays, printing and mutexes in the names of cFE's OS layer, over the layer. */
#include "osapi.h"
#include "fsw_run.h"

#include <poll.h>
#include <pthread.h>
#include <stdatomic.h>
#include <unistd.h>

int32 OS_TaskDelay(uint32 millisecond)
{
    fsw_delay(millisecond);
    return OS_SUCCESS;
}

/* Nothing is printed while the reader is behind, which may be for ever. */
void OS_printf(const char *string, ...)
{
    static atomic_uint unprinted;
    struct pollfd output = {.fd = STDOUT_FILENO, .events = POLLOUT};
    if (poll(&output, 1, 0) != 1 || !(output.revents & POLLOUT)) {
        atomic_fetch_add(&unprinted, 1);
        return;
    }
    unsigned missing = atomic_exchange(&unprinted, 0);
    if (missing > 0)
        printf("OS_printf: %u texts weren't printed\n", missing);
    va_list arguments;
    va_start(arguments, string);
    vprintf(string, arguments);
    va_end(arguments);
    fflush(stdout);
}

/* ---- Mutexes ---- */

struct named_mutex {
    bool is_made;
    char name[OS_MAX_API_NAME];
    pthread_mutex_t mutex;
};

static struct named_mutex mutexes[OS_MAX_MUTEXES];

/* Stands round all calls on them, but for the waits. */
static pthread_mutex_t guard;
static pthread_once_t once = PTHREAD_ONCE_INIT;

/* A call of the system's that only overwritten memory can make fail. */
static void must(int failed)
{
    if (failed)
        abort();
}

static int make(pthread_mutex_t *mutex)
{
    pthread_mutexattr_t kind;
    must(pthread_mutexattr_init(&kind));
    must(pthread_mutexattr_settype(&kind, PTHREAD_MUTEX_RECURSIVE));
    must(pthread_mutexattr_setprotocol(&kind, PTHREAD_PRIO_INHERIT));
    int failed = pthread_mutex_init(mutex, &kind);
    must(pthread_mutexattr_destroy(&kind));
    return failed;
}

static void make_guard(void)
{
    must(make(&guard));
}

static void enter(void)
{
    must(pthread_once(&once, make_guard));
    must(pthread_mutex_lock(&guard));
}

static void leave(void)
{
    must(pthread_mutex_unlock(&guard));
}

/* The place of a name, from 1; 0: none has it. */
static osal_id_t mutex_named(const char *name)
{
    for (osal_id_t id = 1; id <= OS_MAX_MUTEXES; id++)
        if (mutexes[id - 1].is_made && strcmp(mutexes[id - 1].name, name) == 0)
            return id;
    return OS_OBJECT_ID_UNDEFINED;
}

static int32 make_mutex(const char *name, osal_id_t *id)
{
    osal_id_t free = 1;
    if (mutex_named(name))
        return OS_ERR_NAME_TAKEN;
    while (free <= OS_MAX_MUTEXES && mutexes[free - 1].is_made)
        free++;
    if (free > OS_MAX_MUTEXES)
        return OS_ERR_NO_FREE_IDS;
    struct named_mutex *made = &mutexes[free - 1];
    if (make(&made->mutex) != 0)
        return OS_SEM_FAILURE;
    made->is_made = true;
    strcpy(made->name, name);
    *id = free;
    return OS_SUCCESS;
}

int32 OS_MutSemCreate(osal_id_t *sem_id, const char *sem_name, uint32 options)
{
    (void)options;
    if (!sem_id || !sem_name)
        return OS_INVALID_POINTER;
    if (strlen(sem_name) >= OS_MAX_API_NAME)
        return OS_ERR_NAME_TOO_LONG;
    enter();
    int32 status = make_mutex(sem_name, sem_id);
    leave();
    return status;
}

/* A mutex by its number; null: none. It lies still until it is deleted. */
static pthread_mutex_t *mutex_at(osal_id_t id)
{
    pthread_mutex_t *found = NULL;
    enter();
    if (1 <= id && id <= OS_MAX_MUTEXES && mutexes[id - 1].is_made)
        found = &mutexes[id - 1].mutex;
    leave();
    return found;
}

int32 OS_MutSemTake(osal_id_t sem_id)
{
    pthread_mutex_t *mutex = mutex_at(sem_id);
    if (!mutex)
        return OS_ERR_INVALID_ID;
    return pthread_mutex_lock(mutex) == 0 ? OS_SUCCESS : OS_SEM_FAILURE;
}

int32 OS_MutSemGive(osal_id_t sem_id)
{
    pthread_mutex_t *mutex = mutex_at(sem_id);
    if (!mutex)
        return OS_ERR_INVALID_ID;
    return pthread_mutex_unlock(mutex) == 0 ? OS_SUCCESS : OS_SEM_FAILURE;
}

int32 OS_MutSemDelete(osal_id_t sem_id)
{
    int32 status = OS_ERR_INVALID_ID;
    enter();
    if (1 <= sem_id && sem_id <= OS_MAX_MUTEXES && mutexes[sem_id - 1].is_made)
        status = pthread_mutex_destroy(&mutexes[sem_id - 1].mutex) ? OS_SEM_FAILURE : OS_SUCCESS;
    if (status == OS_SUCCESS)
        mutexes[sem_id - 1].is_made = false;
    leave();
    return status;
}

int32 OS_MutSemGetIdByName(osal_id_t *sem_id, const char *sem_name)
{
    if (!sem_id || !sem_name)
        return OS_INVALID_POINTER;
    enter();
    osal_id_t id = mutex_named(sem_name);
    leave();
    if (id)
        *sem_id = id;
    return id ? OS_SUCCESS : OS_ERR_NAME_NOT_FOUND;
}
