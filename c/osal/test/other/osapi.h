/* osapi.h: another OS layer, in the shape of cFE's own. It knows nothing of the message core. */
#ifndef OTHER_OSAPI_H
#define OTHER_OSAPI_H

#include "common_types.h"

#include <stdarg.h>
#include <stdio.h>
#include <stdlib.h>
#include <string.h>

#define OS_MAX_API_NAME 20
#define OS_MAX_PATH_LEN 64
#define OS_SUCCESS      0
#define OS_ERROR        (-1)

#define OSAL_TASK_STACK_ALLOCATE  NULL
#define OSAL_PRIORITY_C(priority) ((osal_priority_t)(priority))

typedef uint8 osal_priority_t;
typedef void *osal_stackptr_t;
typedef void osal_task;
typedef osal_task((*osal_task_entry)(void));

int32 OS_TaskCreate(osal_id_t *task_id, const char *task_name, osal_task_entry function_pointer,
                    osal_stackptr_t stack_pointer, size_t stack_size, osal_priority_t priority,
                    uint32 flags);
int32 OS_TaskDelay(uint32 millisecond);
void OS_printf(const char *string, ...) OS_PRINTF(1, 2);
int32 OS_MutSemCreate(osal_id_t *sem_id, const char *sem_name, uint32 options);
int32 OS_MutSemGive(osal_id_t sem_id);
int32 OS_MutSemTake(osal_id_t sem_id);

/* For the test: how many tasks were created, how many of them ended, and the last one. */
struct other_tasks {
    int created, ended;
    char name[OS_MAX_API_NAME];
    size_t stack_size;
    osal_priority_t priority;
};
struct other_tasks other_tasks(void);

#endif
