/*
 * osapi.h: what applications use most of cFE's OS layer: delays, printing, mutexes. A mutex may be
 * taken again by the task that has it, as cFE's on POSIX.
 */
#ifndef OSAPI_H
#define OSAPI_H

#include "common_types.h"

/* cFE's applications have these from here. */
#include <stdarg.h>
#include <stdio.h>
#include <stdlib.h>
#include <string.h>

#ifdef __cplusplus
extern "C" {
#endif

#define OS_MAX_API_NAME 20 /* bytes of a name, with its zero byte */
#define OS_MAX_PATH_LEN 64
#define OS_MAX_MUTEXES  20

#define OS_SUCCESS            (0)
#define OS_ERROR              (-1)
#define OS_INVALID_POINTER    (-2)
#define OS_SEM_FAILURE        (-6)
#define OS_ERR_NAME_TOO_LONG  (-13)
#define OS_ERR_NO_FREE_IDS    (-14)
#define OS_ERR_NAME_TAKEN     (-15)
#define OS_ERR_INVALID_ID     (-16)
#define OS_ERR_NAME_NOT_FOUND (-17)

#define OS_PEND                (-1)
#define OS_CHECK               (0)
#define OS_OBJECT_ID_UNDEFINED ((osal_id_t)0)

static inline bool OS_ObjectIdDefined(osal_id_t id)
{
    return id != OS_OBJECT_ID_UNDEFINED;
}

static inline bool OS_ObjectIdEqual(osal_id_t one, osal_id_t other)
{
    return one == other;
}

/* Sleeps. A task whose application ends meanwhile ends here. */
int32 OS_TaskDelay(uint32 millisecond);

void OS_printf(const char *string, ...) OS_PRINTF(1, 2);

int32 OS_MutSemCreate(osal_id_t *sem_id, const char *sem_name, uint32 options);
int32 OS_MutSemGive(osal_id_t sem_id);
int32 OS_MutSemTake(osal_id_t sem_id);
int32 OS_MutSemDelete(osal_id_t sem_id);
int32 OS_MutSemGetIdByName(osal_id_t *sem_id, const char *sem_name);

#ifdef __cplusplus
}
#endif

#endif
