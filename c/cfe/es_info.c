/* es_info.c: what Executive Services say of applications and tasks, and generic counters. */
#include "layer.h"

#include <stdio.h>
#include <string.h>

/* ---- Applications ---- */

/* The place of an application's main task, from 1. */
static uint32_t main_task_of(const struct app *app)
{
    for (uint32_t i = 0; i < MOST_TASKS; i++)
        if (fsw_layer.task[i].state == TASK_RUNS && fsw_layer.task[i].app == app &&
            fsw_layer.task[i].is_main)
            return i + 1;
    return CFE_ES_TASKID_UNDEFINED;
}

static void write_app(CFE_ES_AppInfo_t *info, const struct app *app)
{
    uint32_t place = main_task_of(app);
    memset(info, 0, sizeof *info);
    info->ResourceId = app->number;
    info->Type = CFE_ES_AppType_EXTERNAL;
    snprintf(info->Name, sizeof info->Name, "%s", app->name);
    info->StackSize = app->stack_size;
    info->Priority = app->priority;
    info->MainTaskId = place;
    if (place) {
        const struct task *task = &fsw_layer.task[place - 1];
        info->ExecutionCounter = task->counter;
        snprintf(info->MainTaskName, sizeof info->MainTaskName, "%s", task->name);
    }
    info->NumOfChildTasks = app->tasks - (place != 0);
}

CFE_Status_t CFE_ES_GetAppInfo(CFE_ES_AppInfo_t *AppInfo, CFE_ES_AppId_t AppId)
{
    if (!AppInfo)
        return CFE_ES_BAD_ARGUMENT;
    if (!fsw_enter())
        return CFE_ES_ERR_RESOURCEID_NOT_VALID;
    const struct app *app = fsw_app_numbered(AppId);
    if (app)
        write_app(AppInfo, app);
    fsw_leave();
    return app ? CFE_SUCCESS : CFE_ES_ERR_RESOURCEID_NOT_VALID;
}

/* ---- Tasks ---- */

static struct task *task_numbered(CFE_ES_TaskId_t number)
{
    bool is_task =
        1 <= number && number <= MOST_TASKS && fsw_layer.task[number - 1].state == TASK_RUNS;
    return is_task ? &fsw_layer.task[number - 1] : NULL;
}

CFE_Status_t CFE_ES_GetTaskInfo(CFE_ES_TaskInfo_t *TaskInfo, CFE_ES_TaskId_t TaskId)
{
    if (!TaskInfo)
        return CFE_ES_BAD_ARGUMENT;
    if (!fsw_enter())
        return CFE_ES_ERR_RESOURCEID_NOT_VALID;
    const struct task *task = task_numbered(TaskId);
    if (task) {
        memset(TaskInfo, 0, sizeof *TaskInfo);
        TaskInfo->TaskId = TaskId;
        TaskInfo->ExecutionCounter = task->counter;
        snprintf(TaskInfo->TaskName, sizeof TaskInfo->TaskName, "%s", task->name);
        TaskInfo->AppId = task->app->number;
        snprintf(TaskInfo->AppName, sizeof TaskInfo->AppName, "%s", task->app->name);
        TaskInfo->StackSize = task->stack_size;
        TaskInfo->Priority = task->priority;
    }
    fsw_leave();
    return task ? CFE_SUCCESS : CFE_ES_ERR_RESOURCEID_NOT_VALID;
}

CFE_Status_t CFE_ES_GetTaskName(char *TaskName, CFE_ES_TaskId_t TaskId, size_t BufferLength)
{
    if (!TaskName || BufferLength == 0)
        return CFE_ES_BAD_ARGUMENT;
    if (!fsw_enter())
        return CFE_ES_ERR_RESOURCEID_NOT_VALID;
    const struct task *task = task_numbered(TaskId);
    if (task)
        snprintf(TaskName, BufferLength, "%s", task->name);
    fsw_leave();
    return task ? CFE_SUCCESS : CFE_ES_ERR_RESOURCEID_NOT_VALID;
}

CFE_Status_t CFE_ES_GetTaskIDByName(CFE_ES_TaskId_t *TaskIdPtr, const char *TaskName)
{
    uint32_t place = CFE_ES_TASKID_UNDEFINED;
    if (!TaskIdPtr || !TaskName)
        return CFE_ES_BAD_ARGUMENT;
    if (!fsw_enter())
        return CFE_ES_ERR_NAME_NOT_FOUND;
    for (uint32_t i = MOST_TASKS; i > 0; i--)
        if (fsw_layer.task[i - 1].state == TASK_RUNS &&
            strcmp(fsw_layer.task[i - 1].name, TaskName) == 0)
            place = i;
    fsw_leave();
    *TaskIdPtr = place;
    return place ? CFE_SUCCESS : CFE_ES_ERR_NAME_NOT_FOUND;
}

void CFE_ES_IncrementTaskCounter(void)
{
    if (!fsw_enter())
        return;
    fsw_self->counter++;
    fsw_leave();
}

/* A program starts when the power comes on, as far as applications see. */
int32 CFE_ES_GetResetType(uint32 *ResetSubtypePtr)
{
    if (ResetSubtypePtr)
        *ResetSubtypePtr = CFE_PSP_RST_SUBTYPE_POWER_CYCLE;
    return CFE_PSP_RST_TYPE_POWERON;
}

/* ---- Indices ---- */

/* The place of a number from 1 to `most`, from 0. */
static CFE_Status_t index_of(CFE_ResourceId_t number, uint32_t most, uint32 *index)
{
    if (!index)
        return CFE_ES_BAD_ARGUMENT;
    if (number < 1 || number > most)
        return CFE_ES_ERR_RESOURCEID_NOT_VALID;
    *index = number - 1;
    return CFE_SUCCESS;
}

CFE_Status_t CFE_ES_AppID_ToIndex(CFE_ES_AppId_t AppID, uint32 *Idx)
{
    return index_of(AppID, MOST_APPS, Idx);
}

CFE_Status_t CFE_ES_TaskID_ToIndex(CFE_ES_TaskId_t TaskID, uint32 *Idx)
{
    return index_of(TaskID, MOST_TASKS, Idx);
}

CFE_Status_t CFE_ES_CounterID_ToIndex(CFE_ES_CounterId_t CounterId, uint32 *Idx)
{
    return index_of(CounterId, MOST_COUNTERS, Idx);
}

/* ---- Generic counters ---- */

/* A counter by its number, or null. */
static struct counter *counter_numbered(CFE_ES_CounterId_t number)
{
    bool is_there =
        1 <= number && number <= MOST_COUNTERS && fsw_layer.counter[number - 1].is_there;
    return is_there ? &fsw_layer.counter[number - 1] : NULL;
}

/* The number of the counter of a name; with null, of a free place; 0: there is none. */
static CFE_ES_CounterId_t counter_named(const char *name)
{
    for (uint32_t i = 0; i < MOST_COUNTERS; i++) {
        const struct counter *counter = &fsw_layer.counter[i];
        if (name ? counter->is_there && strcmp(counter->name, name) == 0 : !counter->is_there)
            return i + 1;
    }
    return CFE_ES_COUNTERID_UNDEFINED;
}

CFE_Status_t CFE_ES_RegisterGenCounter(CFE_ES_CounterId_t *CounterIdPtr, const char *CounterName)
{
    if (!CounterIdPtr || !CounterName || strlen(CounterName) >= CFE_MISSION_MAX_API_LEN)
        return CFE_ES_BAD_ARGUMENT;
    *CounterIdPtr = CFE_ES_COUNTERID_UNDEFINED;
    if (!fsw_enter())
        return CFE_ES_ERR_RESOURCEID_NOT_VALID;
    CFE_Status_t status = CFE_ES_ERR_DUPLICATE_NAME;
    CFE_ES_CounterId_t number = counter_named(NULL);
    if (!counter_named(CounterName))
        status = number ? CFE_SUCCESS : CFE_ES_NO_RESOURCE_IDS_AVAILABLE;
    if (status == CFE_SUCCESS) {
        struct counter *counter = &fsw_layer.counter[number - 1];
        *counter = (struct counter){.is_there = true};
        snprintf(counter->name, sizeof counter->name, "%s", CounterName);
        *CounterIdPtr = number;
    }
    fsw_leave();
    return status;
}

CFE_Status_t CFE_ES_DeleteGenCounter(CFE_ES_CounterId_t CounterId)
{
    if (!fsw_enter())
        return CFE_ES_ERR_RESOURCEID_NOT_VALID;
    struct counter *counter = counter_numbered(CounterId);
    if (counter)
        counter->is_there = false;
    fsw_leave();
    return counter ? CFE_SUCCESS : CFE_ES_BAD_ARGUMENT;
}

CFE_Status_t CFE_ES_IncrementGenCounter(CFE_ES_CounterId_t CounterId)
{
    if (!fsw_enter())
        return CFE_ES_ERR_RESOURCEID_NOT_VALID;
    struct counter *counter = counter_numbered(CounterId);
    if (counter)
        counter->count++;
    fsw_leave();
    return counter ? CFE_SUCCESS : CFE_ES_BAD_ARGUMENT;
}

CFE_Status_t CFE_ES_SetGenCount(CFE_ES_CounterId_t CounterId, uint32 Count)
{
    if (!fsw_enter())
        return CFE_ES_ERR_RESOURCEID_NOT_VALID;
    struct counter *counter = counter_numbered(CounterId);
    if (counter)
        counter->count = Count;
    fsw_leave();
    return counter ? CFE_SUCCESS : CFE_ES_BAD_ARGUMENT;
}

CFE_Status_t CFE_ES_GetGenCount(CFE_ES_CounterId_t CounterId, uint32 *Count)
{
    if (!Count)
        return CFE_ES_BAD_ARGUMENT;
    if (!fsw_enter())
        return CFE_ES_ERR_RESOURCEID_NOT_VALID;
    const struct counter *counter = counter_numbered(CounterId);
    if (counter)
        *Count = counter->count;
    fsw_leave();
    return counter ? CFE_SUCCESS : CFE_ES_BAD_ARGUMENT;
}

CFE_Status_t CFE_ES_GetGenCounterIDByName(CFE_ES_CounterId_t *CounterIdPtr, const char *CounterName)
{
    if (!CounterIdPtr || !CounterName)
        return CFE_ES_BAD_ARGUMENT;
    if (!fsw_enter())
        return CFE_ES_ERR_NAME_NOT_FOUND;
    *CounterIdPtr = counter_named(CounterName);
    fsw_leave();
    return *CounterIdPtr ? CFE_SUCCESS : CFE_ES_ERR_NAME_NOT_FOUND;
}

CFE_Status_t CFE_ES_GetGenCounterName(char *CounterName, CFE_ES_CounterId_t CounterId,
                                      size_t BufferLength)
{
    if (!CounterName || BufferLength == 0)
        return CFE_ES_BAD_ARGUMENT;
    if (!fsw_enter())
        return CFE_ES_ERR_RESOURCEID_NOT_VALID;
    const struct counter *counter = counter_numbered(CounterId);
    if (counter)
        snprintf(CounterName, BufferLength, "%s", counter->name);
    fsw_leave();
    return counter ? CFE_SUCCESS : CFE_ES_ERR_RESOURCEID_NOT_VALID;
}

/* ---- What isn't there ---- */

CFE_Status_t CFE_ES_RegisterCDS(CFE_ES_CDSHandle_t *CDSHandlePtr, size_t BlockSize,
                                const char *Name)
{
    (void)BlockSize;
    if (!CDSHandlePtr || !Name)
        return CFE_ES_BAD_ARGUMENT;
    *CDSHandlePtr = CFE_ES_CDS_BAD_HANDLE;
    return CFE_STATUS_NOT_IMPLEMENTED;
}

CFE_Status_t CFE_ES_CopyToCDS(CFE_ES_CDSHandle_t Handle, const void *DataToCopy)
{
    (void)Handle;
    (void)DataToCopy;
    return CFE_STATUS_NOT_IMPLEMENTED;
}

CFE_Status_t CFE_ES_RestoreFromCDS(void *RestoreToMemory, CFE_ES_CDSHandle_t Handle)
{
    (void)RestoreToMemory;
    (void)Handle;
    return CFE_STATUS_NOT_IMPLEMENTED;
}

CFE_Status_t CFE_ES_RestartApp(CFE_ES_AppId_t AppID)
{
    (void)AppID;
    return CFE_STATUS_NOT_IMPLEMENTED;
}

CFE_Status_t CFE_ES_ReloadApp(CFE_ES_AppId_t AppID, const char *AppFileName)
{
    (void)AppID;
    (void)AppFileName;
    return CFE_STATUS_NOT_IMPLEMENTED;
}

CFE_Status_t CFE_ES_DeleteApp(CFE_ES_AppId_t AppID)
{
    (void)AppID;
    return CFE_STATUS_NOT_IMPLEMENTED;
}

CFE_Status_t CFE_ES_ResetCFE(uint32 ResetType)
{
    (void)ResetType;
    return CFE_STATUS_NOT_IMPLEMENTED;
}
