/* cfe_es.h: Executive Services: an application's loop and end, its tasks, memory pools. */
#ifndef CFE_ES_H
#define CFE_ES_H

#include "cfe_error.h"
#include "cfe_mission_cfg.h"
#include "common_types.h"

#ifdef __cplusplus
extern "C" {
#endif

typedef uint32 CFE_ResourceId_t;
typedef CFE_ResourceId_t CFE_ES_AppId_t;
typedef CFE_ResourceId_t CFE_ES_TaskId_t;
typedef CFE_ResourceId_t CFE_ES_MemHandle_t;
typedef CFE_ResourceId_t CFE_ES_CounterId_t;
typedef CFE_ResourceId_t CFE_ES_CDSHandle_t;

#define CFE_RESOURCEID_UNDEFINED        ((CFE_ResourceId_t)0)
#define CFE_ES_APPID_UNDEFINED          ((CFE_ES_AppId_t)0)
#define CFE_ES_TASKID_UNDEFINED         ((CFE_ES_TaskId_t)0)
#define CFE_ES_MEMHANDLE_UNDEFINED      ((CFE_ES_MemHandle_t)0)
#define CFE_ES_COUNTERID_UNDEFINED      ((CFE_ES_CounterId_t)0)
#define CFE_ES_CDS_BAD_HANDLE           ((CFE_ES_CDSHandle_t)0)
#define CFE_RESOURCEID_TEST_DEFINED(id) ((id) != 0)
#define CFE_RESOURCEID_TEST_EQUAL(a, b) ((a) == (b))
#define CFE_RESOURCEID_TO_ULONG(id)     ((unsigned long)(id))

enum CFE_ES_RunStatus {
    CFE_ES_RunStatus_UNDEFINED = 0,
    CFE_ES_RunStatus_APP_RUN = 1,
    CFE_ES_RunStatus_APP_EXIT = 2,
    CFE_ES_RunStatus_APP_ERROR = 3,
    CFE_ES_RunStatus_SYS_EXCEPTION = 4,
    CFE_ES_RunStatus_SYS_RESTART = 5,
    CFE_ES_RunStatus_SYS_RELOAD = 6,
    CFE_ES_RunStatus_SYS_DELETE = 7
};

/* Whether the application goes on: not if it set another status, or if fsw_stop was called. */
bool CFE_ES_RunLoop(uint32 *RunStatus);

/* Ends the calling task, and with it the application. The application's other tasks end at their
 * next call. */
void CFE_ES_ExitApp(uint32 ExitStatus);

/* Waits, for so many milliseconds at most, until each application runs its loop, waits here, or has
 * ended. */
void CFE_ES_WaitForStartupSync(uint32 TimeOutMilliseconds);

enum CFE_ES_SystemState {
    CFE_ES_SystemState_UNDEFINED = 0,
    CFE_ES_SystemState_EARLY_INIT = 1,
    CFE_ES_SystemState_CORE_STARTUP = 2,
    CFE_ES_SystemState_CORE_READY = 3,
    CFE_ES_SystemState_APPS_INIT = 4,
    CFE_ES_SystemState_OPERATIONAL = 5,
    CFE_ES_SystemState_SHUTDOWN = 6
};

/* So too. The core is ready at once; the next two states are the one that StartupSync waits for. */
CFE_Status_t CFE_ES_WaitForSystemState(uint32 MinSystemState, uint32 TimeOutMilliseconds);

CFE_Status_t CFE_ES_GetAppID(CFE_ES_AppId_t *AppIdPtr);
CFE_Status_t CFE_ES_GetAppIDByName(CFE_ES_AppId_t *AppIdPtr, const char *AppName);
CFE_Status_t CFE_ES_GetAppName(char *AppName, CFE_ES_AppId_t AppId, size_t BufferLength);

/* The priority is as struct fsw_app's. What a program of one file hasn't is 0. */
typedef uint8 CFE_ES_TaskPriority_Atom_t;

enum CFE_ES_AppType {
    CFE_ES_AppType_CORE = 1,
    CFE_ES_AppType_EXTERNAL = 2,
    CFE_ES_AppType_LIBRARY = 3
};

typedef struct CFE_ES_AppInfo {
    CFE_ResourceId_t ResourceId;
    uint32 Type; /* CFE_ES_AppType_EXTERNAL */
    char Name[CFE_MISSION_MAX_API_LEN];
    char EntryPoint[CFE_MISSION_MAX_API_LEN];
    char FileName[CFE_MISSION_MAX_PATH_LEN];
    size_t StackSize;
    uint32 AddressesAreValid;
    uint32 CodeAddress;
    uint32 CodeSize;
    uint32 DataAddress;
    uint32 DataSize;
    uint32 BSSAddress;
    uint32 BSSSize;
    uint32 StartAddress;
    uint16 ExceptionAction;
    CFE_ES_TaskPriority_Atom_t Priority;
    CFE_ES_TaskId_t MainTaskId;
    uint32 ExecutionCounter; /* calls of CFE_ES_RunLoop and of CFE_ES_IncrementTaskCounter */
    char MainTaskName[CFE_MISSION_MAX_API_LEN];
    uint32 NumOfChildTasks;
} CFE_ES_AppInfo_t;

CFE_Status_t CFE_ES_GetAppInfo(CFE_ES_AppInfo_t *AppInfo, CFE_ES_AppId_t AppId);

/* A place for a table by applications, below CFE_PLATFORM_ES_MAX_APPLICATIONS. */
CFE_Status_t CFE_ES_AppID_ToIndex(CFE_ES_AppId_t AppID, uint32 *Idx);

/* Answers CFE_PSP_RST_TYPE_POWERON. */
#ifndef CFE_PSP_RST_TYPE_POWERON
#define CFE_PSP_RST_TYPE_PROCESSOR      1
#define CFE_PSP_RST_TYPE_POWERON        2
#define CFE_PSP_RST_SUBTYPE_POWER_CYCLE 1
#endif
int32 CFE_ES_GetResetType(uint32 *ResetSubtypePtr);

/*
 * Writes a line to the standard error output: the time, the application's name and the text, whose
 * end is added if it has none.
 */
CFE_Status_t CFE_ES_WriteToSysLog(const char *SpecStringPtr, ...) OS_PRINTF(1, 2);

/* Nothing is kept of performance. */
#define CFE_ES_PerfLogEntry(id) CFE_ES_PerfLogAdd(id, 0)
#define CFE_ES_PerfLogExit(id)  CFE_ES_PerfLogAdd(id, 1)
static inline void CFE_ES_PerfLogAdd(uint32 Marker, uint32 EntryExit)
{
    (void)Marker;
    (void)EntryExit;
}

/*
 * Child tasks belong to the application that made them. StackSize is for the task's own frames, 0
 * the system's usual; Priority is as struct fsw_app's. StackPtr and Flags have no effect.
 */
typedef void (*CFE_ES_TaskEntryFuncPtr_t)(void);
typedef CFE_ES_TaskEntryFuncPtr_t CFE_ES_ChildTaskMainFuncPtr_t;
typedef void *CFE_ES_StackPointer_t;
#define CFE_ES_TASK_STACK_ALLOCATE ((CFE_ES_StackPointer_t)0)

CFE_Status_t CFE_ES_CreateChildTask(CFE_ES_TaskId_t *TaskIdPtr, const char *TaskName,
                                    CFE_ES_ChildTaskMainFuncPtr_t FunctionPtr,
                                    CFE_ES_StackPointer_t StackPtr, size_t StackSize,
                                    CFE_ES_TaskPriority_Atom_t Priority, uint32 Flags);
CFE_Status_t CFE_ES_GetTaskID(CFE_ES_TaskId_t *TaskIdPtr);

CFE_Status_t CFE_ES_GetTaskIDByName(CFE_ES_TaskId_t *TaskIdPtr, const char *TaskName);
CFE_Status_t CFE_ES_GetTaskName(char *TaskName, CFE_ES_TaskId_t TaskId, size_t BufferLength);
CFE_Status_t CFE_ES_TaskID_ToIndex(CFE_ES_TaskId_t TaskID, uint32 *Idx);

typedef struct CFE_ES_TaskInfo {
    CFE_ES_TaskId_t TaskId;
    uint32 ExecutionCounter;
    char TaskName[CFE_MISSION_MAX_API_LEN];
    CFE_ES_AppId_t AppId;
    char AppName[CFE_MISSION_MAX_API_LEN];
    size_t StackSize;
    CFE_ES_TaskPriority_Atom_t Priority;
    uint8 Spare[2];
} CFE_ES_TaskInfo_t;

CFE_Status_t CFE_ES_GetTaskInfo(CFE_ES_TaskInfo_t *TaskInfo, CFE_ES_TaskId_t TaskId);
void CFE_ES_IncrementTaskCounter(void);

/* Counters by name, at most CFE_PLATFORM_ES_MAX_GEN_COUNTERS; each is everybody's. */
CFE_Status_t CFE_ES_RegisterGenCounter(CFE_ES_CounterId_t *CounterIdPtr, const char *CounterName);
CFE_Status_t CFE_ES_DeleteGenCounter(CFE_ES_CounterId_t CounterId);
CFE_Status_t CFE_ES_IncrementGenCounter(CFE_ES_CounterId_t CounterId);
CFE_Status_t CFE_ES_SetGenCount(CFE_ES_CounterId_t CounterId, uint32 Count);
CFE_Status_t CFE_ES_GetGenCount(CFE_ES_CounterId_t CounterId, uint32 *Count);
CFE_Status_t CFE_ES_GetGenCounterIDByName(CFE_ES_CounterId_t *CounterIdPtr,
                                          const char *CounterName);
CFE_Status_t CFE_ES_GetGenCounterName(char *CounterName, CFE_ES_CounterId_t CounterId,
                                      size_t BufferLength);
CFE_Status_t CFE_ES_CounterID_ToIndex(CFE_ES_CounterId_t CounterId, uint32 *Idx);

/* These answer CFE_STATUS_NOT_IMPLEMENTED: there is no critical data, and no restart. */
CFE_Status_t CFE_ES_RegisterCDS(CFE_ES_CDSHandle_t *CDSHandlePtr, size_t BlockSize,
                                const char *Name);
CFE_Status_t CFE_ES_CopyToCDS(CFE_ES_CDSHandle_t Handle, const void *DataToCopy);
CFE_Status_t CFE_ES_RestoreFromCDS(void *RestoreToMemory, CFE_ES_CDSHandle_t Handle);
CFE_Status_t CFE_ES_RestartApp(CFE_ES_AppId_t AppID);
CFE_Status_t CFE_ES_ReloadApp(CFE_ES_AppId_t AppID, const char *AppFileName);
CFE_Status_t CFE_ES_DeleteApp(CFE_ES_AppId_t AppID);
CFE_Status_t CFE_ES_ResetCFE(uint32 ResetType);

/* The task ends at its next call. */
CFE_Status_t CFE_ES_DeleteChildTask(CFE_ES_TaskId_t TaskId);
void CFE_ES_ExitChildTask(void);

/* The CRC that cFE uses by default, CRC-16 of the ARC kind. */
uint32 CFE_ES_CalculateCRC(const void *DataPtr, size_t DataLength, uint32 InputCRC, uint32 TypeCRC);

/* Memory pools over the caller's memory, which begins at a multiple of 8. */
typedef void *CFE_ES_MemPoolBuf_t;
typedef size_t CFE_ES_MemOffset_t;
#define CFE_ES_MEMPOOLBUF_C(x) ((CFE_ES_MemPoolBuf_t)(x))

/* One pool, as a static variable of an application: its memory, aligned. */
#define CFE_ES_STATIC_POOL_TYPE(size) \
    union {                           \
        uint8 Data[size];             \
        long long Align;              \
    }

typedef struct CFE_ES_BlockStats {
    CFE_ES_MemOffset_t BlockSize;
    uint32 NumCreated;
    uint32 NumFree;
} CFE_ES_BlockStats_t;

typedef struct CFE_ES_MemPoolStats {
    CFE_ES_MemOffset_t PoolSize;
    uint32 NumBlocksRequested;
    uint32 CheckErrCtr;
    CFE_ES_MemOffset_t NumFreeBytes;
    CFE_ES_BlockStats_t BlockStats[CFE_MISSION_ES_POOL_MAX_BUCKETS];
} CFE_ES_MemPoolStats_t;

#define CFE_ES_NO_MUTEX  false
#define CFE_ES_USE_MUTEX true

CFE_Status_t CFE_ES_PoolCreate(CFE_ES_MemHandle_t *PoolID, void *MemPtr, size_t Size);
CFE_Status_t CFE_ES_PoolCreateNoSem(CFE_ES_MemHandle_t *PoolID, void *MemPtr, size_t Size);

/* With block sizes of its own, each rounded up to one of the usual ones. */
CFE_Status_t CFE_ES_PoolCreateEx(CFE_ES_MemHandle_t *PoolID, void *MemPtr, size_t Size,
                                 uint16 NumBlockSizes, const size_t *BlockSizes, bool UseMutex);

/* The pool's handle is none from now on, and nothing is written to its memory. */
CFE_Status_t CFE_ES_PoolDelete(CFE_ES_MemHandle_t PoolID);

/* These three answer the size that was asked for, if they aren't refused. */
int32 CFE_ES_GetPoolBuf(CFE_ES_MemPoolBuf_t *BufPtr, CFE_ES_MemHandle_t PoolID, size_t Size);
int32 CFE_ES_GetPoolBufInfo(CFE_ES_MemHandle_t PoolID, CFE_ES_MemPoolBuf_t BufPtr);
int32 CFE_ES_PutPoolBuf(CFE_ES_MemHandle_t PoolID, CFE_ES_MemPoolBuf_t BufPtr);

CFE_Status_t CFE_ES_GetMemPoolStats(CFE_ES_MemPoolStats_t *BufPtr, CFE_ES_MemHandle_t PoolID);

#ifdef __cplusplus
}
#endif

#endif
