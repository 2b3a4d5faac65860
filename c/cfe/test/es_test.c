/*
 * es_test.c: what Executive Services say of applications and tasks, generic counters, libraries,
 * and the names that answer that they aren't there; times.
 */
#include "run_apps.h"

static int started;

static int32_t start_first_library(void)
{
    CFE_ES_AppId_t app;
    CHECK_STATUS(CFE_ES_GetAppID(&app), CFE_ES_ERR_RESOURCEID_NOT_VALID);
    CHECK(started++ == 0);
    return CFE_SUCCESS;
}

static int32_t start_second_library(void)
{
    CHECK(started++ == 1);
    return CFE_SUCCESS;
}

static int32_t fail_to_start(void)
{
    return CFE_STATUS_EXTERNAL_RESOURCE_FAIL;
}

/* ---- Tasks ---- */

static void be_child(void)
{
    CFE_ES_IncrementTaskCounter();
    CFE_ES_IncrementTaskCounter();
    reach(1);
    wait_for(2);
}

static void check_child(CFE_ES_TaskId_t child)
{
    CFE_ES_TaskInfo_t info;
    CFE_ES_TaskId_t found;
    char name[CFE_MISSION_MAX_API_LEN];
    uint32 index = 99;
    CHECK_STATUS(CFE_ES_GetTaskInfo(&info, child), CFE_SUCCESS);
    CHECK(info.TaskId == child && strcmp(info.TaskName, "CHILD") == 0 && info.AppId == 1);
    CHECK(strcmp(info.AppName, "FIRST") == 0 && info.ExecutionCounter == 2);
    CHECK(info.StackSize == 16384 && info.Priority == 77);
    CHECK_STATUS(CFE_ES_GetTaskInfo(NULL, child), CFE_ES_BAD_ARGUMENT);
    CHECK_STATUS(CFE_ES_GetTaskInfo(&info, 64), CFE_ES_ERR_RESOURCEID_NOT_VALID);
    CHECK_STATUS(CFE_ES_GetTaskInfo(&info, 65), CFE_ES_ERR_RESOURCEID_NOT_VALID);
    CHECK_STATUS(CFE_ES_GetTaskName(name, child, sizeof name), CFE_SUCCESS);
    CHECK(strcmp(name, "CHILD") == 0);
    CHECK_STATUS(CFE_ES_GetTaskName(name, child, 3), CFE_SUCCESS);
    CHECK(strcmp(name, "CH") == 0);
    CHECK_STATUS(CFE_ES_GetTaskName(name, child, 0), CFE_ES_BAD_ARGUMENT);
    CHECK_STATUS(CFE_ES_GetTaskName(name, 0, sizeof name), CFE_ES_ERR_RESOURCEID_NOT_VALID);
    CHECK_STATUS(CFE_ES_GetTaskIDByName(&found, "CHILD"), CFE_SUCCESS);
    CHECK(found == child);
    CHECK_STATUS(CFE_ES_GetTaskIDByName(&found, "NOBODY"), CFE_ES_ERR_NAME_NOT_FOUND);
    CHECK_STATUS(CFE_ES_GetTaskIDByName(&found, NULL), CFE_ES_BAD_ARGUMENT);
    CHECK_STATUS(CFE_ES_TaskID_ToIndex(child, &index), CFE_SUCCESS);
    CHECK(index == child - 1);
    CHECK_STATUS(CFE_ES_TaskID_ToIndex(0, &index), CFE_ES_ERR_RESOURCEID_NOT_VALID);
}

static void check_tasks(void)
{
    CFE_ES_TaskId_t child, self;
    CFE_ES_AppInfo_t info;
    uint32 status = CFE_ES_RunStatus_APP_RUN, subtype = 0, index = 99;
    CHECK_STATUS(CFE_ES_GetTaskID(&self), CFE_SUCCESS);
    CHECK_STATUS(CFE_ES_CreateChildTask(&child, "CHILD", be_child, NULL, 16384, 77, 0),
                 CFE_SUCCESS);
    wait_for(1);
    check_child(child);
    for (int i = 0; i < 5; i++)
        CHECK(CFE_ES_RunLoop(&status));
    CHECK_STATUS(CFE_ES_GetAppInfo(&info, 1), CFE_SUCCESS);
    CHECK(info.ResourceId == 1 && info.Type == CFE_ES_AppType_EXTERNAL);
    CHECK(strcmp(info.Name, "FIRST") == 0 && strcmp(info.MainTaskName, "FIRST") == 0);
    CHECK(info.MainTaskId == self && info.ExecutionCounter == 5 && info.NumOfChildTasks == 1);
    CHECK_STATUS(CFE_ES_GetAppInfo(&info, 2), CFE_SUCCESS);
    CHECK(strcmp(info.Name, "SECOND") == 0 && info.NumOfChildTasks == 0);
    CHECK_STATUS(CFE_ES_GetAppInfo(&info, 3), CFE_ES_ERR_RESOURCEID_NOT_VALID);
    CHECK_STATUS(CFE_ES_GetAppInfo(NULL, 1), CFE_ES_BAD_ARGUMENT);
    CHECK_STATUS(CFE_ES_AppID_ToIndex(2, &index), CFE_SUCCESS);
    CHECK(index == 1);
    CHECK_STATUS(CFE_ES_AppID_ToIndex(17, &index), CFE_ES_ERR_RESOURCEID_NOT_VALID);
    CHECK_STATUS(CFE_ES_AppID_ToIndex(1, NULL), CFE_ES_BAD_ARGUMENT);
    CHECK(CFE_ES_GetResetType(&subtype) == CFE_PSP_RST_TYPE_POWERON);
    CHECK(CFE_ES_GetResetType(NULL) == CFE_PSP_RST_TYPE_POWERON);
    CHECK(subtype == CFE_PSP_RST_SUBTYPE_POWER_CYCLE);
}

/* ---- Counters ---- */

static void check_counters(void)
{
    CFE_ES_CounterId_t counter, other, all[CFE_PLATFORM_ES_MAX_GEN_COUNTERS];
    uint32 count = 99, index = 99;
    char name[CFE_MISSION_MAX_API_LEN];
    CHECK_STATUS(CFE_ES_RegisterGenCounter(NULL, "C"), CFE_ES_BAD_ARGUMENT);
    CHECK_STATUS(CFE_ES_RegisterGenCounter(&counter, NULL), CFE_ES_BAD_ARGUMENT);
    CHECK_STATUS(CFE_ES_RegisterGenCounter(&counter, "TWENTY_BYTES_OF_NAME"), CFE_ES_BAD_ARGUMENT);
    CHECK_STATUS(CFE_ES_RegisterGenCounter(&counter, "COUNTER"), CFE_SUCCESS);
    CHECK_STATUS(CFE_ES_RegisterGenCounter(&other, "COUNTER"), CFE_ES_ERR_DUPLICATE_NAME);
    CHECK_STATUS(CFE_ES_GetGenCount(counter, &count), CFE_SUCCESS);
    CHECK(count == 0);
    CHECK_STATUS(CFE_ES_IncrementGenCounter(counter), CFE_SUCCESS);
    CHECK_STATUS(CFE_ES_IncrementGenCounter(counter), CFE_SUCCESS);
    CHECK_STATUS(CFE_ES_GetGenCount(counter, &count), CFE_SUCCESS);
    CHECK(count == 2);
    CHECK_STATUS(CFE_ES_SetGenCount(counter, 7), CFE_SUCCESS);
    CHECK_STATUS(CFE_ES_GetGenCount(counter, &count), CFE_SUCCESS);
    CHECK(count == 7);
    CHECK_STATUS(CFE_ES_GetGenCount(counter, NULL), CFE_ES_BAD_ARGUMENT);
    CHECK_STATUS(CFE_ES_GetGenCounterIDByName(&other, "COUNTER"), CFE_SUCCESS);
    CHECK(other == counter);
    CHECK_STATUS(CFE_ES_GetGenCounterIDByName(&other, "NONE"), CFE_ES_ERR_NAME_NOT_FOUND);
    CHECK_STATUS(CFE_ES_GetGenCounterName(name, counter, sizeof name), CFE_SUCCESS);
    CHECK(strcmp(name, "COUNTER") == 0);
    CHECK_STATUS(CFE_ES_CounterID_ToIndex(counter, &index), CFE_SUCCESS);
    CHECK(index < CFE_PLATFORM_ES_MAX_GEN_COUNTERS);
    CHECK_STATUS(CFE_ES_DeleteGenCounter(counter), CFE_SUCCESS);
    CHECK_STATUS(CFE_ES_DeleteGenCounter(counter), CFE_ES_BAD_ARGUMENT);
    CHECK_STATUS(CFE_ES_IncrementGenCounter(counter), CFE_ES_BAD_ARGUMENT);
    CHECK_STATUS(CFE_ES_SetGenCount(0, 1), CFE_ES_BAD_ARGUMENT);
    CHECK_STATUS(CFE_ES_GetGenCount(99, &count), CFE_ES_BAD_ARGUMENT);
    CHECK_STATUS(CFE_ES_GetGenCounterName(name, counter, sizeof name),
                 CFE_ES_ERR_RESOURCEID_NOT_VALID);
    for (uint32 i = 0; i < CFE_PLATFORM_ES_MAX_GEN_COUNTERS; i++) {
        snprintf(name, sizeof name, "C%u", (unsigned)i);
        CHECK_STATUS(CFE_ES_RegisterGenCounter(&all[i], name), CFE_SUCCESS);
    }
    CHECK_STATUS(CFE_ES_RegisterGenCounter(&other, "ONE_MORE"), CFE_ES_NO_RESOURCE_IDS_AVAILABLE);
}

/* ---- Names that applications mention ---- */

static void check_missing(void)
{
    CFE_ES_CDSHandle_t handle = 99;
    CHECK_STATUS(CFE_ES_RegisterCDS(&handle, 16, "CDS"), CFE_STATUS_NOT_IMPLEMENTED);
    CHECK(handle == CFE_ES_CDS_BAD_HANDLE);
    CHECK_STATUS(CFE_ES_RegisterCDS(NULL, 16, "CDS"), CFE_ES_BAD_ARGUMENT);
    CHECK_STATUS(CFE_ES_CopyToCDS(handle, "data"), CFE_STATUS_NOT_IMPLEMENTED);
    CHECK_STATUS(CFE_ES_RestoreFromCDS(&handle, handle), CFE_STATUS_NOT_IMPLEMENTED);
    CHECK_STATUS(CFE_ES_RestartApp(1), CFE_STATUS_NOT_IMPLEMENTED);
    CHECK_STATUS(CFE_ES_ReloadApp(1, "/cf/app.so"), CFE_STATUS_NOT_IMPLEMENTED);
    CHECK_STATUS(CFE_ES_DeleteApp(1), CFE_STATUS_NOT_IMPLEMENTED);
    CHECK_STATUS(CFE_ES_ResetCFE(1), CFE_STATUS_NOT_IMPLEMENTED);
}

/* ---- Times and states ---- */

static CFE_TIME_SysTime_t time_of(uint32 seconds, uint32 subseconds)
{
    return (CFE_TIME_SysTime_t){seconds, subseconds};
}

static void check_times(void)
{
    CFE_TIME_SysTime_t sum = CFE_TIME_Add(time_of(1, 0x80000000), time_of(2, 0x80000001));
    CHECK(sum.Seconds == 4 && sum.Subseconds == 1);
    CFE_TIME_SysTime_t difference = CFE_TIME_Subtract(time_of(4, 1), time_of(2, 2));
    CHECK(difference.Seconds == 1 && difference.Subseconds == 0xffffffff);
    CHECK(CFE_TIME_Compare(time_of(1, 5), time_of(1, 5)) == CFE_TIME_EQUAL);
    CHECK(CFE_TIME_Compare(time_of(1, 4), time_of(1, 5)) == CFE_TIME_A_LT_B);
    CHECK(CFE_TIME_Compare(time_of(2, 0), time_of(1, 5)) == CFE_TIME_A_GT_B);
    /* Past the wrap. */
    CHECK(CFE_TIME_Compare(time_of(5, 0), time_of(0xfffffffb, 0)) == CFE_TIME_A_GT_B);
    CHECK(CFE_TIME_Sub2MicroSecs(0x80000000) == 500000 && CFE_TIME_Sub2MicroSecs(0) == 0);
    CHECK(CFE_TIME_Sub2MicroSecs(0xffffffff) == 999999);
    CHECK(CFE_TIME_Micro2SubSecs(500000) == 0x80000000);
    CHECK(CFE_TIME_Micro2SubSecs(1000000) == 0xffffffff);
}

static void test_all(void)
{
    CHECK(started == 2);
    CHECK_STATUS(CFE_ES_WaitForSystemState(CFE_ES_SystemState_CORE_READY, 0), CFE_SUCCESS);
    CHECK_STATUS(CFE_ES_WaitForSystemState(CFE_ES_SystemState_OPERATIONAL, 1),
                 CFE_ES_OPERATION_TIMED_OUT);
    CHECK_STATUS(CFE_ES_WaitForSystemState(CFE_ES_SystemState_SHUTDOWN, 1),
                 CFE_ES_OPERATION_TIMED_OUT);
    check_tasks();
    check_counters();
    check_missing();
    check_times();
    reach(2);
    CHECK_STATUS(CFE_ES_WaitForSystemState(CFE_ES_SystemState_OPERATIONAL, 10000), CFE_SUCCESS);
}

static void come_late(void)
{
    wait_for(2);
    CHECK_STATUS(CFE_ES_WaitForSystemState(CFE_ES_SystemState_APPS_INIT, 10000), CFE_SUCCESS);
}

int main(void)
{
    static const struct fsw_library good[] = {{"FIRST_LIB", start_first_library},
                                              {"SECOND_LIB", start_second_library}},
                                    bad = {"BAD_LIB", fail_to_start};
    static const struct fsw_app app = {.name = "FIRST", .entry = test_all};
    struct fsw_config config = {.libraries = good, .library_count = 2};
    fsw_configure(&config);
    run(test_all, come_late);
    config = (struct fsw_config){.libraries = &bad, .library_count = 1};
    fsw_configure(&config);
    CHECK(fsw_run(NULL, &app, 1) == -1);
    printf("es_test passed\n");
    return 0;
}
