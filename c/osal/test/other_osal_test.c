/*
 * other_osal_test.c: applications compiled with another OS layer's headers and linked with it; its
 * OS_TaskCreate starts the layer's threads.
 */
#include "cfe.h"
#include "check.h"
#include "fsw_run.h"

enum { ID = 0x0881, MESSAGES = 20, CHILD_STACK = 16384, CHILD_PRIORITY = 77 };

static osal_id_t mutex;
static int guarded;

static void count_guarded(void)
{
    CHECK(OS_MutSemTake(mutex) == OS_SUCCESS);
    guarded++;
    CHECK(OS_MutSemGive(mutex) == OS_SUCCESS);
}

/* It ends within a call: the thread goes back to the OS layer. */
static void be_child(void)
{
    count_guarded();
    CFE_ES_ExitChildTask();
    CHECK(false);
}

static void send_all(void)
{
    CFE_MSG_TelemetryHeader_t tlm;
    CFE_ES_TaskId_t task;
    CHECK_STATUS(CFE_MSG_Init(CFE_MSG_PTR(tlm), ID, sizeof tlm), CFE_SUCCESS);
    CHECK_STATUS(CFE_ES_CreateChildTask(&task, "CHILD", be_child, CFE_ES_TASK_STACK_ALLOCATE,
                                        CHILD_STACK, CHILD_PRIORITY, 0),
                 CFE_SUCCESS);
    struct other_tasks tasks = other_tasks();
    CHECK(tasks.created == 3 && strcmp(tasks.name, "CHILD") == 0);
    CHECK(tasks.stack_size == CHILD_STACK && tasks.priority == CHILD_PRIORITY);
    CHECK_STATUS(CFE_ES_CreateChildTask(&task, "NEVER", be_child, CFE_ES_TASK_STACK_ALLOCATE, 0, 0,
                                        0),
                 CFE_ES_ERR_CHILD_TASK_CREATE);
    CFE_ES_WaitForStartupSync(10000);
    for (int i = 0; i < MESSAGES; i++) {
        CHECK_STATUS(CFE_SB_TransmitMsg(CFE_MSG_PTR(tlm), true), CFE_SUCCESS);
        count_guarded();
        CHECK(OS_TaskDelay(1) == OS_SUCCESS);
    }
    CFE_ES_ExitApp(CFE_ES_RunStatus_APP_EXIT);
    CHECK(false);
}

static void receive_all(void)
{
    CFE_SB_PipeId_t pipe;
    CFE_SB_Buffer_t *buffer;
    CHECK_STATUS(CFE_SB_CreatePipe(&pipe, MESSAGES, "PIPE"), CFE_SUCCESS);
    CHECK_STATUS(CFE_SB_SubscribeEx(ID, pipe, CFE_SB_DEFAULT_QOS, MESSAGES), CFE_SUCCESS);
    CFE_ES_WaitForStartupSync(10000);
    for (int i = 0; i < MESSAGES; i++)
        CHECK_STATUS(CFE_SB_ReceiveBuffer(&buffer, pipe, CFE_SB_PEND_FOREVER), CFE_SUCCESS);
    OS_printf("received %d messages\n", MESSAGES);
}

/* What a program writes to have its OS layer start the threads. */
static int start_task(const char *name, void (*entry)(void), size_t stack_size, uint8_t priority)
{
    osal_id_t task;
    return OS_TaskCreate(&task, name, entry, OSAL_TASK_STACK_ALLOCATE, stack_size,
                         OSAL_PRIORITY_C(priority), 0);
}

int main(void)
{
    static const struct fsw_app apps[] = {{.name = "SENDER", .entry = send_all},
                                          {.name = "RECEIVER", .entry = receive_all}},
                                never = {.name = "NEVER", .entry = send_all};
    const struct fsw_config config = {.start_task = start_task};
    fsw_configure(&config);
    CHECK(OS_MutSemCreate(&mutex, "MUTEX", 0) == OS_SUCCESS);
    CHECK(fsw_run(NULL, apps, 2) == 0);
    CHECK(guarded == MESSAGES + 1);
    /* The last of its threads may still be on its way out. */
    for (int i = 0; i < 1000 && other_tasks().ended < 3; i++)
        CHECK(OS_TaskDelay(1) == OS_SUCCESS);
    CHECK(other_tasks().ended == 3);
    CHECK(fsw_run(NULL, &never, 1) == -1);
    printf("other_osal_test passed\n");
    return 0;
}
