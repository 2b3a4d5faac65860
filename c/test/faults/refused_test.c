/*
 * refused_test.c: each request for memory of the library and the layer is refused in turn, in a
 * process of its own. Each run ends by itself: with a refusal, or as if nothing had happened.
 *
 *     refused_test
 */
#include "cfe.h"
#include "check.h"
#include "fsw_run.h"

#include <string.h>
#include <sys/wait.h>
#include <unistd.h>

enum { HANGS = 60 /* s: the test ends then */, NOT_REACHED = 3, MOST_REQUESTS = 10000 };

/* The linker has the calls of malloc and calloc come here. */
void *__real_malloc(size_t size);
void *__real_calloc(size_t count, size_t size);
void *__wrap_malloc(size_t size);
void *__wrap_calloc(size_t count, size_t size);

static int left; /* requests until one is refused */

static bool is_refused(void)
{
    return __atomic_fetch_sub(&left, 1, __ATOMIC_SEQ_CST) == 1;
}

void *__wrap_malloc(size_t size)
{
    return is_refused() ? NULL : __real_malloc(size);
}

void *__wrap_calloc(size_t count, size_t size)
{
    return is_refused() ? NULL : __real_calloc(count, size);
}

static void use_table(const char *name, uint16 options)
{
    static const uint32 value[8] = {1, 2, 3};
    CFE_TBL_Handle_t handle;
    void *at;
    if (CFE_TBL_Register(&handle, name, sizeof value, options, NULL) != CFE_SUCCESS)
        return;
    CHECK_STATUS(CFE_TBL_Load(handle, CFE_TBL_SRC_ADDRESS, value), CFE_SUCCESS);
    CHECK(CFE_TBL_GetAddress(&at, handle) >= 0 && memcmp(at, value, sizeof value) == 0);
    CHECK_STATUS(CFE_TBL_ReleaseAddress(handle), CFE_SUCCESS);
}

static void send_and_receive(const char *name)
{
    CFE_MSG_TelemetryHeader_t packet;
    CFE_SB_Buffer_t *buffer;
    CFE_SB_PipeId_t pipe;
    CHECK_STATUS(CFE_SB_CreatePipe(&pipe, 4, name), CFE_SUCCESS);
    CHECK_STATUS(CFE_SB_Subscribe(0x0890, pipe), CFE_SUCCESS);
    CHECK_STATUS(CFE_MSG_Init(CFE_MSG_PTR(packet), 0x0890, sizeof packet), CFE_SUCCESS);
    CHECK_STATUS(CFE_SB_TransmitMsg(CFE_MSG_PTR(packet), true), CFE_SUCCESS);
    CHECK_STATUS(CFE_SB_ReceiveBuffer(&buffer, pipe, CFE_SB_POLL), CFE_SUCCESS);
}

/* It may run while the application still has its pipe, so its own has another name. */
static void child(void)
{
    send_and_receive("CHILD");
}

static void app(void)
{
    CFE_ES_TaskId_t task;
    send_and_receive("PIPE");
    use_table("One", CFE_TBL_OPT_DEFAULT);
    use_table("Two", CFE_TBL_OPT_DBL_BUFFER);
    CFE_ES_CreateChildTask(&task, "CHILD", child, NULL, 0, 0, 0);
}

/* A run whose request of this number is refused. */
static _Noreturn void run_refused(int number)
{
    static const struct fsw_app apps[] = {{.name = "APP", .entry = app}};
    alarm(HANGS);
    left = number;
    int answer = fsw_run(NULL, apps, 1);
    /* The second run has all the memory that it asks for. */
    bool is_reached = left <= 0;
    left = 0;
    CHECK(answer == 0 || (answer == -1 && is_reached));
    CHECK(fsw_run(NULL, apps, 1) == 0);
    _exit(is_reached ? 0 : NOT_REACHED);
}

int main(void)
{
    for (int number = 1; number < MOST_REQUESTS; number++) {
        int status;
        pid_t child = fork();
        CHECK(child >= 0);
        if (child == 0)
            run_refused(number);
        CHECK(waitpid(child, &status, 0) == child && WIFEXITED(status));
        if (WEXITSTATUS(status) == NOT_REACHED) {
            printf("refused_test passed: %d requests for memory, each refused\n", number - 1);
            return 0;
        }
        CHECK(WEXITSTATUS(status) == 0);
    }
    printf("refused_test: requests without end\n");
    return 1;
}
