/*
 * taken_test.c: while the applications run, neither the layer nor the library asks for memory, if
 * fsw_configure gave the memory of tables: calls of every service, by an application and a child
 * task of its own, are made while each request is counted.
 */
#include "run_apps.h"

enum { ROUNDS = 100, POOL = 4096, VALUES = 8 };

/* The linker has the calls of malloc, calloc and realloc come here. */
void *__real_malloc(size_t size);
void *__real_calloc(size_t count, size_t size);
void *__real_realloc(void *at, size_t size);
void *__wrap_malloc(size_t size);
void *__wrap_calloc(size_t count, size_t size);
void *__wrap_realloc(void *at, size_t size);

static atomic_bool is_counted;
static atomic_int before, during;

static void note(void)
{
    atomic_fetch_add(atomic_load(&is_counted) ? &during : &before, 1);
}

void *__wrap_malloc(size_t size)
{
    note();
    return __real_malloc(size);
}

void *__wrap_calloc(size_t count, size_t size)
{
    note();
    return __real_calloc(count, size);
}

void *__wrap_realloc(void *at, size_t size)
{
    note();
    return __real_realloc(at, size);
}

static void use_bus(CFE_SB_PipeId_t number)
{
    CFE_MSG_TelemetryHeader_t packet;
    CFE_SB_Buffer_t *received, *buffer = CFE_SB_AllocateMessageBuffer(sizeof packet);
    CHECK(buffer);
    CHECK_STATUS(CFE_MSG_Init(&buffer->Msg, 0x0890, sizeof packet), CFE_SUCCESS);
    CHECK_STATUS(CFE_SB_TransmitBuffer(buffer, true), CFE_SUCCESS);
    CHECK_STATUS(CFE_MSG_Init(CFE_MSG_PTR(packet), 0x0890, sizeof packet), CFE_SUCCESS);
    CHECK_STATUS(CFE_SB_TransmitMsg(CFE_MSG_PTR(packet), true), CFE_SUCCESS);
    CHECK_STATUS(CFE_SB_ReceiveBuffer(&received, number, CFE_SB_POLL), CFE_SUCCESS);
    CHECK_STATUS(CFE_SB_ReceiveBuffer(&received, number, 10), CFE_SUCCESS);
    CHECK_STATUS(CFE_SB_ReceiveBuffer(&received, number, 1), CFE_SB_TIME_OUT);
}

static void use_pool(CFE_ES_MemHandle_t pool)
{
    CFE_ES_MemPoolBuf_t block;
    CFE_ES_MemPoolStats_t stats;
    CHECK(CFE_ES_GetPoolBuf(&block, pool, 64) > 0);
    CHECK_STATUS(CFE_ES_GetMemPoolStats(&stats, pool), CFE_SUCCESS);
    CHECK(CFE_ES_PutPoolBuf(pool, block) > 0);
}

static void use_table(CFE_TBL_Handle_t handle)
{
    static const uint32 value[VALUES] = {1, 2, 3};
    void *at;
    CHECK_STATUS(CFE_TBL_Load(handle, CFE_TBL_SRC_ADDRESS, value), CFE_SUCCESS);
    CHECK(CFE_TBL_GetAddress(&at, handle) >= 0 && memcmp(at, value, sizeof value) == 0);
    CHECK_STATUS(CFE_TBL_ReleaseAddress(handle), CFE_SUCCESS);
    CHECK_STATUS(CFE_TBL_Manage(handle), CFE_SUCCESS);
}

static CFE_SB_PipeId_t pipe_of(const char *name)
{
    CFE_SB_PipeId_t number;
    CHECK_STATUS(CFE_SB_CreatePipe(&number, 4, name), CFE_SUCCESS);
    CHECK_STATUS(CFE_SB_Subscribe(0x0890, number), CFE_SUCCESS);
    return number;
}

/* The child has the application's pipe for itself until it reaches phase 2. */
static CFE_SB_PipeId_t shared;

static void child(void)
{
    for (int i = 0; i < ROUNDS; i++)
        use_bus(shared);
    reach(2);
}

static void app(void)
{
    static CFE_ES_STATIC_POOL_TYPE(POOL) memory;
    CFE_ES_MemHandle_t pool;
    CFE_ES_TaskId_t task;
    CFE_TBL_Handle_t single, pair;
    atomic_store(&is_counted, true);
    CHECK_STATUS(CFE_EVS_Register(NULL, 0, 0), CFE_SUCCESS);
    shared = pipe_of("PIPE");
    CHECK_STATUS(CFE_ES_PoolCreate(&pool, memory.Data, POOL), CFE_SUCCESS);
    CHECK_STATUS(CFE_TBL_Register(&single, "One", VALUES * 4, CFE_TBL_OPT_DEFAULT, NULL),
                 CFE_SUCCESS);
    CHECK_STATUS(CFE_TBL_Register(&pair, "Two", VALUES * 4, CFE_TBL_OPT_DBL_BUFFER, NULL),
                 CFE_SUCCESS);
    for (int i = 0; i < ROUNDS; i++) {
        use_bus(shared);
        use_pool(pool);
        use_table(single);
        use_table(pair);
        CHECK_STATUS(CFE_EVS_SendEvent(1, CFE_EVS_EventType_INFORMATION, "round %d", i),
                     CFE_SUCCESS);
    }
    CFE_ES_WriteToSysLog("all rounds are made\n");
    CHECK_STATUS(CFE_ES_CreateChildTask(&task, "CHILD", child, NULL, 0, 77, 0), CFE_SUCCESS);
    wait_for(2);
    atomic_store(&is_counted, false);
}

int main(void)
{
    static _Alignas(8) uint8 memory[512];
    const struct fsw_config config = {.sends_events = true,
                                      .table_memory = memory,
                                      .table_memory_size = sizeof memory};
    fsw_configure(&config);
    run_with(NULL, app, NULL);
    CHECK(atomic_load(&before) > 0 && atomic_load(&during) == 0);
    printf("taken_test passed: %d requests before the applications ran, none then\n",
           atomic_load(&before));
    return 0;
}
