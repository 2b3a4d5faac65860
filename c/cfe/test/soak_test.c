/*
 * soak_test.c: the memory of a program stays as it is, over ten minutes' worth of messages (1000 a
 * second), with buffers, events, table loads, pool blocks, pipes and child tasks between them.
 *
 *     soak_test [MESSAGES [heap]]
 *
 * With `heap` what malloc has given is measured, not what the process has in memory: an emulator
 * takes memory of its own for each thread that there was.
 */
#include "cfe.h"
#include "check.h"
#include "fsw_run.h"

#include <malloc.h>
#include <string.h>
#include <unistd.h>

enum { ID = 0x0881, MOST_GROWTH = 512 * 1024 };

static unsigned long messages = 600000;
static bool measures_heap;
static CFE_ES_STATIC_POOL_TYPE(65536) memory;

/* The bytes of the process that are in memory. */
static long resident(void)
{
    long size = 0, pages = 0;
    FILE *file = fopen("/proc/self/statm", "r");
    CHECK(file && fscanf(file, "%ld %ld", &size, &pages) == 2);
    fclose(file);
    return pages * sysconf(_SC_PAGESIZE);
}

static long taken(void)
{
    struct mallinfo2 given = mallinfo2();
    return measures_heap ? (long)(given.uordblks + given.hblkhd) : resident();
}

static void be_child(void)
{
    OS_TaskDelay(0);
}

/* What is done now and then. */
static void use_others(CFE_TBL_Handle_t table, CFE_ES_MemHandle_t pool, uint32 number)
{
    CFE_ES_MemPoolBuf_t block;
    CFE_SB_PipeId_t pipe;
    CFE_ES_TaskId_t task;
    void *at;
    uint32 value[4] = {number, 0, 0, 0};
    CHECK_STATUS(CFE_TBL_Load(table, CFE_TBL_SRC_ADDRESS, value), CFE_SUCCESS);
    CHECK_STATUS(CFE_TBL_GetAddress(&at, table), CFE_TBL_INFO_UPDATED);
    CHECK(memcmp(at, value, sizeof value) == 0);
    CHECK_STATUS(CFE_TBL_ReleaseAddress(table), CFE_SUCCESS);
    CHECK(CFE_ES_GetPoolBuf(&block, pool, 100) == 100);
    CHECK(CFE_ES_PutPoolBuf(pool, block) == 100);
    CHECK_STATUS(CFE_EVS_SendEvent(1, CFE_EVS_EventType_INFORMATION, "number %u", (unsigned)number),
                 CFE_SUCCESS);
    CHECK_STATUS(CFE_SB_CreatePipe(&pipe, 4, "PASSING"), CFE_SUCCESS);
    CHECK_STATUS(CFE_SB_Subscribe(ID, pipe), CFE_SUCCESS);
    CHECK_STATUS(CFE_SB_DeletePipe(pipe), CFE_SUCCESS);
    if (number % 1000 == 0)
        CFE_ES_CreateChildTask(&task, "CHILD", be_child, NULL, 0, 0, 0);
}

static void carry(void)
{
    struct {
        CFE_MSG_TelemetryHeader_t header;
        uint32 number;
    } tlm;
    CFE_SB_Buffer_t *buffer;
    CFE_SB_PipeId_t pipe;
    CFE_TBL_Handle_t table;
    CFE_ES_MemHandle_t pool;
    long before = 0;
    CHECK_STATUS(CFE_EVS_Register(NULL, 0, CFE_EVS_EventFilter_BINARY), CFE_SUCCESS);
    CHECK_STATUS(CFE_SB_CreatePipe(&pipe, 16, "SOAK"), CFE_SUCCESS);
    CHECK_STATUS(CFE_SB_Subscribe(ID, pipe), CFE_SUCCESS);
    CHECK_STATUS(CFE_TBL_Register(&table, "TABLE", 16, CFE_TBL_OPT_DBL_BUFFER, NULL), CFE_SUCCESS);
    CHECK_STATUS(CFE_ES_PoolCreate(&pool, memory.Data, sizeof memory.Data), CFE_SUCCESS);
    CHECK_STATUS(CFE_MSG_Init(CFE_MSG_PTR(tlm.header), ID, sizeof tlm), CFE_SUCCESS);
    for (uint32 i = 0; i < messages; i++) {
        tlm.number = i;
        if (i % 2) {
            buffer = CFE_SB_AllocateMessageBuffer(sizeof tlm);
            CHECK(buffer);
            memcpy(buffer, &tlm, sizeof tlm);
            CHECK_STATUS(CFE_SB_TransmitBuffer(buffer, true), CFE_SUCCESS);
        } else {
            CHECK_STATUS(CFE_SB_TransmitMsg(CFE_MSG_PTR(tlm.header), true), CFE_SUCCESS);
        }
        CHECK_STATUS(CFE_SB_ReceiveBuffer(&buffer, pipe, CFE_SB_POLL), CFE_SUCCESS);
        if (i % 100 == 0)
            use_others(table, pool, i);
        if (i == messages / 10)
            before = taken();
    }
    long growth = taken() - before;
    printf("soak_test: %lu messages, %ld bytes more than after a tenth of them\n", messages,
           growth);
    CHECK(growth <= MOST_GROWTH);
}

int main(int argc, char **argv)
{
    static const struct fsw_app app = {.name = "SOAK", .entry = carry};
    if (argc > 1)
        messages = strtoul(argv[1], NULL, 10);
    measures_heap = argc > 2 && strcmp(argv[2], "heap") == 0;
    CHECK(fsw_run(NULL, &app, 1) == 0);
    printf("soak_test passed\n");
    return 0;
}
