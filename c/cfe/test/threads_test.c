/*
 * threads_test.c: sixteen applications, some with child tasks, make every call at random, for so
 * long. It is meant for the thread sanitizer; what is received, read and validated is also tested
 * to be whole.
 *
 *     threads_test SECONDS FOLDER      table files are written there
 */
#include "cfe.h"
#include "cfe_msgids.h"
#include "check.h"
#include "fsw_run.h"

#include <stdatomic.h>
#include <stdlib.h>
#include <string.h>
#include <time.h>

enum {
    APPS = 16,
    IDS = 8,
    PIPES = 3,
    BUFFERS = 2,
    BLOCKS = 4,
    POOL_BYTES = 4096,
    FIRST_ID = 0x901,
    OWN_ID = 0x910 /* of the first application; each has one for its child tasks' signals */
};

struct tlm {
    CFE_MSG_TelemetryHeader_t header;
    uint32 words[12];
};

struct table {
    uint32 words[16];
};

/* What one application has. */
struct mine {
    uint32 random, number;
    CFE_SB_PipeId_t pipe[PIPES], signals;
    CFE_SB_Buffer_t *buffer[BUFFERS];
    CFE_TBL_Handle_t own, shared;
    bool has_shared;
    CFE_ES_MemHandle_t pool;
    CFE_ES_MemPoolBuf_t block[BLOCKS];
    uint32 block_size[BLOCKS];
    char file[OS_MAX_PATH_LEN];
};

static const char *folder = ".";
static struct timespec deadline;
static atomic_ulong sends, receives, loads, events, children, signals;
static atomic_uint next_number;
static CFE_ES_STATIC_POOL_TYPE(POOL_BYTES) memory[8];
static osal_id_t mutex;
static unsigned long guarded;

static uint32 draw(struct mine *mine, uint32 count)
{
    mine->random = mine->random * 1103515245u + 12345u;
    return mine->random / 65536 % count;
}

static bool is_over(void)
{
    struct timespec now;
    clock_gettime(CLOCK_MONOTONIC, &now);
    return now.tv_sec > deadline.tv_sec ||
           (now.tv_sec == deadline.tv_sec && now.tv_nsec >= deadline.tv_nsec);
}

/* Words that all follow from the first; what is torn doesn't. */
static void fill(uint32 *words, uint32 count, uint32 first)
{
    for (uint32 i = 0; i < count; i++)
        words[i] = first + i * 7;
}

static void check_whole(const uint32 *words, uint32 count)
{
    for (uint32 i = 1; i < count; i++)
        CHECK(words[i] == words[0] + i * 7);
}

static void write_tlm(struct mine *mine, struct tlm *tlm)
{
    CFE_MSG_Init(CFE_MSG_PTR(tlm->header), FIRST_ID + draw(mine, IDS), sizeof *tlm);
    fill(tlm->words, 12, mine->random);
    CFE_SB_TimeStampMsg(CFE_MSG_PTR(tlm->header));
}

static void ask_for_housekeeping(void)
{
    CFE_MSG_CommandHeader_t request;
    CFE_MSG_Init(CFE_MSG_PTR(request), CFE_SB_SEND_HK_MID, sizeof request);
    CHECK_STATUS(CFE_SB_TransmitMsg(CFE_MSG_PTR(request), false), CFE_SUCCESS);
}

static void send(struct mine *mine)
{
    struct tlm tlm;
    if (draw(mine, 16) == 0)
        ask_for_housekeeping();
    write_tlm(mine, &tlm);
    CHECK_STATUS(CFE_SB_TransmitMsg(CFE_MSG_PTR(tlm.header), draw(mine, 2)), CFE_SUCCESS);
    atomic_fetch_add(&sends, 1);
}

static void use_buffer(struct mine *mine)
{
    CFE_SB_Buffer_t **buffer = &mine->buffer[draw(mine, BUFFERS)];
    if (!*buffer) {
        *buffer = CFE_SB_AllocateMessageBuffer(sizeof(struct tlm));
        return;
    }
    write_tlm(mine, (struct tlm *)(void *)*buffer);
    CHECK_STATUS(draw(mine, 4) ? CFE_SB_TransmitBuffer(*buffer, true)
                               : CFE_SB_ReleaseMessageBuffer(*buffer),
                 CFE_SUCCESS);
    *buffer = NULL;
}

static void receive(struct mine *mine)
{
    CFE_SB_Buffer_t *buffer;
    CFE_SB_PipeId_t pipe = mine->pipe[draw(mine, PIPES)];
    CFE_Status_t status = CFE_SB_ReceiveBuffer(&buffer, pipe, draw(mine, 64) ? CFE_SB_POLL : 2);
    if (status != CFE_SUCCESS) {
        CHECK(status == CFE_SB_NO_MESSAGE || status == CFE_SB_TIME_OUT ||
              (!pipe && status == CFE_SB_BAD_ARGUMENT));
        return;
    }
    check_whole(((const struct tlm *)(const void *)buffer)->words, 12);
    atomic_fetch_add(&receives, 1);
}

static void use_pipe(struct mine *mine)
{
    uint32 place = draw(mine, PIPES);
    CFE_SB_PipeId_t *pipe = &mine->pipe[place], found;
    char name[OS_MAX_API_NAME];
    uint8 options;
    if (!*pipe) {
        snprintf(name, sizeof name, "P%u_%u", (unsigned)mine->number, (unsigned)place);
        CHECK_STATUS(CFE_SB_CreatePipe(pipe, (uint16)(1 + draw(mine, 8)), name), CFE_SUCCESS);
        CHECK_STATUS(CFE_SB_GetPipeIdByName(&found, name), CFE_SUCCESS);
        CHECK(found == *pipe);
    }
    switch (draw(mine, 8)) {
    case 0:
        CHECK_STATUS(CFE_SB_DeletePipe(*pipe), CFE_SUCCESS);
        *pipe = CFE_SB_INVALID_PIPE;
        break;
    case 1:
        CHECK_STATUS(CFE_SB_Unsubscribe(FIRST_ID + draw(mine, IDS), *pipe), CFE_SUCCESS);
        break;
    case 2:
        CHECK_STATUS(CFE_SB_SetPipeOpts(*pipe, (uint8)draw(mine, 2)), CFE_SUCCESS);
        CHECK_STATUS(CFE_SB_GetPipeOpts(*pipe, &options), CFE_SUCCESS);
        CHECK_STATUS(CFE_SB_GetPipeName(name, sizeof name, *pipe), CFE_SUCCESS);
        break;
    default:
        CFE_SB_Subscribe(FIRST_ID + draw(mine, IDS), *pipe);
    }
}

static int32 validate(void *at)
{
    check_whole(((struct table *)at)->words, 16);
    return CFE_SUCCESS;
}

static void use_table(struct mine *mine)
{
    struct table value;
    void *at;
    char name[CFE_TBL_MAX_FULL_NAME_LEN];
    CFE_TBL_Info_t info;
    bool is_own = !mine->has_shared || draw(mine, 2);
    CFE_TBL_Handle_t handle = is_own ? mine->own : mine->shared;
    if (!mine->has_shared && draw(mine, 2)) {
        snprintf(name, sizeof name, "APP%u.TABLE", (unsigned)(1 + draw(mine, APPS)));
        mine->has_shared = CFE_TBL_Share(&mine->shared, name) == CFE_SUCCESS;
        CFE_TBL_GetInfo(&info, name);
        return;
    }
    switch (draw(mine, 8)) {
    case 0:
        if (mine->has_shared)
            CFE_TBL_Unregister(mine->shared);
        mine->has_shared = false;
        break;
    case 1:
        fill(value.words, 16, mine->random);
        if (CFE_TBL_Load(handle, CFE_TBL_SRC_ADDRESS, &value) == CFE_SUCCESS)
            atomic_fetch_add(&loads, 1);
        break;
    case 2:
        fsw_stage_table(mine->file);
        break;
    case 3:
        CFE_TBL_Manage(handle);
        CFE_TBL_Validate(handle);
        CFE_TBL_Update(handle);
        break;
    case 4:
        CFE_TBL_GetAddress(&at, mine->own);
        CHECK(at);
        fill(((struct table *)at)->words, 16, mine->random);
        CFE_TBL_Modified(mine->own);
        CFE_TBL_ReleaseAddress(mine->own);
        break;
    default:
        CFE_TBL_GetAddress(&at, handle);
        if (at && ((struct table *)at)->words[1] != 0)
            check_whole(((struct table *)at)->words, 16);
        CFE_TBL_ReleaseAddress(handle);
    }
}

/* In the end the pool's creator may have ended. */
static void check_size(int32 answer, uint32 size)
{
    CHECK(answer == (int32)size || (answer == CFE_ES_ERR_RESOURCEID_NOT_VALID && is_over()));
}

static void use_pool(struct mine *mine)
{
    uint32 place = draw(mine, BLOCKS), size = 1 + draw(mine, 200);
    CFE_ES_MemPoolBuf_t *block = &mine->block[place];
    CFE_ES_MemPoolStats_t stats;
    if (*block) {
        const uint8 *byte = *block;
        for (uint32 i = 0; i < mine->block_size[place]; i++)
            CHECK(byte[i] == (uint8)mine->number);
        check_size(CFE_ES_GetPoolBufInfo(mine->pool, *block), mine->block_size[place]);
        check_size(CFE_ES_PutPoolBuf(mine->pool, *block), mine->block_size[place]);
        *block = NULL;
    } else if (CFE_ES_GetPoolBuf(block, mine->pool, size) == (int32)size) {
        mine->block_size[place] = size;
        memset(*block, (int)mine->number, size);
    }
    CFE_ES_GetMemPoolStats(&stats, mine->pool);
}

static void use_events(struct mine *mine)
{
    static const CFE_EVS_BinFilter_t filters[] = {{1, CFE_EVS_FIRST_4_STOP},
                                                  {2, CFE_EVS_EVERY_OTHER_ONE}};
    switch (draw(mine, 16)) {
    case 0:
        CHECK_STATUS(CFE_EVS_Register(filters, 2, CFE_EVS_EventFilter_BINARY), CFE_SUCCESS);
        break;
    case 1:
        CFE_EVS_ResetFilter(1);
        CFE_EVS_ResetAllFilters();
        break;
    default:
        CFE_EVS_SendEvent((uint16)draw(mine, 4), (uint16)(1 + draw(mine, 4)), "event %u",
                          (unsigned)mine->random);
        atomic_fetch_add(&events, 1);
    }
}

static void be_child(void)
{
    struct mine mine = {.random = 1};
    atomic_fetch_add(&children, 1);
    for (int i = 0; i < 20; i++) {
        send(&mine);
        OS_TaskDelay(1);
    }
    if (atomic_load(&children) % 2)
        CFE_ES_ExitChildTask();
}

/* A child that gives one signal. */
static void give_signal(void)
{
    CFE_ES_AppId_t app;
    CFE_MSG_CommandHeader_t signal;
    CHECK_STATUS(CFE_ES_GetAppID(&app), CFE_SUCCESS);
    CHECK_STATUS(CFE_MSG_Init(CFE_MSG_PTR(signal), OWN_ID + app, sizeof signal), CFE_SUCCESS);
    CHECK_STATUS(CFE_SB_TransmitMsg(CFE_MSG_PTR(signal), false), CFE_SUCCESS);
}

/* Waits without an end for a signal of a child's. */
static void wait_for_signal(struct mine *mine)
{
    CFE_ES_TaskId_t task;
    CFE_SB_Buffer_t *buffer;
    if (CFE_ES_CreateChildTask(&task, "SIGNAL", give_signal, NULL, 0, 0, 0) != CFE_SUCCESS)
        return;
    CHECK_STATUS(CFE_SB_ReceiveBuffer(&buffer, mine->signals, CFE_SB_PEND_FOREVER), CFE_SUCCESS);
    atomic_fetch_add(&signals, 1);
}

static void use_tasks(struct mine *mine)
{
    CFE_ES_TaskId_t task;
    CFE_ES_AppId_t app;
    char name[OS_MAX_API_NAME];
    if (draw(mine, 16) == 0 &&
        CFE_ES_CreateChildTask(&task, "CHILD", be_child, NULL, 0, 0, 0) == CFE_SUCCESS &&
        draw(mine, 4) == 0)
        CFE_ES_DeleteChildTask(task);
    CHECK_STATUS(CFE_ES_GetAppID(&app), CFE_SUCCESS);
    CHECK_STATUS(CFE_ES_GetAppName(name, app, sizeof name), CFE_SUCCESS);
    CHECK_STATUS(CFE_ES_GetAppIDByName(&app, name), CFE_SUCCESS);
    CHECK(OS_MutSemTake(mutex) == OS_SUCCESS);
    guarded++;
    CHECK(OS_MutSemGive(mutex) == OS_SUCCESS);
    if (draw(mine, 64) == 0)
        OS_TaskDelay(1);
    if (draw(mine, 16) == 0)
        wait_for_signal(mine);
}

/* A table file for its own table. */
static void write_file(struct mine *mine)
{
    struct table value;
    uint8 headers[116] = {'c', 'F', 'E', '1', 0, 0, 0, 8};
    char name[OS_MAX_API_NAME];
    CFE_ES_AppId_t app;
    headers[75] = sizeof value;
    CHECK_STATUS(CFE_ES_GetAppID(&app), CFE_SUCCESS);
    CHECK_STATUS(CFE_ES_GetAppName(name, app, sizeof name), CFE_SUCCESS);
    snprintf((char *)headers + 76, CFE_TBL_MAX_FULL_NAME_LEN, "%s.TABLE", name);
    CHECK(snprintf(mine->file, sizeof mine->file, "%s/%s.tbl", folder, name) <
          (int)sizeof mine->file);
    fill(value.words, 16, 1);
    FILE *file = fopen(mine->file, "wb");
    CHECK(file && fwrite(headers, sizeof headers, 1, file) == 1);
    CHECK(fwrite(&value, sizeof value, 1, file) == 1);
    fclose(file);
}

static void set_up(struct mine *mine)
{
    CHECK_STATUS(CFE_EVS_Register(NULL, 0, CFE_EVS_EventFilter_BINARY), CFE_SUCCESS);
    CHECK_STATUS(CFE_TBL_Register(&mine->own, "TABLE", sizeof(struct table),
                                  mine->number % 2 ? CFE_TBL_OPT_DBL_BUFFER : CFE_TBL_OPT_DEFAULT,
                                  validate),
                 CFE_SUCCESS);
    write_file(mine);
    CFE_ES_AppId_t app;
    CHECK_STATUS(CFE_ES_GetAppID(&app), CFE_SUCCESS);
    char name[OS_MAX_API_NAME];
    snprintf(name, sizeof name, "SIGNALS%u", (unsigned)app);
    CHECK_STATUS(CFE_SB_CreatePipe(&mine->signals, 2, name), CFE_SUCCESS);
    CHECK_STATUS(CFE_SB_Subscribe(OWN_ID + app, mine->signals), CFE_SUCCESS);
    /* Eight pools are all that there may be; two applications share one. */
    mine->pool = 1 + (mine->number - 1) / 2;
    CFE_ES_MemHandle_t pool;
    if (mine->number % 2)
        CFE_ES_PoolCreate(&pool, memory[mine->number / 2].Data, POOL_BYTES);
    CFE_ES_WaitForStartupSync(10000);
}

static void call_everything(void)
{
    static void (*const uses[])(struct mine *) = {send,       receive,  receive,
                                                  use_buffer, use_pipe, use_events,
                                                  use_table,  use_pool, use_tasks};
    struct mine mine = {.number = 1 + atomic_fetch_add(&next_number, 1)};
    uint32 status = CFE_ES_RunStatus_APP_RUN;
    mine.random = mine.number * 7919;
    set_up(&mine);
    while (CFE_ES_RunLoop(&status) && !is_over())
        uses[draw(&mine, sizeof uses / sizeof uses[0])](&mine);
    remove(mine.file);
}

int main(int argc, char **argv)
{
    static char names[APPS][8];
    struct fsw_app apps[APPS];
    struct fsw_limits limits = FSW_USUAL_LIMITS;
    const struct fsw_config config = {.sends_events = true};
    limits.dests = 64;
    for (unsigned i = 0; i < APPS; i++) {
        snprintf(names[i], sizeof names[i], "APP%u", i + 1);
        apps[i] = (struct fsw_app){.name = names[i], .entry = call_everything};
    }
    CHECK(OS_MutSemCreate(&mutex, "GUARD", 0) == OS_SUCCESS);
    clock_gettime(CLOCK_MONOTONIC, &deadline);
    deadline.tv_sec += argc > 1 ? strtol(argv[1], NULL, 10) : 1;
    if (argc > 2)
        folder = argv[2];
    fsw_configure(&config);
    CHECK(fsw_run(&limits, apps, APPS) == 0);
    CHECK(OS_MutSemDelete(mutex) == OS_SUCCESS);
    printf("threads_test passed: %lu sends, %lu receives, %lu loads, %lu events, %lu child tasks, "
           "%lu signals\n",
           atomic_load(&sends), atomic_load(&receives), atomic_load(&loads), atomic_load(&events),
           atomic_load(&children), atomic_load(&signals));
    CHECK(receives > 0 && loads > 0 && children > 0 && signals > 0);
    return 0;
}
