/*
 * layer_cost.c: the rounds of docs/bench/plain_bus.c in cFE's names, to be timed and counted beside
 * it. Both have one mutex round each call.
 *
 *     layer_cost WORD ROUNDS [APPLICATIONS]
 *
 * send1, fan16, big, fanbig: a message of 64 or 32768 bytes to 1 or 16 pipes, received on each.
 * zc: a buffer of 64 bytes is asked for, written, sent as it lies, and received on 1 pipe.
 * table: 16384 bytes are loaded, and read by an address.
 * port1, port16: as send1 and fan16, by 1 or 2 applications, each with ids of its own.
 */
#include "cfe.h"
#include "fsw_run.h"

#include <stdio.h>
#include <stdlib.h>
#include <string.h>

/* So that a round is one piece of code, as plain_bus's is. */
#define ALWAYS_INLINE static inline __attribute__((always_inline))

enum { IDS = 4, FIRST_ID = 0x0801, DEPTH = 256, MOST_PIPES = 64, TABLE_BYTES = 16384 };

/* What an application does. */
struct share {
    uint32 first_id, ids, dests, size;
    unsigned long received;
};

static struct share shares[2];
static unsigned long rounds;
static void (*work)(struct share *share, const CFE_SB_PipeId_t *pipes);

static void open_pipes(const struct share *share, CFE_SB_PipeId_t *pipes)
{
    for (uint32 i = 0; i < share->ids * share->dests; i++) {
        char name[OS_MAX_API_NAME];
        snprintf(name, sizeof name, "P%x_%u", (unsigned)share->first_id, (unsigned)i);
        if (CFE_SB_CreatePipe(&pipes[i], DEPTH, name) != CFE_SUCCESS ||
            CFE_SB_SubscribeEx(share->first_id + i % share->ids, pipes[i], CFE_SB_DEFAULT_QOS,
                               DEPTH) != CFE_SUCCESS)
            exit(1);
    }
}

ALWAYS_INLINE unsigned long receive_on(const CFE_SB_PipeId_t *pipes, uint32 ids, uint32 dests)
{
    unsigned long received = 0;
    for (uint32 i = 0; i < dests; i++) {
        CFE_SB_Buffer_t *buffer;
        if (CFE_SB_ReceiveBuffer(&buffer, pipes[i * ids], CFE_SB_POLL) == CFE_SUCCESS) {
            *(volatile uint8 *)&buffer->Msg.Byte[0];
            received++;
        }
    }
    return received;
}

ALWAYS_INLINE unsigned long send_messages(struct share share, const CFE_SB_PipeId_t *pipes)
{
    unsigned long received = 0;
    CFE_MSG_Message_t *message = calloc(1, share.size);
    if (!message || CFE_MSG_Init(message, share.first_id, share.size) != CFE_SUCCESS)
        exit(1);
    for (unsigned long round = 0; round < rounds; round++) {
        uint32 place = (uint32)round % share.ids;
        CFE_MSG_SetMsgId(message, share.first_id + place);
        if (CFE_SB_TransmitMsg(message, true) == CFE_SUCCESS)
            received += receive_on(pipes + place, share.ids, share.dests);
    }
    free(message);
    return received;
}

/* As plain_bus, an application that has all ids knows how many they are. */
static void carry_messages(struct share *share, const CFE_SB_PipeId_t *pipes)
{
    struct share all = *share;
    all.ids = IDS;
    share->received = share->ids == IDS ? send_messages(all, pipes) : send_messages(*share, pipes);
}

static void carry_buffers(struct share *share, const CFE_SB_PipeId_t *pipes)
{
    for (unsigned long round = 0; round < rounds; round++) {
        uint32 place = (uint32)round % IDS;
        CFE_SB_Buffer_t *buffer = CFE_SB_AllocateMessageBuffer(share->size);
        if (!buffer)
            continue;
        CFE_MSG_Init(&buffer->Msg, share->first_id + place, share->size);
        if (CFE_SB_TransmitBuffer(buffer, true) == CFE_SUCCESS)
            share->received += receive_on(pipes + place, IDS, 1);
    }
}

static void load_and_read(struct share *share, const CFE_SB_PipeId_t *pipes)
{
    static uint8 value[TABLE_BYTES];
    CFE_TBL_Handle_t handle;
    void *at;
    (void)pipes;
    if (CFE_TBL_Register(&handle, "T", TABLE_BYTES, CFE_TBL_OPT_DBL_BUFFER, NULL) != CFE_SUCCESS)
        return;
    for (unsigned long round = 0; round < rounds; round++) {
        if (CFE_TBL_Load(handle, CFE_TBL_SRC_ADDRESS, value) != CFE_SUCCESS ||
            CFE_TBL_GetAddress(&at, handle) != CFE_TBL_INFO_UPDATED)
            continue;
        *(volatile uint8 *)at;
        share->received += CFE_TBL_ReleaseAddress(handle) == CFE_SUCCESS;
    }
}

static void do_share(void)
{
    CFE_SB_PipeId_t pipes[MOST_PIPES];
    CFE_ES_AppId_t app;
    if (CFE_ES_GetAppID(&app) != CFE_SUCCESS)
        return;
    struct share *share = &shares[app - 1];
    if (work != load_and_read)
        open_pipes(share, pipes);
    CFE_ES_WaitForStartupSync(10000);
    work(share, pipes);
}

int main(int argc, char **argv)
{
    static const struct {
        const char *word;
        uint32 size, dests;
        void (*work)(struct share *share, const CFE_SB_PipeId_t *pipes);
    } words[] = {{"send1", 64, 1, carry_messages},  {"fan16", 64, 16, carry_messages},
                 {"big", 32768, 1, carry_messages}, {"fanbig", 32768, 16, carry_messages},
                 {"zc", 64, 1, carry_buffers},      {"table", 0, 0, load_and_read},
                 {"port1", 64, 1, carry_messages},  {"port16", 64, 16, carry_messages}};
    static const struct fsw_app apps[2] = {{.name = "FIRST", .entry = do_share},
                                           {.name = "SECOND", .entry = do_share}};
    const char *word = argc > 1 ? argv[1] : "";
    rounds = argc > 2 ? strtoul(argv[2], NULL, 10) : 0;
    uint32 count = argc > 3 && strcmp(argv[3], "2") == 0 ? 2 : 1;
    for (size_t i = 0; i < sizeof words / sizeof words[0]; i++) {
        if (strcmp(word, words[i].word) != 0)
            continue;
        work = words[i].work;
        for (uint32 k = 0; k < count; k++)
            shares[k] = (struct share){FIRST_ID + k * IDS / count, IDS / count, words[i].dests,
                                       words[i].size, 0};
    }
    int answer = work ? fsw_run(NULL, apps, count) : -1;
    printf("%s rounds=%lu received=%lu\n", word, rounds, shares[0].received + shares[1].received);
    return answer == 0 ? 0 : 1;
}
