/*
 * sbn_node.c: one of several processes whose buses sbn_zmq joins. Its application NODE sends a
 * message of its own id every 20 ms, and prints what it receives of others.
 *
 *     sbn_node FILE NAME [SECRET [BURST]]      until SIGTERM or SIGINT
 *
 * FILE is sbn_zmq's, SECRET the file of NAME's secret key. The node that stands first in FILE sends
 * telemetry of id 0x0901, the next 0x0902, and so on; and commands 0x1901, 0x1902, if the file says
 * that it may. With BURST it sends so many messages every 20 ms.
 */
#include "fsw_run.h"
#include "sbn_zmq.h"

#include <stdio.h>
#include <stdlib.h>
#include <string.h>

#define NODE_FIRST_MID 0x0901
#define NODE_FIRST_CMD 0x1901
#define SEND_MS        20
#define PRINT_MS       200
#define PIPE_DEPTH     256

static uint32 burst = 1;
typedef struct {
    CFE_MSG_TelemetryHeader_t TelemetryHeader;
    uint32 Number;
} node_tlm_t;

/* What was received of each node. */
static struct {
    uint32 count, last, gaps, commands;
} received[SBN_MOST_PEERS];

static void print_link(const SBN_Link_t *link)
{
    const SBN_Faults_t *faults = &link->Faults;
    OS_printf("link %.*s received %u refused %u stale %u replayed %u missed %u sent %u unsent %u "
              "doubled %u failed %u ended %u found %u lost %u there %u\n",
              SBN_MOST_NAME, link->Name, link->Received, faults->Refused, faults->Stale,
              faults->Replayed, faults->Missed, link->Sent, link->Unsent, faults->Doubled,
              faults->Failed, faults->Ended, link->Found, link->Lost, link->IsThere);
}

static void print_links(const CFE_SB_Buffer_t *buffer)
{
    SBN_HkTlm_t hk;
    memcpy(&hk, buffer, sizeof hk);
    OS_printf("strangers %u ended %u\n", hk.Strangers, hk.Ended);
    for (uint32 i = 0; i < hk.Links && i < SBN_MOST_PEERS - 1; i++)
        print_link(&hk.Link[i]);
    for (uint32 i = 0; i < SBN_MOST_PEERS; i++)
        if (received[i].count)
            OS_printf("node %u count %u last %u gaps %u commands %u\n", i + 1, received[i].count,
                      received[i].last, received[i].gaps, received[i].commands);
}

static void take_tlm(uint32 from, const CFE_SB_Buffer_t *buffer)
{
    node_tlm_t tlm;
    memcpy(&tlm, buffer, sizeof tlm);
    received[from].gaps += received[from].count && tlm.Number != received[from].last + 1;
    received[from].last = tlm.Number;
    received[from].count++;
    /* Its own message can only have come back from another process. */
    if (from == SBN_Config.Self)
        OS_printf("echo\n");
}

/* A message of the right id isn't yet one of the right length. */
static void take(const CFE_SB_Buffer_t *buffer)
{
    CFE_SB_MsgId_t id = CFE_SB_INVALID_MSG_ID;
    CFE_MSG_Size_t size = 0;
    CFE_MSG_GetMsgId(&buffer->Msg, &id);
    CFE_MSG_GetSize(&buffer->Msg, &size);
    uint32 value = CFE_SB_MsgIdToValue(id);
    if (value == SBN_HK_TLM_MID && size == sizeof(SBN_HkTlm_t))
        print_links(buffer);
    else if (value - NODE_FIRST_MID < SBN_MOST_PEERS && size == sizeof(node_tlm_t))
        take_tlm(value - NODE_FIRST_MID, buffer);
    else if (value - NODE_FIRST_CMD < SBN_MOST_PEERS && size == sizeof(CFE_MSG_CommandHeader_t))
        received[value - NODE_FIRST_CMD].commands++;
    else
        OS_printf("refused 0x%04x of %u bytes\n", value, (unsigned)size);
}

static CFE_SB_PipeId_t open_pipe(void)
{
    CFE_SB_PipeId_t pipe = CFE_SB_INVALID_PIPE;
    CFE_SB_CreatePipe(&pipe, PIPE_DEPTH, "NODE_PIPE");
    CFE_SB_SetPipeOpts(pipe, CFE_SB_PIPEOPTS_IGNOREMINE);
    CFE_SB_Subscribe(CFE_SB_ValueToMsgId(SBN_HK_TLM_MID), pipe);
    for (uint32 i = 0; i < SBN_MOST_PEERS; i++) {
        CFE_SB_SubscribeEx(CFE_SB_ValueToMsgId(NODE_FIRST_MID + i), pipe, CFE_SB_DEFAULT_QOS,
                           PIPE_DEPTH);
        CFE_SB_Subscribe(CFE_SB_ValueToMsgId(NODE_FIRST_CMD + i), pipe);
    }
    return pipe;
}

static void send_burst(node_tlm_t *tlm)
{
    for (uint32 i = 0; i < burst; i++) {
        tlm->Number++;
        CFE_SB_TransmitMsg(CFE_MSG_PTR(tlm->TelemetryHeader), true);
    }
}

static void NODE_Main(void)
{
    uint32 run_status = CFE_ES_RunStatus_APP_RUN, beats = 0;
    CFE_SB_Buffer_t *buffer;
    node_tlm_t tlm;
    CFE_MSG_CommandHeader_t ask, command;
    CFE_SB_PipeId_t pipe = open_pipe();
    CFE_MSG_Init(CFE_MSG_PTR(tlm.TelemetryHeader),
                 CFE_SB_ValueToMsgId(NODE_FIRST_MID + SBN_Config.Self), sizeof tlm);
    CFE_MSG_Init(CFE_MSG_PTR(command), CFE_SB_ValueToMsgId(NODE_FIRST_CMD + SBN_Config.Self),
                 sizeof command);
    CFE_MSG_Init(CFE_MSG_PTR(ask), CFE_SB_ValueToMsgId(SBN_SEND_HK_MID), sizeof ask);
    tlm.Number = 0;
    CFE_ES_WaitForStartupSync(10000);
    while (CFE_ES_RunLoop(&run_status)) {
        OS_TaskDelay(SEND_MS);
        send_burst(&tlm);
        if (++beats % (PRINT_MS / SEND_MS) == 0) {
            CFE_SB_TransmitMsg(CFE_MSG_PTR(ask), true);
            CFE_SB_TransmitMsg(CFE_MSG_PTR(command), true);
        }
        while (CFE_SB_ReceiveBuffer(&buffer, pipe, CFE_SB_POLL) == CFE_SUCCESS)
            take(buffer);
    }
}

int main(int argc, char **argv)
{
    static const struct fsw_app apps[] = {{.name = "SBN", .entry = SBN_Main},
                                          {.name = "NODE", .entry = NODE_Main}};
    const struct fsw_config config = {.prints_events = true, .spacecraft = 0x42, .processor = 1};
    if (argc == 5)
        burst = (uint32)strtoul(argv[4], NULL, 10);
    if (argc < 3 || argc > 5 || burst < 1 || burst > PIPE_DEPTH / 2) {
        fprintf(stderr, "usage: sbn_node FILE NAME [SECRET [BURST]]\n");
        return 2;
    }
    if (!SBN_ReadConfig(&SBN_Config, argv[1], argv[2], argc > 3 ? argv[3] : NULL)) {
        fprintf(stderr, "sbn_node: %s\n", SBN_Config.Fault);
        return 2;
    }
    if (!fsw_stop_at_signals())
        return 1;
    fsw_configure(&config);
    return fsw_run(NULL, apps, sizeof apps / sizeof apps[0]) == 0 ? 0 : 1;
}
