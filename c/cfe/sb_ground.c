/* sb_ground.c: the bus's commands, and its packets. */
#include "cfe_msgids.h"
#include "cfe_sb_events.h"
#include "cfe_sb_msg.h"
#include "layer.h"

#include <string.h>

static const char bus_name[] = "CFE_SB";

/* ---- Packets ---- */

/* The bus's counters since they were reset. The core's don't wrap, and are never reset. */
static struct fsw_counters counters_now(void)
{
    struct fsw_counters now;
    const struct fsw_counters *base = &fsw_layer.bus_counters;
    memset(&now, 0, sizeof now);
    fsw_must(fsw_counters(&fsw_layer.core, &now) != FSW_SUCCESS);
    now.nosub -= base->nosub + fsw_layer.requests;
    now.send -= base->send;
    now.recv -= base->recv;
    now.create -= base->create;
    now.sub -= base->sub;
    now.opts -= base->opts;
    now.dup -= base->dup;
    now.find -= base->find;
    now.overflow -= base->overflow;
    now.limit -= base->limit;
    return now;
}

static void reset_counters(void)
{
    fsw_must(fsw_counters(&fsw_layer.core, &fsw_layer.bus_counters) != FSW_SUCCESS);
    fsw_layer.requests = 0;
    fsw_layer.bus_commands = fsw_layer.bus_command_errors = 0;
}

void fsw_send_bus_housekeeping(const struct fsw_command *command)
{
    CFE_SB_HousekeepingTlm_t packet;
    struct fsw_use now, peak;
    (void)command;
    fsw_resume();
    CFE_MSG_Init(CFE_MSG_PTR(packet.TelemetryHeader), CFE_SB_HK_TLM_MID, sizeof packet);
    struct fsw_counters counts = counters_now();
    fsw_must(fsw_use(&fsw_layer.core, &now, &peak) != FSW_SUCCESS);
    packet.Payload = (CFE_SB_HousekeepingTlm_Payload_t){
        .CommandCounter = fsw_layer.bus_commands,
        .CommandErrorCounter = fsw_layer.bus_command_errors,
        .NoSubscribersCounter = (uint8)counts.nosub,
        .MsgSendErrorCounter = (uint8)counts.send,
        .MsgReceiveErrorCounter = (uint8)counts.recv,
        .CreatePipeErrorCounter = (uint8)counts.create,
        .SubscribeErrorCounter = (uint8)counts.sub,
        .PipeOptsErrorCounter = (uint8)counts.opts,
        .DuplicateSubscriptionsCounter = (uint8)counts.dup,
        .GetPipeIdByNameErrorCounter = (uint8)counts.find,
        .PipeOverflowErrorCounter = (uint16)counts.overflow,
        .MsgLimitErrorCounter = (uint16)counts.limit,
        .MemInUse = now.bytes,
        .UnmarkedMem = fsw_layer.limits.pool - peak.bytes,
    };
    fsw_send_own(fsw_self->app, &packet.TelemetryHeader, sizeof packet);
    fsw_leave();
}

/* The first pipes, as many as the packet has room for. */
static void write_depths(CFE_SB_PipeDepthStats_t *depths)
{
    size_t count = 0;
    for (size_t i = 0; i < PIPE_PLACES && count < CFE_MISSION_SB_MAX_PIPES; i++) {
        const struct pipe *pipe = &fsw_layer.pipe[i];
        uint32_t waiting = 0;
        if (!pipe->number || fsw_waiting(&fsw_layer.core, pipe->number, &waiting) != FSW_SUCCESS)
            continue;
        depths[count].PipeId = pipe->number;
        depths[count].MaxQueueDepth = (uint16)pipe->depth;
        depths[count++].CurrentQueueDepth = (uint16)waiting;
    }
}

static void send_statistics(void)
{
    CFE_SB_StatsTlm_t packet;
    const struct fsw_limits *limits = &fsw_layer.limits;
    struct fsw_use now, peak;
    fsw_resume();
    CFE_MSG_Init(CFE_MSG_PTR(packet.TelemetryHeader), CFE_SB_STATS_TLM_MID, sizeof packet);
    fsw_must(fsw_use(&fsw_layer.core, &now, &peak) != FSW_SUCCESS);
    packet.Payload = (CFE_SB_StatsTlm_Payload_t){
        .MsgIdsInUse = now.msgids,
        .PeakMsgIdsInUse = peak.msgids,
        .MaxMsgIdsAllowed = limits->msgids,
        .PipesInUse = now.pipes,
        .PeakPipesInUse = peak.pipes,
        .MaxPipesAllowed = limits->pipes,
        .MemInUse = now.bytes,
        .PeakMemInUse = peak.bytes,
        .MaxMemAllowed = limits->pool,
        .SubscriptionsInUse = now.subs,
        .PeakSubscriptionsInUse = peak.subs,
        .MaxSubscriptionsAllowed = limits->msgids * limits->dests,
        .SBBuffersInUse = now.buffers,
        .PeakSBBuffersInUse = peak.buffers,
        .MaxPipeDepthAllowed = limits->depth,
    };
    write_depths(packet.Payload.PipeDepthStats);
    fsw_send_own(fsw_self->app, &packet.TelemetryHeader, sizeof packet);
    fsw_leave();
}

/* ---- Commands ---- */

static void count_command(bool is_error)
{
    fsw_resume();
    if (is_error)
        fsw_layer.bus_command_errors++;
    else
        fsw_layer.bus_commands++;
    fsw_leave();
}

static void reset_by_command(void)
{
    fsw_resume();
    reset_counters();
    fsw_leave();
    fsw_reply(bus_name, CFE_SB_CMD1_RCVD_EID, CFE_EVS_EventType_DEBUG, "Reset Counters Cmd Rcvd");
}

void fsw_serve_bus(const struct fsw_command *command)
{
    uint32_t code = fsw_code_of(command);
    bool is_known = code <= CFE_SB_SEND_SB_STATS_CC;
    bool is_good = is_known && command->size == sizeof(CFE_MSG_CommandHeader_t);
    if (is_good && code == CFE_SB_RESET_COUNTERS_CC) {
        reset_by_command();
        return;
    }
    count_command(!is_good);
    if (!is_known)
        fsw_reply(bus_name, CFE_SB_BAD_CMD_CODE_EID, CFE_EVS_EventType_ERROR,
                  "Invalid Cmd, Unexpected Command Code %u", (unsigned)code);
    else if (!is_good)
        fsw_reply(bus_name, CFE_SB_LEN_ERR_EID, CFE_EVS_EventType_ERROR,
                  "Invalid msg length: CC = %u, Len = %u", (unsigned)code, (unsigned)command->size);
    else if (code == CFE_SB_NOOP_CC)
        fsw_reply(bus_name, CFE_SB_CMD0_RCVD_EID, CFE_EVS_EventType_INFORMATION, "No-op Cmd Rcvd");
    else
        send_statistics();
}
