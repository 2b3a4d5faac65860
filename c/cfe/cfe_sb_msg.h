/*
 * cfe_sb_msg.h: the bus's commands, CFE_SB_CMD_MID, and its packets. An application that sends a
 * message of the id CFE_SB_SEND_HK_MID has the housekeeping packet sent. Numbers are in the
 * processor's byte order.
 */
#ifndef CFE_SB_MSG_H
#define CFE_SB_MSG_H

#include "cfe_es.h"
#include "cfe_msg.h"
#include "cfe_sb_extern_typedefs.h"

/* Function codes of commands without an argument. */
#define CFE_SB_NOOP_CC           0
#define CFE_SB_RESET_COUNTERS_CC 1
#define CFE_SB_SEND_SB_STATS_CC  2

/* The counters wrap, as cFE's. What the bus hasn't is 0: internal errors, the pool's id. */
typedef struct CFE_SB_HousekeepingTlm_Payload {
    uint8 CommandCounter;
    uint8 CommandErrorCounter;
    uint8 NoSubscribersCounter;
    uint8 MsgSendErrorCounter;
    uint8 MsgReceiveErrorCounter;
    uint8 InternalErrorCounter;
    uint8 CreatePipeErrorCounter;
    uint8 SubscribeErrorCounter;
    uint8 PipeOptsErrorCounter;
    uint8 DuplicateSubscriptionsCounter;
    uint8 GetPipeIdByNameErrorCounter;
    uint8 Spare2Align[1];
    uint16 PipeOverflowErrorCounter;
    uint16 MsgLimitErrorCounter;
    CFE_ES_MemHandle_t MemPoolHandle;
    uint32 MemInUse;    /* bytes of the blocks that messages have now */
    uint32 UnmarkedMem; /* bytes of the bus's pool that they never had at one time */
} CFE_SB_HousekeepingTlm_Payload_t;

typedef struct CFE_SB_HousekeepingTlm {
    CFE_MSG_TelemetryHeader_t TelemetryHeader;
    CFE_SB_HousekeepingTlm_Payload_t Payload;
} CFE_SB_HousekeepingTlm_t;

/* The statistics packet, CFE_SB_STATS_TLM_MID. A pipe's peak depth is 0: the bus keeps none. */
typedef struct CFE_SB_PipeDepthStats {
    CFE_SB_PipeId_t PipeId; /* 0 behind the last pipe */
    uint16 MaxQueueDepth;
    uint16 CurrentQueueDepth;
    uint16 PeakQueueDepth;
    uint16 Spare;
} CFE_SB_PipeDepthStats_t;

typedef struct CFE_SB_StatsTlm_Payload {
    uint32 MsgIdsInUse;
    uint32 PeakMsgIdsInUse;
    uint32 MaxMsgIdsAllowed;
    uint32 PipesInUse;
    uint32 PeakPipesInUse;
    uint32 MaxPipesAllowed;
    uint32 MemInUse;
    uint32 PeakMemInUse;
    uint32 MaxMemAllowed;
    uint32 SubscriptionsInUse;
    uint32 PeakSubscriptionsInUse;
    uint32 MaxSubscriptionsAllowed;
    uint32 SBBuffersInUse;
    uint32 PeakSBBuffersInUse;
    uint32 MaxPipeDepthAllowed;
    CFE_SB_PipeDepthStats_t PipeDepthStats[CFE_MISSION_SB_MAX_PIPES];
} CFE_SB_StatsTlm_Payload_t;

typedef struct CFE_SB_StatsTlm {
    CFE_MSG_TelemetryHeader_t TelemetryHeader;
    CFE_SB_StatsTlm_Payload_t Payload;
} CFE_SB_StatsTlm_t;

#endif
