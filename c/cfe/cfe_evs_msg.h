/*
 * cfe_evs_msg.h: Event Services' commands, CFE_EVS_CMD_MID, and its housekeeping packet. Those of
 * cFE for formats, files and the log are not there. Numbers are in the processor's byte order.
 */
#ifndef CFE_EVS_MSG_H
#define CFE_EVS_MSG_H

#include "cfe_es.h"
#include "cfe_evs.h"

#define CFE_EVS_NOOP_CC                   0
#define CFE_EVS_RESET_COUNTERS_CC         1
#define CFE_EVS_ENABLE_EVENT_TYPE_CC      2
#define CFE_EVS_DISABLE_EVENT_TYPE_CC     3
#define CFE_EVS_ENABLE_APP_EVENT_TYPE_CC  5
#define CFE_EVS_DISABLE_APP_EVENT_TYPE_CC 6
#define CFE_EVS_ENABLE_APP_EVENTS_CC      7
#define CFE_EVS_DISABLE_APP_EVENTS_CC     8
#define CFE_EVS_RESET_APP_COUNTER_CC      9
#define CFE_EVS_SET_FILTER_CC             10
#define CFE_EVS_ENABLE_PORTS_CC           11
#define CFE_EVS_DISABLE_PORTS_CC          12
#define CFE_EVS_RESET_FILTER_CC           13
#define CFE_EVS_RESET_ALL_FILTERS_CC      14
#define CFE_EVS_ADD_EVENT_FILTER_CC       15
#define CFE_EVS_DELETE_EVENT_FILTER_CC    16

/* The types, a bit each; and the one port, which is printed. */
#define CFE_EVS_DEBUG_BIT       0x0001
#define CFE_EVS_INFORMATION_BIT 0x0002
#define CFE_EVS_ERROR_BIT       0x0004
#define CFE_EVS_CRITICAL_BIT    0x0008
#define CFE_EVS_PORT1_BIT       0x0001

/* Of types, and of ports. */
typedef struct CFE_EVS_BitMaskCmd_Payload {
    uint8 BitMask;
    uint8 Spare;
} CFE_EVS_BitMaskCmd_Payload_t;

typedef struct CFE_EVS_BitMaskCmd {
    CFE_MSG_CommandHeader_t CommandHeader;
    CFE_EVS_BitMaskCmd_Payload_t Payload;
} CFE_EVS_BitMaskCmd_t;

/* Names are ended by a zero byte, or as long as their field. */
typedef struct CFE_EVS_AppNameCmd_Payload {
    char AppName[CFE_MISSION_MAX_API_LEN];
} CFE_EVS_AppNameCmd_Payload_t;

typedef struct CFE_EVS_AppNameCmd {
    CFE_MSG_CommandHeader_t CommandHeader;
    CFE_EVS_AppNameCmd_Payload_t Payload;
} CFE_EVS_AppNameCmd_t;

typedef struct CFE_EVS_AppNameBitMaskCmd_Payload {
    char AppName[CFE_MISSION_MAX_API_LEN];
    uint8 BitMask;
    uint8 Spare;
} CFE_EVS_AppNameBitMaskCmd_Payload_t;

typedef struct CFE_EVS_AppNameBitMaskCmd {
    CFE_MSG_CommandHeader_t CommandHeader;
    CFE_EVS_AppNameBitMaskCmd_Payload_t Payload;
} CFE_EVS_AppNameBitMaskCmd_t;

typedef struct CFE_EVS_AppNameEventIDCmd_Payload {
    char AppName[CFE_MISSION_MAX_API_LEN];
    uint16 EventID;
} CFE_EVS_AppNameEventIDCmd_Payload_t;

typedef struct CFE_EVS_AppNameEventIDCmd {
    CFE_MSG_CommandHeader_t CommandHeader;
    CFE_EVS_AppNameEventIDCmd_Payload_t Payload;
} CFE_EVS_AppNameEventIDCmd_t;

typedef struct CFE_EVS_AppNameEventIDMaskCmd_Payload {
    char AppName[CFE_MISSION_MAX_API_LEN];
    uint16 EventID;
    uint16 Mask;
} CFE_EVS_AppNameEventIDMaskCmd_Payload_t;

typedef struct CFE_EVS_AppNameEventIDMaskCmd {
    CFE_MSG_CommandHeader_t CommandHeader;
    CFE_EVS_AppNameEventIDMaskCmd_Payload_t Payload;
} CFE_EVS_AppNameEventIDMaskCmd_t;

/* The housekeeping packet, CFE_EVS_HK_TLM_MID. Counters wrap, as cFE's. */
typedef struct CFE_EVS_AppTlmData {
    CFE_ES_AppId_t AppID; /* 0 behind the last application that is registered */
    uint16 AppMessageSentCounter;
    uint8 AppEnableStatus;
    uint8 AppMessageSquelchedCounter;
} CFE_EVS_AppTlmData_t;

typedef struct CFE_EVS_HousekeepingTlm_Payload {
    uint8 CommandCounter;
    uint8 CommandErrorCounter;
    uint8 MessageFormatMode; /* 2: long packets */
    uint8 MessageTruncCounter;
    uint8 UnregisteredAppCounter;
    uint8 OutputPort; /* a bit for each port that is on */
    uint8 LogFullFlag;
    uint8 LogMode; /* 0: a full log drops its oldest line */
    uint16 MessageSendCounter;
    uint16 LogOverflowCounter;
    uint8 LogEnabled;
    uint8 Spare1;
    uint8 Spare2;
    uint8 Spare3;
    CFE_EVS_AppTlmData_t AppData[CFE_MISSION_ES_MAX_APPLICATIONS];
} CFE_EVS_HousekeepingTlm_Payload_t;

typedef struct CFE_EVS_HousekeepingTlm {
    CFE_MSG_TelemetryHeader_t TelemetryHeader;
    CFE_EVS_HousekeepingTlm_Payload_t Payload;
} CFE_EVS_HousekeepingTlm_t;

#endif
