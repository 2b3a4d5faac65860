/* cfe_evs.h: Event Services. */
#ifndef CFE_EVS_H
#define CFE_EVS_H

#include "cfe_es.h"
#include "cfe_mission_cfg.h"
#include "cfe_msg.h"

#ifdef __cplusplus
extern "C" {
#endif

typedef enum CFE_EVS_EventFilter_Enum { CFE_EVS_EventFilter_BINARY = 0 } CFE_EVS_EventFilter_Enum_t;

enum CFE_EVS_EventType {
    CFE_EVS_EventType_DEBUG = 1,
    CFE_EVS_EventType_INFORMATION = 2,
    CFE_EVS_EventType_ERROR = 3,
    CFE_EVS_EventType_CRITICAL = 4
};

/* An event passes if the count of its id AND the mask is 0. */
#define CFE_EVS_NO_FILTER        0x0000
#define CFE_EVS_FIRST_ONE_STOP   0xFFFF
#define CFE_EVS_FIRST_TWO_STOP   0xFFFE
#define CFE_EVS_FIRST_4_STOP     0xFFFC
#define CFE_EVS_FIRST_8_STOP     0xFFF8
#define CFE_EVS_FIRST_16_STOP    0xFFF0
#define CFE_EVS_FIRST_32_STOP    0xFFE0
#define CFE_EVS_FIRST_64_STOP    0xFFC0
#define CFE_EVS_EVERY_OTHER_ONE  0x0001
#define CFE_EVS_EVERY_OTHER_TWO  0x0002
#define CFE_EVS_EVERY_FOURTH_ONE 0x0003

typedef struct CFE_EVS_BinFilter {
    uint16 EventID;
    uint16 Mask;
} CFE_EVS_BinFilter_t;

/* The packet of an event, as cFE sends it. Numbers are in the processor's byte order. */
typedef struct CFE_EVS_PacketID {
    char AppName[CFE_MISSION_MAX_API_LEN];
    uint16 EventID;
    uint16 EventType;
    uint32 SpacecraftID;
    uint32 ProcessorID;
} CFE_EVS_PacketID_t;

typedef struct CFE_EVS_LongEventTlm_Payload {
    CFE_EVS_PacketID_t PacketID;
    char Message[CFE_MISSION_EVS_MAX_MESSAGE_LENGTH];
    uint8 Spare1;
    uint8 Spare2;
} CFE_EVS_LongEventTlm_Payload_t;

typedef struct CFE_EVS_LongEventTlm {
    CFE_MSG_TelemetryHeader_t TelemetryHeader;
    CFE_EVS_LongEventTlm_Payload_t Payload;
} CFE_EVS_LongEventTlm_t;

CFE_Status_t CFE_EVS_Register(const void *Filters, uint16 NumEventFilters, uint16 FilterScheme);
CFE_Status_t CFE_EVS_SendEvent(uint16 EventID, uint16 EventType, const char *Spec, ...)
    OS_PRINTF(3, 4);
/* With a time of the caller's in the packet; or by the name and the filters of any application. */
CFE_Status_t CFE_EVS_SendTimedEvent(CFE_TIME_SysTime_t Time, uint16 EventID, uint16 EventType,
                                    const char *Spec, ...) OS_PRINTF(4, 5);
CFE_Status_t CFE_EVS_SendEventWithAppID(uint16 EventID, uint16 EventType, CFE_ES_AppId_t AppID,
                                        const char *Spec, ...) OS_PRINTF(4, 5);
CFE_Status_t CFE_EVS_ResetFilter(uint16 EventID);
CFE_Status_t CFE_EVS_ResetAllFilters(void);

/* An event of each type: its id, and what SendEvent has behind the type. */
#define CFE_EVS_SendDbg(E, ...)  CFE_EVS_SendEvent(E, CFE_EVS_EventType_DEBUG, __VA_ARGS__)
#define CFE_EVS_SendInfo(E, ...) CFE_EVS_SendEvent(E, CFE_EVS_EventType_INFORMATION, __VA_ARGS__)
#define CFE_EVS_SendErr(E, ...)  CFE_EVS_SendEvent(E, CFE_EVS_EventType_ERROR, __VA_ARGS__)
#define CFE_EVS_SendCrit(E, ...) CFE_EVS_SendEvent(E, CFE_EVS_EventType_CRITICAL, __VA_ARGS__)

#ifdef __cplusplus
}
#endif

#endif
