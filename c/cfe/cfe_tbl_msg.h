/*
 * cfe_tbl_msg.h: the commands of Table Services, CFE_TBL_CMD_MID, and its housekeeping packet,
 * CFE_TBL_HK_TLM_MID, which a message of the id CFE_TBL_SEND_HK_MID has sent. Names end with a zero
 * byte, or with their field. Numbers are in the processor's byte order.
 */
#ifndef CFE_TBL_MSG_H
#define CFE_TBL_MSG_H

#include "cfe_es.h"
#include "cfe_mission_cfg.h"
#include "cfe_msg.h"
#include "cfe_time.h"

/* Function codes. cFE's others, for dumps and critical tables, are refused. */
#define CFE_TBL_NOOP_CC           0
#define CFE_TBL_RESET_COUNTERS_CC 1
#define CFE_TBL_LOAD_CC           2 /* a file is staged for the table that it names */
#define CFE_TBL_VALIDATE_CC       4 /* the owner is to validate it (CFE_TBL_Manage) */
#define CFE_TBL_ACTIVATE_CC       5 /* what was validated is to become the table's */
#define CFE_TBL_ABORT_LOAD_CC     9 /* what is staged is dropped */

typedef enum CFE_TBL_BufferSelect {
    CFE_TBL_BufferSelect_INACTIVE = 0, /* what is staged */
    CFE_TBL_BufferSelect_ACTIVE = 1    /* the table as it is */
} CFE_TBL_BufferSelect_Enum_t;

typedef struct CFE_TBL_NoArgsCmd {
    CFE_MSG_CommandHeader_t CommandHeader;
} CFE_TBL_NoArgsCmd_t;

typedef CFE_TBL_NoArgsCmd_t CFE_TBL_NoopCmd_t;
typedef CFE_TBL_NoArgsCmd_t CFE_TBL_ResetCountersCmd_t;

typedef struct CFE_TBL_LoadCmd_Payload {
    char LoadFilename[CFE_MISSION_MAX_PATH_LEN];
} CFE_TBL_LoadCmd_Payload_t;

typedef struct CFE_TBL_LoadCmd {
    CFE_MSG_CommandHeader_t CommandHeader;
    CFE_TBL_LoadCmd_Payload_t Payload;
} CFE_TBL_LoadCmd_t;

typedef struct CFE_TBL_ValidateCmd_Payload {
    uint16 ActiveTableFlag; /* CFE_TBL_BufferSelect_... */
    char TableName[CFE_MISSION_TBL_MAX_FULL_NAME_LEN];
} CFE_TBL_ValidateCmd_Payload_t;

typedef struct CFE_TBL_ValidateCmd {
    CFE_MSG_CommandHeader_t CommandHeader;
    CFE_TBL_ValidateCmd_Payload_t Payload;
} CFE_TBL_ValidateCmd_t;

typedef struct CFE_TBL_ActivateCmd_Payload {
    char TableName[CFE_MISSION_TBL_MAX_FULL_NAME_LEN];
} CFE_TBL_ActivateCmd_Payload_t;

typedef struct CFE_TBL_ActivateCmd {
    CFE_MSG_CommandHeader_t CommandHeader;
    CFE_TBL_ActivateCmd_Payload_t Payload;
} CFE_TBL_ActivateCmd_t;

typedef CFE_TBL_ActivateCmd_Payload_t CFE_TBL_AbortLoadCmd_Payload_t;
typedef CFE_TBL_ActivateCmd_t CFE_TBL_AbortLoadCmd_t;

/* Counters wrap, as cFE's. What the layer hasn't is 0: a memory pool's id, the last file dumped. */
typedef struct CFE_TBL_HousekeepingTlm_Payload {
    uint8 CommandCounter;
    uint8 CommandErrorCounter;
    uint16 NumTables;         /* registered */
    uint16 NumLoadPending;    /* of these, with an update that waits */
    uint16 ValidationCounter; /* validations made that were asked for */
    uint32 LastValCrc;
    int32 LastValStatus;
    bool ActiveBuffer; /* the last was of the table as it is */
    char LastValTableName[CFE_MISSION_TBL_MAX_FULL_NAME_LEN];
    uint8 SuccessValCtr;
    uint8 FailedValCtr;
    uint8 NumValRequests;
    uint8 NumFreeSharedBufs; /* for loads of single-buffered tables, of four */
    uint8 ByteAlignPad1;
    CFE_ES_MemHandle_t MemPoolHandle;
    CFE_TIME_SysTime_t LastUpdateTime;
    char LastUpdatedTable[CFE_MISSION_TBL_MAX_FULL_NAME_LEN];
    char LastFileLoaded[CFE_MISSION_MAX_PATH_LEN];
    char LastFileDumped[CFE_MISSION_MAX_PATH_LEN];
    char LastTableLoaded[CFE_MISSION_TBL_MAX_FULL_NAME_LEN];
} CFE_TBL_HousekeepingTlm_Payload_t;

typedef struct CFE_TBL_HousekeepingTlm {
    CFE_MSG_TelemetryHeader_t TelemetryHeader;
    CFE_TBL_HousekeepingTlm_Payload_t Payload;
} CFE_TBL_HousekeepingTlm_t;

#endif
