/*
 * sample_app.h: an application in cFE's usual shape: a pipe for commands and requests for
 * housekeeping, a table with a validation function, events.
 *
 *     Command (SAMPLE_APP_CMD_MID)   Function code   Argument            Effect
 *     NOOP                           0               none                an event
 *     RESET_COUNTERS                 1               none                both counters are 0
 *     PROCESS                        2               none                the table is added up
 *     DISPLAY_PARAM                  3               a number, a text    an event shows them
 *     LOAD_TABLE                     4               a file's name       the table is loaded of it
 *
 * Each accepted command but RESET_COUNTERS counts in CommandCounter, each other one in
 * CommandErrorCounter: of a wrong length, with an unknown function code, or a table that isn't
 * loaded. SAMPLE_APP_SEND_HK_MID has housekeeping sent.
 */
#ifndef SAMPLE_APP_H
#define SAMPLE_APP_H

#include "cfe.h"

#define SAMPLE_APP_CMD_MID     0x1882
#define SAMPLE_APP_SEND_HK_MID 0x1883
#define SAMPLE_APP_HK_TLM_MID  0x0883

#define SAMPLE_APP_NOOP_CC           0
#define SAMPLE_APP_RESET_COUNTERS_CC 1
#define SAMPLE_APP_PROCESS_CC        2
#define SAMPLE_APP_DISPLAY_PARAM_CC  3
#define SAMPLE_APP_LOAD_TABLE_CC     4

#define SAMPLE_APP_STARTUP_INF_EID 1
#define SAMPLE_APP_NOOP_INF_EID    2
#define SAMPLE_APP_RESET_INF_EID   3
#define SAMPLE_APP_PROCESS_INF_EID 4
#define SAMPLE_APP_VALUE_INF_EID   5
#define SAMPLE_APP_TABLE_INF_EID   6
#define SAMPLE_APP_CC_ERR_EID      10
#define SAMPLE_APP_LEN_ERR_EID     11
#define SAMPLE_APP_MID_ERR_EID     12
#define SAMPLE_APP_PIPE_ERR_EID    13
#define SAMPLE_APP_TABLE_ERR_EID   14

#define SAMPLE_APP_TABLE_FIRST_MAX  10
#define SAMPLE_APP_TABLE_SECOND_MAX 20

typedef struct {
    uint16 First;
    uint16 Second;
} SAMPLE_APP_Table_t;

typedef struct {
    CFE_MSG_CommandHeader_t CommandHeader;
} SAMPLE_APP_NoArgsCmd_t;

typedef struct {
    CFE_MSG_CommandHeader_t CommandHeader;
    uint32 Value;
    char Text[12];
} SAMPLE_APP_DisplayParamCmd_t;

typedef struct {
    CFE_MSG_CommandHeader_t CommandHeader;
    char File[OS_MAX_PATH_LEN];
} SAMPLE_APP_LoadTableCmd_t;

typedef struct {
    CFE_MSG_TelemetryHeader_t TelemetryHeader;
    uint8 CommandErrorCounter;
    uint8 CommandCounter;
    uint16 Sum; /* what PROCESS worked out last */
} SAMPLE_APP_HkTlm_t;

void SAMPLE_APP_Main(void);

#endif
