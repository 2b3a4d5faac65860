/*
 * hello_app.h: what HELLO_APP takes and sends. Copy this folder, and rename HELLO.
 *
 *     HELLO_APP_WAKEUP_MID    adds the table's Step to Total
 *     HELLO_APP_SEND_HK_MID   has housekeeping sent
 *     HELLO_APP_CMD_MID       a command: function code 0 is NOOP, 1 RESET
 */
#ifndef HELLO_APP_H
#define HELLO_APP_H

#include "cfe.h"

#define HELLO_APP_CMD_MID     0x18A0
#define HELLO_APP_SEND_HK_MID 0x18A1
#define HELLO_APP_WAKEUP_MID  0x18A2
#define HELLO_APP_HK_TLM_MID  0x08A1

#define HELLO_APP_NOOP_CC  0
#define HELLO_APP_RESET_CC 1

#define HELLO_APP_STARTUP_INF_EID 1
#define HELLO_APP_NOOP_INF_EID    2
#define HELLO_APP_TOTAL_INF_EID   3
#define HELLO_APP_CMD_ERR_EID     10
#define HELLO_APP_TABLE_ERR_EID   11

#define HELLO_APP_STEP_MAX 100

typedef struct {
    uint16 Step; /* 1 to HELLO_APP_STEP_MAX */
} HELLO_APP_Table_t;

typedef struct {
    CFE_MSG_TelemetryHeader_t TelemetryHeader;
    uint8 CommandErrorCounter;
    uint8 CommandCounter;
    uint16 Total;
} HELLO_APP_HkTlm_t;

void HELLO_APP_Main(void);

#endif
