/*
 * ten_apps.h: the messages of a mission of ten applications, and what its applications share.
 *
 *     Application   takes                          sends
 *     SCH           the frame's last messages      the frame's tick, each second a housekeeping
 * request IMU           tick, wheel                    the rate of turn NAV           rate the
 * angle CTRL          angle                          a torque for the wheel, by a table of gains
 *     WHEEL         torque                         the torque that it gave
 *     EPS           tick, load command             the battery's charge
 *     THERM         tick                           a temperature
 *     LC            charge, temperature            load commands, by a table of limits
 *     HK            each one's counters            all of them in one packet
 *     TO            telemetry                      events for the ground
 *
 * Each application but HK answers a housekeeping request with its own counters.
 */
#ifndef TEN_APPS_H
#define TEN_APPS_H

#include "cfe.h"

#define TICK_MID     0x18F0
#define HK_REQ_MID   0x18F1
#define TORQUE_MID   0x18F2
#define LOAD_MID     0x18F3
#define RATE_MID     0x08F0
#define ANGLE_MID    0x08F1
#define WHEEL_MID    0x08F2
#define CHARGE_MID   0x08F3
#define TEMP_MID     0x08F4
#define ALL_HK_MID   0x08F5
#define FIRST_HK_MID 0x08E0 /* of the application in place 0, and so on */

#define APP_COUNT     10
#define COLLECTED     (APP_COUNT - 1) /* all but HK */
#define FRAMES_OF_SEC 10
#define MOST_IDS      12
#define PIPE_DEPTH    64 /* what the slowest application gets in a second, and more */

typedef struct {
    CFE_MSG_CommandHeader_t CommandHeader;
    uint32 Frame;
    int32 Value;
} APP_Cmd_t;

typedef struct {
    CFE_MSG_TelemetryHeader_t TelemetryHeader;
    uint32 Frame;
    int32 Value;
} APP_Tlm_t;

typedef struct {
    uint32 Sent;
    uint32 Received;
    uint32 Failed; /* calls that were refused */
} APP_Counters_t;

typedef struct {
    CFE_MSG_TelemetryHeader_t TelemetryHeader;
    APP_Counters_t Counters;
} APP_HkTlm_t;

typedef struct {
    CFE_MSG_TelemetryHeader_t TelemetryHeader;
    uint32 Missing; /* packets that didn't come within their second */
    APP_Counters_t Counters[COLLECTED];
} ALL_HkTlm_t;

/* An application's parts: what it subscribes to, and what it does with a message. */
typedef struct {
    const char *Name;
    uint32 HkId;          /* 0: none is sent */
    uint32 Ids[MOST_IDS]; /* up to the first 0 */
    CFE_Status_t (*Init)(void);
    void (*Take)(uint32 Id, CFE_SB_Buffer_t *Buffer);
    CFE_SB_PipeId_t Pipe;
    APP_Counters_t Counters;
} APP_t;

/* The applications. Each is its own task's until all have ended; then main reads what they count.
 */
extern APP_t SCH, IMU, NAV, CTRL, WHEEL, EPS, THERM, LC, HK, TO;

extern int32 NAV_Angle; /* microradians */

void IMU_Main(void);
void NAV_Main(void);
void CTRL_Main(void);
void WHEEL_Main(void);
void EPS_Main(void);
void THERM_Main(void);
void LC_Main(void);
void HK_Main(void);
void TO_Main(void);

/* Registers for events, makes the pipe with its subscriptions, and calls Init. */
CFE_Status_t APP_Start(APP_t *App);

/* An application's main function: starts, takes messages, and answers housekeeping requests. */
void APP_Run(APP_t *App);

/* Counts a call that is refused. */
CFE_Status_t APP_Count(APP_t *App, CFE_Status_t Status);

/* Registers a table of one application, and loads its first values. */
CFE_Status_t APP_Table(CFE_TBL_Handle_t *Table, const char *Name, const void *Values, size_t Size,
                       CFE_TBL_CallbackFuncPtr_t Validate);

void APP_SendCmd(APP_t *App, uint32 Id, uint32 Frame, int32 Value);
void APP_SendTlm(APP_t *App, uint32 Id, uint32 Frame, int32 Value);
void APP_SendHk(APP_t *App);

/* What a message of either form carries. */
uint32 APP_FrameOf(CFE_SB_Buffer_t *Buffer);
int32 APP_ValueOf(CFE_SB_Buffer_t *Buffer);

#endif
