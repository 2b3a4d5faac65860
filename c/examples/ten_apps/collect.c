/* collect.c: HK, which puts all housekeeping into one packet, and TO, which shows telemetry. */
#include "ten_apps.h"

#include <string.h>

#define SECONDS_OF_LINE 60
#define LINE_INF_ID     1
#define MISSING_ERR_ID  2

static ALL_HkTlm_t All; /* HK's */
static bool HasCome[COLLECTED];
static uint32 Came;
static int32 Angle, Charge, Temp; /* TO's */
static uint32 Seconds;

static void SendAll(void)
{
    CFE_SB_TimeStampMsg(CFE_MSG_PTR(All.TelemetryHeader));
    if (APP_Count(&HK, CFE_SB_TransmitMsg(CFE_MSG_PTR(All.TelemetryHeader), true)) == CFE_SUCCESS)
        HK.Counters.Sent++;
    memset(HasCome, 0, sizeof(HasCome));
    Came = 0;
}

/* A request begins a new second: what didn't come for the last one is missing. */
static void BeginSecond(void)
{
    if (Came == 0)
        return;
    All.Missing += COLLECTED - Came;
    CFE_EVS_SendEvent(MISSING_ERR_ID, CFE_EVS_EventType_ERROR, "%u packets missing",
                      (unsigned)(COLLECTED - Came));
    SendAll();
}

static void TakeHk(uint32 Id, CFE_SB_Buffer_t *Buffer)
{
    if (Id == HK_REQ_MID) {
        BeginSecond();
        return;
    }
    const uint32 Place = Id - FIRST_HK_MID;
    if (Place >= COLLECTED || HasCome[Place]) {
        HK.Counters.Failed++;
        return;
    }
    All.Counters[Place] = ((const APP_HkTlm_t *)Buffer)->Counters;
    HasCome[Place] = true;
    Came++;
    if (Came == COLLECTED)
        SendAll();
}

static CFE_Status_t InitHk(void)
{
    return CFE_MSG_Init(CFE_MSG_PTR(All.TelemetryHeader), CFE_SB_ValueToMsgId(ALL_HK_MID),
                        sizeof(All));
}

static void ShowLine(const ALL_HkTlm_t *Tlm)
{
    uint32 Sent = 0;
    Seconds++;
    if (Seconds % SECONDS_OF_LINE != 0)
        return;
    for (size_t i = 0; i < COLLECTED; i++)
        Sent += Tlm->Counters[i].Sent;
    CFE_EVS_SendEvent(LINE_INF_ID, CFE_EVS_EventType_INFORMATION,
                      "%u s: angle %d, charge %d, temperature %d, sent %u, missing %u",
                      (unsigned)Seconds, (int)Angle, (int)Charge, (int)Temp, (unsigned)Sent,
                      (unsigned)Tlm->Missing);
}

static void TakeTo(uint32 Id, CFE_SB_Buffer_t *Buffer)
{
    if (Id == ALL_HK_MID)
        ShowLine((const ALL_HkTlm_t *)Buffer);
    else if (Id == ANGLE_MID)
        Angle = APP_ValueOf(Buffer);
    else if (Id == CHARGE_MID)
        Charge = APP_ValueOf(Buffer);
    else
        Temp = APP_ValueOf(Buffer);
}

APP_t HK = {"HK",
            0,
            {HK_REQ_MID, FIRST_HK_MID, FIRST_HK_MID + 1, FIRST_HK_MID + 2, FIRST_HK_MID + 3,
             FIRST_HK_MID + 4, FIRST_HK_MID + 5, FIRST_HK_MID + 6, FIRST_HK_MID + 7,
             FIRST_HK_MID + 8},
            InitHk,
            TakeHk,
            0,
            {0}};
APP_t TO = {"TO", FIRST_HK_MID + 8, {ANGLE_MID, CHARGE_MID, TEMP_MID, ALL_HK_MID, HK_REQ_MID},
            NULL, TakeTo,           0,
            {0}};

void HK_Main(void)
{
    APP_Run(&HK);
}

void TO_Main(void)
{
    APP_Run(&TO);
}
