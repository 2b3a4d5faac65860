/* control.c: IMU, NAV, CTRL and WHEEL, a loop that turns the spacecraft to the angle 0. */
#include "ten_apps.h"

#define DISTURBANCE  3      /* microradians a frame, each frame */
#define FIRST_ANGLE  100000 /* microradians */
#define MOST_TORQUE  2000
#define GAIN_UNIT    1000
#define TABLE_ERR_ID 10

typedef struct {
    int32 OfAngle; /* in thousandths, 1 to GAIN_UNIT */
    int32 OfRate;
} CTRL_Gains_t;

int32 NAV_Angle = FIRST_ANGLE;

static int32 Rate, Torque;     /* IMU's */
static CFE_TBL_Handle_t Gains; /* CTRL's */

static void TakeImu(uint32 Id, CFE_SB_Buffer_t *Buffer)
{
    if (Id == WHEEL_MID) {
        Torque = APP_ValueOf(Buffer);
        return;
    }
    Rate += Torque + DISTURBANCE;
    APP_SendTlm(&IMU, RATE_MID, APP_FrameOf(Buffer), Rate);
}

static void TakeNav(uint32 Id, CFE_SB_Buffer_t *Buffer)
{
    (void)Id;
    NAV_Angle += APP_ValueOf(Buffer);
    APP_SendTlm(&NAV, ANGLE_MID, APP_FrameOf(Buffer), NAV_Angle);
}

static int32 ValidateGains(void *TblData)
{
    const CTRL_Gains_t *Table = TblData;
    if (Table->OfAngle >= 1 && Table->OfAngle <= GAIN_UNIT && Table->OfRate >= 1 &&
        Table->OfRate <= GAIN_UNIT)
        return CFE_SUCCESS;
    CFE_EVS_SendEvent(TABLE_ERR_ID, CFE_EVS_EventType_ERROR, "gains out of range");
    return -1;
}

static CFE_Status_t InitCtrl(void)
{
    static const CTRL_Gains_t First = {50, 500};
    return APP_Table(&Gains, "Gains", &First, sizeof(First), ValidateGains);
}

/* The rate is the angle's change since the frame before. */
static void TakeCtrl(uint32 Id, CFE_SB_Buffer_t *Buffer)
{
    static int32 Before = FIRST_ANGLE;
    void *Address;
    const int32 Now = APP_ValueOf(Buffer);
    (void)Id;
    if (CFE_TBL_GetAddress(&Address, Gains) < CFE_SUCCESS) {
        CTRL.Counters.Failed++;
        return;
    }
    const CTRL_Gains_t *Table = Address;
    const int32 Wanted = -(Table->OfAngle * Now + Table->OfRate * (Now - Before)) / GAIN_UNIT;
    APP_Count(&CTRL, CFE_TBL_ReleaseAddress(Gains));
    Before = Now;
    APP_SendCmd(&CTRL, TORQUE_MID, APP_FrameOf(Buffer), Wanted);
}

static void TakeWheel(uint32 Id, CFE_SB_Buffer_t *Buffer)
{
    int32 Given = APP_ValueOf(Buffer);
    (void)Id;
    if (Given > MOST_TORQUE)
        Given = MOST_TORQUE;
    if (Given < -MOST_TORQUE)
        Given = -MOST_TORQUE;
    APP_SendTlm(&WHEEL, WHEEL_MID, APP_FrameOf(Buffer), Given);
}

APP_t IMU = {"IMU", FIRST_HK_MID + 1, {TICK_MID, WHEEL_MID, HK_REQ_MID}, NULL, TakeImu, 0, {0}};
APP_t NAV = {"NAV", FIRST_HK_MID + 2, {RATE_MID, HK_REQ_MID}, NULL, TakeNav, 0, {0}};
APP_t CTRL = {"CTRL", FIRST_HK_MID + 3, {ANGLE_MID, HK_REQ_MID}, InitCtrl, TakeCtrl, 0, {0}};
APP_t WHEEL = {"WHEEL", FIRST_HK_MID + 4, {TORQUE_MID, HK_REQ_MID}, NULL, TakeWheel, 0, {0}};

void IMU_Main(void)
{
    APP_Run(&IMU);
}

void NAV_Main(void)
{
    APP_Run(&NAV);
}

void CTRL_Main(void)
{
    APP_Run(&CTRL);
}

void WHEEL_Main(void)
{
    APP_Run(&WHEEL);
}
