/* power.c: EPS, THERM and LC, which sheds the load if the battery is low. */
#include "ten_apps.h"

#define ORBIT_FRAMES 900
#define SUN_FRAMES   550
#define FULL_CHARGE  100000
#define PANEL        100 /* a frame in the sun */
#define USUAL_LOAD   80  /* a frame */
#define LEAST_LOAD   30
#define HEATER       8 /* hundredths of a degree a frame */
#define COOLING      4
#define LOAD_INF_ID  1
#define HEAT_DBG_ID  1
#define TABLE_ERR_ID 10

typedef struct {
    int32 LowCharge;  /* below it the load is shed */
    int32 HighCharge; /* above it the load is back */
    int32 HighTemp;   /* above it an error is said */
} LC_Limits_t;

static int32 Charge = 80000, Load = USUAL_LOAD; /* EPS's */
static int32 Temp = 1800;                       /* THERM's */
static bool IsHeating;
static CFE_TBL_Handle_t Limits; /* LC's */

static bool IsInSun(uint32 Frame)
{
    return Frame % ORBIT_FRAMES < SUN_FRAMES;
}

static void TakeEps(uint32 Id, CFE_SB_Buffer_t *Buffer)
{
    if (Id == LOAD_MID) {
        Load = APP_ValueOf(Buffer) ? USUAL_LOAD : LEAST_LOAD;
        CFE_EVS_SendEvent(LOAD_INF_ID, CFE_EVS_EventType_INFORMATION, "load %d at charge %d",
                          (int)Load, (int)Charge);
        return;
    }
    Charge += (IsInSun(APP_FrameOf(Buffer)) ? PANEL : 0) - Load;
    if (Charge > FULL_CHARGE)
        Charge = FULL_CHARGE;
    APP_SendTlm(&EPS, CHARGE_MID, APP_FrameOf(Buffer), Charge);
}

static void TakeTherm(uint32 Id, CFE_SB_Buffer_t *Buffer)
{
    const bool WasHeating = IsHeating;
    (void)Id;
    IsHeating = Temp < 1500 || (IsHeating && Temp < 2000);
    if (IsHeating != WasHeating)
        CFE_EVS_SendEvent(HEAT_DBG_ID, CFE_EVS_EventType_DEBUG, "heater %s",
                          IsHeating ? "on" : "off");
    Temp += (IsHeating ? HEATER : 0) - COOLING;
    APP_SendTlm(&THERM, TEMP_MID, APP_FrameOf(Buffer), Temp);
}

static int32 ValidateLimits(void *TblData)
{
    const LC_Limits_t *Table = TblData;
    if (Table->LowCharge < Table->HighCharge)
        return CFE_SUCCESS;
    CFE_EVS_SendEvent(TABLE_ERR_ID, CFE_EVS_EventType_ERROR, "limits out of order");
    return -1;
}

static CFE_Status_t InitLc(void)
{
    static const LC_Limits_t First = {50000, 70000, 2500};
    return APP_Table(&Limits, "Limits", &First, sizeof(First), ValidateLimits);
}

static void CheckCharge(const LC_Limits_t *Table, uint32 Frame, int32 Now)
{
    static bool IsShed;
    const bool WasShed = IsShed;
    IsShed = Now < Table->LowCharge || (IsShed && Now <= Table->HighCharge);
    if (IsShed != WasShed)
        APP_SendCmd(&LC, LOAD_MID, Frame, IsShed ? 0 : 1);
}

static void TakeLc(uint32 Id, CFE_SB_Buffer_t *Buffer)
{
    void *Address;
    if (CFE_TBL_GetAddress(&Address, Limits) < CFE_SUCCESS) {
        LC.Counters.Failed++;
        return;
    }
    const LC_Limits_t *Table = Address;
    if (Id == CHARGE_MID)
        CheckCharge(Table, APP_FrameOf(Buffer), APP_ValueOf(Buffer));
    else if (APP_ValueOf(Buffer) > Table->HighTemp)
        CFE_EVS_SendEvent(LOAD_INF_ID, CFE_EVS_EventType_ERROR, "too hot");
    APP_Count(&LC, CFE_TBL_ReleaseAddress(Limits));
}

APP_t EPS = {"EPS", FIRST_HK_MID + 5, {TICK_MID, LOAD_MID, HK_REQ_MID}, NULL, TakeEps, 0, {0}};
APP_t THERM = {"THERM", FIRST_HK_MID + 6, {TICK_MID, HK_REQ_MID}, NULL, TakeTherm, 0, {0}};
APP_t LC = {"LC", FIRST_HK_MID + 7, {CHARGE_MID, TEMP_MID, HK_REQ_MID}, InitLc, TakeLc, 0, {0}};

void EPS_Main(void)
{
    APP_Run(&EPS);
}

void THERM_Main(void)
{
    APP_Run(&THERM);
}

void LC_Main(void)
{
    APP_Run(&LC);
}
