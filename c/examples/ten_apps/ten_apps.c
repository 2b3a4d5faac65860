/*
 * ten_apps.c: a mission of ten applications: a scheduler, a control loop, power and heat, limits,
 * housekeeping collected in one packet. At the end it says what each application sent and received.
 *
 *     ten_apps [SECONDS [MILLISECONDS]]
 *
 * A second has ten frames, each of so many milliseconds: 120 s of 100 ms, if nothing is said; with
 * 0 each frame begins as soon as the last one is done. The status is 1 if a message was lost, a
 * packet of housekeeping missing, a call refused, or the angle isn't what it is to be.
 */
#include "ten_apps.h"
#include "cfe_msgids.h"
#include "cfe_sb_msg.h"
#include "fsw_run.h"

#include <stdio.h>
#include <stdlib.h>

#define WAIT_MS       10000
#define LAST_OF_FRAME 3   /* messages that end a frame: of WHEEL, EPS and THERM */
#define SETTLED       300 /* frames after which the angle is small */
#define SMALL_ANGLE   200 /* microradians */

static uint32 Seconds = 120, FrameMs = 100;
static uint32 Frames, Late; /* frames that were done, and those that ended after their time */
static uint32 Lost;         /* messages that the bus says were missed */
static bool HasStatistics;

/* Milliseconds since fsw_run. */
static uint32 Now(void)
{
    const CFE_TIME_SysTime_t Time = CFE_TIME_GetTime();
    return Time.Seconds * 1000 + (uint32)((uint64)Time.Subseconds * 1000 >> 32);
}

/* Waits for so many messages of SCH's pipe; false if they don't come. */
static bool Await(uint32 Count)
{
    CFE_SB_Buffer_t *Buffer;
    for (uint32 i = 0; i < Count; i++) {
        if (APP_Count(&SCH, CFE_SB_ReceiveBuffer(&Buffer, SCH.Pipe, WAIT_MS)) != CFE_SUCCESS)
            return false;
        SCH.Counters.Received++;
    }
    return true;
}

static bool RunFrame(uint32 Frame)
{
    const uint32 End = Frame * FrameMs;
    APP_SendCmd(&SCH, TICK_MID, Frame, 0);
    if (!Await(LAST_OF_FRAME))
        return false;
    if (Frame % FRAMES_OF_SEC == 0) {
        APP_SendCmd(&SCH, HK_REQ_MID, Frame, 0);
        APP_SendHk(&SCH);
        if (!Await(1))
            return false;
    }
    Frames++;
    const uint32 Ended = Now();
    if (Ended < End)
        OS_TaskDelay(End - Ended);
    else if (FrameMs > 0)
        Late++;
    return true;
}

/* Asks the bus for its counters. */
static void ReadStatistics(void)
{
    CFE_SB_Buffer_t *Buffer;
    APP_SendCmd(&SCH, CFE_SB_SEND_HK_MID, 0, 0);
    if (CFE_SB_ReceiveBuffer(&Buffer, SCH.Pipe, WAIT_MS) != CFE_SUCCESS)
        return;
    const CFE_SB_HousekeepingTlm_t *Tlm = (const CFE_SB_HousekeepingTlm_t *)Buffer;
    Lost = Tlm->Payload.NoSubscribersCounter + Tlm->Payload.PipeOverflowErrorCounter +
           (uint32)Tlm->Payload.MsgLimitErrorCounter;
    HasStatistics = true;
}

static void SCH_Main(void)
{
    uint32 RunStatus = CFE_ES_RunStatus_APP_RUN;
    if (APP_Start(&SCH) != CFE_SUCCESS)
        RunStatus = CFE_ES_RunStatus_APP_ERROR;
    CFE_ES_WaitForStartupSync(WAIT_MS);
    for (uint32 Frame = 1; Frame <= Seconds * FRAMES_OF_SEC && CFE_ES_RunLoop(&RunStatus); Frame++)
        if (!RunFrame(Frame))
            RunStatus = CFE_ES_RunStatus_APP_ERROR;
    /* TO has shown the last second once it has answered for another one. */
    APP_SendCmd(&SCH, HK_REQ_MID, 0, 0);
    APP_SendHk(&SCH);
    Await(1);
    ReadStatistics();
    fsw_stop();
    CFE_ES_ExitApp(RunStatus);
}

APP_t SCH = {"SCH", FIRST_HK_MID, {WHEEL_MID, CHARGE_MID, TEMP_MID, ALL_HK_MID, CFE_SB_HK_TLM_MID},
             NULL,  NULL,         0,
             {0}};

static bool IsEqual(const char *What, uint32 Is, uint32 Wanted)
{
    if (Is != Wanted)
        printf("%s: %u, not %u\n", What, (unsigned)Is, (unsigned)Wanted);
    return Is == Wanted;
}

/* Says what was counted; answers whether it is as it is to be. */
static bool Report(void)
{
    static const APP_t *const Apps[] = {&SCH, &IMU,   &NAV, &CTRL, &WHEEL,
                                        &EPS, &THERM, &LC,  &HK,   &TO};
    const uint32 Wanted = Seconds * FRAMES_OF_SEC;
    bool IsRight = IsEqual("frames", Frames, Wanted) && HasStatistics;
    /* A torque each frame, and housekeeping each second and once at the end. */
    IsRight = IsEqual("sends of WHEEL", WHEEL.Counters.Sent, Wanted + Seconds + 1) && IsRight;
    IsRight = IsEqual("messages lost", Lost, 0) && IsRight;
    if (Wanted >= SETTLED)
        IsRight = IsEqual("a large angle", abs(NAV_Angle) > SMALL_ANGLE, 0) && IsRight;
    printf("%-8s %10s %10s\n", "", "sent", "received");
    for (size_t i = 0; i < APP_COUNT; i++) {
        const APP_Counters_t *Counters = &Apps[i]->Counters;
        printf("%-8s %10u %10u\n", Apps[i]->Name, (unsigned)Counters->Sent,
               (unsigned)Counters->Received);
        IsRight = IsEqual(Apps[i]->Name, Counters->Failed, 0) && IsRight;
    }
    printf("%u frames, %u late\n", (unsigned)Frames, (unsigned)Late);
    return IsRight;
}

int main(int argc, char **argv)
{
    static const struct fsw_app apps[] = {
        {.name = "SCH", .entry = SCH_Main},     {.name = "IMU", .entry = IMU_Main},
        {.name = "NAV", .entry = NAV_Main},     {.name = "CTRL", .entry = CTRL_Main},
        {.name = "WHEEL", .entry = WHEEL_Main}, {.name = "EPS", .entry = EPS_Main},
        {.name = "THERM", .entry = THERM_Main}, {.name = "LC", .entry = LC_Main},
        {.name = "HK", .entry = HK_Main},       {.name = "TO", .entry = TO_Main}};
    const struct fsw_config config = {.prints_events = true};
    if (argc > 1)
        Seconds = (uint32)strtoul(argv[1], NULL, 10);
    if (argc > 2)
        FrameMs = (uint32)strtoul(argv[2], NULL, 10);
    fsw_configure(&config);
    int errors = fsw_run(NULL, apps, APP_COUNT);
    return Report() && errors == 0 ? 0 : 1;
}
