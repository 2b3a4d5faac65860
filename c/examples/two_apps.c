/*
 * two_apps.c: two applications on one bus. SENSOR sends five temperatures; DISPLAY receives each
 * and says it as an event.
 */
#include "cfe.h"
#include "fsw_run.h"

#define SENSOR_TLM_MID     0x0891
#define SENSOR_FIRST       20
#define SENSOR_LAST        24
#define DISPLAY_PIPE_DEPTH 10
#define DISPLAY_INF_EID    1

typedef struct {
    CFE_MSG_TelemetryHeader_t TelemetryHeader;
    int32 Degrees;
} SENSOR_Tlm_t;

static void SENSOR_Main(void)
{
    SENSOR_Tlm_t Tlm;
    uint32 RunStatus = CFE_ES_RunStatus_APP_RUN;
    CFE_MSG_Init(CFE_MSG_PTR(Tlm.TelemetryHeader), CFE_SB_ValueToMsgId(SENSOR_TLM_MID),
                 sizeof(Tlm));
    CFE_ES_WaitForStartupSync(10000); /* DISPLAY has subscribed then */
    for (Tlm.Degrees = SENSOR_FIRST; CFE_ES_RunLoop(&RunStatus); Tlm.Degrees++) {
        CFE_SB_TimeStampMsg(CFE_MSG_PTR(Tlm.TelemetryHeader));
        CFE_SB_TransmitMsg(CFE_MSG_PTR(Tlm.TelemetryHeader), true);
        if (Tlm.Degrees == SENSOR_LAST)
            RunStatus = CFE_ES_RunStatus_APP_EXIT;
        OS_TaskDelay(100);
    }
    CFE_ES_ExitApp(RunStatus);
}

static void DISPLAY_Main(void)
{
    CFE_SB_Buffer_t *Buffer;
    CFE_SB_PipeId_t Pipe;
    uint32 RunStatus = CFE_ES_RunStatus_APP_RUN;
    CFE_EVS_Register(NULL, 0, CFE_EVS_EventFilter_BINARY);
    CFE_SB_CreatePipe(&Pipe, DISPLAY_PIPE_DEPTH, "DISPLAY_PIPE");
    CFE_SB_SubscribeEx(CFE_SB_ValueToMsgId(SENSOR_TLM_MID), Pipe, CFE_SB_DEFAULT_QOS,
                       DISPLAY_PIPE_DEPTH);
    while (CFE_ES_RunLoop(&RunStatus)) {
        if (CFE_SB_ReceiveBuffer(&Buffer, Pipe, CFE_SB_PEND_FOREVER) != CFE_SUCCESS)
            break;
        const SENSOR_Tlm_t *Tlm = (const SENSOR_Tlm_t *)Buffer;
        CFE_EVS_SendEvent(DISPLAY_INF_EID, CFE_EVS_EventType_INFORMATION, "%d degrees",
                          (int)Tlm->Degrees);
        if (Tlm->Degrees == SENSOR_LAST)
            RunStatus = CFE_ES_RunStatus_APP_EXIT;
    }
    CFE_ES_ExitApp(RunStatus);
}

int main(void)
{
    static const struct fsw_app apps[] = {{.name = "SENSOR", .entry = SENSOR_Main},
                                          {.name = "DISPLAY", .entry = DISPLAY_Main}};
    const struct fsw_config config = {.prints_events = true};
    fsw_configure(&config);
    return fsw_run(NULL, apps, sizeof apps / sizeof apps[0]);
}
