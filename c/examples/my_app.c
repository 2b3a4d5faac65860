/* my_app.c: an application in cFE's names, which sends itself three messages; and its program. */
#include "cfe.h"
#include "fsw_run.h"

#define MY_APP_TLM_MID 0x0890

typedef struct {
    CFE_MSG_TelemetryHeader_t TelemetryHeader;
    uint32 Number;
} MY_APP_Tlm_t;

static void MY_APP_Main(void)
{
    MY_APP_Tlm_t Tlm;
    CFE_SB_Buffer_t *Buffer;
    CFE_SB_PipeId_t Pipe;
    uint32 RunStatus = CFE_ES_RunStatus_APP_RUN;
    CFE_EVS_Register(NULL, 0, CFE_EVS_EventFilter_BINARY);
    CFE_SB_CreatePipe(&Pipe, 10, "MY_PIPE");
    CFE_SB_Subscribe(CFE_SB_ValueToMsgId(MY_APP_TLM_MID), Pipe);
    CFE_MSG_Init(CFE_MSG_PTR(Tlm.TelemetryHeader), CFE_SB_ValueToMsgId(MY_APP_TLM_MID),
                 sizeof(Tlm));
    for (Tlm.Number = 1; CFE_ES_RunLoop(&RunStatus); Tlm.Number++) {
        CFE_SB_TransmitMsg(CFE_MSG_PTR(Tlm.TelemetryHeader), true);
        if (CFE_SB_ReceiveBuffer(&Buffer, Pipe, CFE_SB_PEND_FOREVER) == CFE_SUCCESS)
            CFE_EVS_SendEvent(1, CFE_EVS_EventType_INFORMATION, "message %u",
                              (unsigned)((MY_APP_Tlm_t *)Buffer)->Number);
        if (Tlm.Number == 3)
            RunStatus = CFE_ES_RunStatus_APP_EXIT;
    }
    CFE_ES_ExitApp(RunStatus);
}

int main(void)
{
    static const struct fsw_app apps[] = {{.name = "MY_APP", .entry = MY_APP_Main}};
    const struct fsw_config config = {.prints_events = true};
    fsw_configure(&config);
    return fsw_run(NULL, apps, 1); /* NULL: the usual limits */
}
