/* app.c: what the ten applications share. */
#include "ten_apps.h"

typedef struct {
    uint32 Frame;
    int32 Value;
} APP_Payload_t;

CFE_Status_t APP_Count(APP_t *App, CFE_Status_t Status)
{
    if (Status != CFE_SUCCESS)
        App->Counters.Failed++;
    return Status;
}

CFE_Status_t APP_Start(APP_t *App)
{
    CFE_Status_t Status = CFE_EVS_Register(NULL, 0, CFE_EVS_EventFilter_BINARY);
    if (Status == CFE_SUCCESS)
        Status = CFE_SB_CreatePipe(&App->Pipe, PIPE_DEPTH, App->Name);
    for (size_t i = 0; Status == CFE_SUCCESS && i < MOST_IDS && App->Ids[i] != 0; i++)
        Status = CFE_SB_SubscribeEx(CFE_SB_ValueToMsgId(App->Ids[i]), App->Pipe, CFE_SB_DEFAULT_QOS,
                                    PIPE_DEPTH);
    if (Status == CFE_SUCCESS && App->Init)
        Status = App->Init();
    if (Status != CFE_SUCCESS)
        CFE_ES_WriteToSysLog("%s: not initialized, 0x%08lx\n", App->Name,
                             (unsigned long)(uint32)Status);
    return Status;
}

static void TakeMessage(APP_t *App, CFE_SB_Buffer_t *Buffer)
{
    CFE_SB_MsgId_t MsgId = CFE_SB_INVALID_MSG_ID;
    APP_Count(App, CFE_MSG_GetMsgId(&Buffer->Msg, &MsgId));
    App->Counters.Received++;
    if (CFE_SB_MsgIdToValue(MsgId) == HK_REQ_MID && App->HkId != 0)
        APP_SendHk(App);
    else
        App->Take(CFE_SB_MsgIdToValue(MsgId), Buffer);
}

void APP_Run(APP_t *App)
{
    CFE_SB_Buffer_t *Buffer;
    uint32 RunStatus = CFE_ES_RunStatus_APP_RUN;
    if (APP_Start(App) != CFE_SUCCESS)
        RunStatus = CFE_ES_RunStatus_APP_ERROR;
    while (CFE_ES_RunLoop(&RunStatus))
        if (CFE_SB_ReceiveBuffer(&Buffer, App->Pipe, CFE_SB_PEND_FOREVER) == CFE_SUCCESS)
            TakeMessage(App, Buffer);
    CFE_ES_ExitApp(RunStatus);
}

CFE_Status_t APP_Table(CFE_TBL_Handle_t *Table, const char *Name, const void *Values, size_t Size,
                       CFE_TBL_CallbackFuncPtr_t Validate)
{
    CFE_Status_t Status = CFE_TBL_Register(Table, Name, Size, CFE_TBL_OPT_DEFAULT, Validate);
    if (Status == CFE_SUCCESS)
        Status = CFE_TBL_Load(*Table, CFE_TBL_SRC_ADDRESS, Values);
    return Status;
}

static void Send(APP_t *App, CFE_MSG_Message_t *Msg)
{
    if (APP_Count(App, CFE_SB_TransmitMsg(Msg, true)) == CFE_SUCCESS)
        App->Counters.Sent++;
}

void APP_SendCmd(APP_t *App, uint32 Id, uint32 Frame, int32 Value)
{
    APP_Cmd_t Cmd;
    CFE_MSG_Message_t *Msg = CFE_MSG_PTR(Cmd.CommandHeader);
    APP_Count(App, CFE_MSG_Init(Msg, CFE_SB_ValueToMsgId(Id), sizeof(Cmd))); /* all zero */
    Cmd.Frame = Frame;
    Cmd.Value = Value;
    Send(App, Msg);
}

/* Telemetry is written where it lies, and sent without a copy. */
void APP_SendTlm(APP_t *App, uint32 Id, uint32 Frame, int32 Value)
{
    CFE_SB_Buffer_t *Buffer = CFE_SB_AllocateMessageBuffer(sizeof(APP_Tlm_t));
    if (!Buffer) {
        App->Counters.Failed++;
        return;
    }
    APP_Tlm_t *Tlm = (APP_Tlm_t *)Buffer;
    APP_Count(App, CFE_MSG_Init(&Buffer->Msg, CFE_SB_ValueToMsgId(Id), sizeof(*Tlm)));
    CFE_SB_TimeStampMsg(&Buffer->Msg);
    Tlm->Frame = Frame;
    Tlm->Value = Value;
    if (APP_Count(App, CFE_SB_TransmitBuffer(Buffer, true)) == CFE_SUCCESS)
        App->Counters.Sent++;
    else
        CFE_SB_ReleaseMessageBuffer(Buffer);
}

void APP_SendHk(APP_t *App)
{
    APP_HkTlm_t Tlm;
    CFE_MSG_Message_t *Msg = CFE_MSG_PTR(Tlm.TelemetryHeader);
    APP_Count(App, CFE_MSG_Init(Msg, CFE_SB_ValueToMsgId(App->HkId), sizeof(Tlm)));
    CFE_SB_TimeStampMsg(Msg);
    Tlm.Counters = App->Counters;
    Send(App, Msg);
}

uint32 APP_FrameOf(CFE_SB_Buffer_t *Buffer)
{
    const APP_Payload_t *Payload = CFE_SB_GetUserData(&Buffer->Msg);
    return Payload->Frame;
}

int32 APP_ValueOf(CFE_SB_Buffer_t *Buffer)
{
    const APP_Payload_t *Payload = CFE_SB_GetUserData(&Buffer->Msg);
    return Payload->Value;
}
