/* hello_app.c: an application with a command pipe, a table and housekeeping, as for cFE. */
#include "hello_app.h"

#include <string.h>

#define HELLO_APP_PIPE_DEPTH 16
#define HELLO_APP_TABLE_FILE "hello_app.tbl"

static struct {
    CFE_SB_PipeId_t Pipe;
    CFE_TBL_Handle_t Table;
    HELLO_APP_HkTlm_t HkTlm;
} HELLO_APP_Data;

static int32 HELLO_APP_Validate(void *TblData)
{
    const HELLO_APP_Table_t *Table = TblData;
    if (Table->Step >= 1 && Table->Step <= HELLO_APP_STEP_MAX)
        return CFE_SUCCESS;
    CFE_EVS_SendEvent(HELLO_APP_TABLE_ERR_EID, CFE_EVS_EventType_ERROR, "step %u out of range",
                      Table->Step);
    return -1;
}

static CFE_Status_t HELLO_APP_InitTable(void)
{
    CFE_Status_t Status =
        CFE_TBL_Register(&HELLO_APP_Data.Table, "Settings", sizeof(HELLO_APP_Table_t),
                         CFE_TBL_OPT_DEFAULT, HELLO_APP_Validate);
    if (Status == CFE_SUCCESS)
        Status = CFE_TBL_Load(HELLO_APP_Data.Table, CFE_TBL_SRC_FILE, HELLO_APP_TABLE_FILE);
    return Status;
}

static CFE_Status_t HELLO_APP_Init(void)
{
    static const CFE_SB_MsgId_t Ids[] = {HELLO_APP_CMD_MID, HELLO_APP_SEND_HK_MID,
                                         HELLO_APP_WAKEUP_MID};
    memset(&HELLO_APP_Data, 0, sizeof(HELLO_APP_Data));
    CFE_Status_t Status = CFE_EVS_Register(NULL, 0, CFE_EVS_EventFilter_BINARY);
    if (Status == CFE_SUCCESS)
        Status =
            CFE_MSG_Init(CFE_MSG_PTR(HELLO_APP_Data.HkTlm.TelemetryHeader),
                         CFE_SB_ValueToMsgId(HELLO_APP_HK_TLM_MID), sizeof(HELLO_APP_Data.HkTlm));
    if (Status == CFE_SUCCESS)
        Status = CFE_SB_CreatePipe(&HELLO_APP_Data.Pipe, HELLO_APP_PIPE_DEPTH, "HELLO_PIPE");
    for (size_t i = 0; i < sizeof(Ids) / sizeof(Ids[0]) && Status == CFE_SUCCESS; i++)
        Status = CFE_SB_SubscribeEx(Ids[i], HELLO_APP_Data.Pipe, CFE_SB_DEFAULT_QOS,
                                    HELLO_APP_PIPE_DEPTH);
    if (Status == CFE_SUCCESS)
        Status = HELLO_APP_InitTable();
    if (Status == CFE_SUCCESS)
        CFE_EVS_SendEvent(HELLO_APP_STARTUP_INF_EID, CFE_EVS_EventType_INFORMATION, "initialized");
    return Status;
}

static void HELLO_APP_Wakeup(void)
{
    void *Address;
    if (CFE_TBL_GetAddress(&Address, HELLO_APP_Data.Table) < CFE_SUCCESS)
        return;
    HELLO_APP_Data.HkTlm.Total =
        (uint16)(HELLO_APP_Data.HkTlm.Total + ((const HELLO_APP_Table_t *)Address)->Step);
    CFE_TBL_ReleaseAddress(HELLO_APP_Data.Table);
    CFE_EVS_SendEvent(HELLO_APP_TOTAL_INF_EID, CFE_EVS_EventType_INFORMATION, "total %u",
                      HELLO_APP_Data.HkTlm.Total);
}

static void HELLO_APP_SendHousekeeping(void)
{
    CFE_SB_TimeStampMsg(CFE_MSG_PTR(HELLO_APP_Data.HkTlm.TelemetryHeader));
    CFE_SB_TransmitMsg(CFE_MSG_PTR(HELLO_APP_Data.HkTlm.TelemetryHeader), true);
    CFE_TBL_Manage(HELLO_APP_Data.Table);
}

static void HELLO_APP_Command(const CFE_MSG_Message_t *Msg)
{
    CFE_MSG_FcnCode_t Code = 0;
    CFE_MSG_Size_t Size = 0;
    CFE_MSG_GetFcnCode(Msg, &Code);
    CFE_MSG_GetSize(Msg, &Size);
    if (Size != sizeof(CFE_MSG_CommandHeader_t) || Code > HELLO_APP_RESET_CC) {
        HELLO_APP_Data.HkTlm.CommandErrorCounter++;
        CFE_EVS_SendEvent(HELLO_APP_CMD_ERR_EID, CFE_EVS_EventType_ERROR,
                          "command %u of %u bytes refused", Code, (unsigned)Size);
        return;
    }
    HELLO_APP_Data.HkTlm.CommandCounter++;
    if (Code == HELLO_APP_RESET_CC)
        HELLO_APP_Data.HkTlm.Total = 0;
    else
        CFE_EVS_SendEvent(HELLO_APP_NOOP_INF_EID, CFE_EVS_EventType_INFORMATION, "NOOP");
}

static void HELLO_APP_Take(const CFE_SB_Buffer_t *Buffer)
{
    CFE_SB_MsgId_t MsgId = CFE_SB_INVALID_MSG_ID;
    CFE_MSG_GetMsgId(&Buffer->Msg, &MsgId);
    switch (CFE_SB_MsgIdToValue(MsgId)) {
    case HELLO_APP_WAKEUP_MID:
        HELLO_APP_Wakeup();
        break;
    case HELLO_APP_SEND_HK_MID:
        HELLO_APP_SendHousekeeping();
        break;
    default:
        HELLO_APP_Command(&Buffer->Msg);
        break;
    }
}

void HELLO_APP_Main(void)
{
    CFE_SB_Buffer_t *Buffer;
    uint32 RunStatus = CFE_ES_RunStatus_APP_RUN;
    CFE_Status_t Status = HELLO_APP_Init();
    if (Status != CFE_SUCCESS) {
        CFE_ES_WriteToSysLog("HELLO_APP: not initialized, 0x%08lx\n",
                             (unsigned long)(uint32)Status);
        RunStatus = CFE_ES_RunStatus_APP_ERROR;
    }
    while (CFE_ES_RunLoop(&RunStatus))
        if (CFE_SB_ReceiveBuffer(&Buffer, HELLO_APP_Data.Pipe, CFE_SB_PEND_FOREVER) == CFE_SUCCESS)
            HELLO_APP_Take(Buffer);
    CFE_ES_ExitApp(RunStatus);
}
