/* sample_app.c: written as for cFE; nothing here is of this project. */
#include "sample_app.h"

#include <string.h>

#define SAMPLE_APP_PIPE_DEPTH 32
#define SAMPLE_APP_PERF_ID    91

static struct {
    uint32 RunStatus;
    CFE_SB_PipeId_t CommandPipe;
    CFE_TBL_Handle_t TblHandle;
    SAMPLE_APP_HkTlm_t HkTlm;
} SAMPLE_APP_Data;

static int32 SAMPLE_APP_TblValidationFunc(void *TblData)
{
    const SAMPLE_APP_Table_t *Table = TblData;
    if (Table->First > SAMPLE_APP_TABLE_FIRST_MAX || Table->Second > SAMPLE_APP_TABLE_SECOND_MAX) {
        CFE_EVS_SendEvent(SAMPLE_APP_TABLE_ERR_EID, CFE_EVS_EventType_ERROR,
                          "SAMPLE: table out of range, %u and %u", Table->First, Table->Second);
        return -1;
    }
    return CFE_SUCCESS;
}

static CFE_Status_t SAMPLE_APP_InitTable(void)
{
    static const SAMPLE_APP_Table_t Default = {1, 2};
    CFE_Status_t Status =
        CFE_TBL_Register(&SAMPLE_APP_Data.TblHandle, "SampleAppTable", sizeof(SAMPLE_APP_Table_t),
                         CFE_TBL_OPT_DEFAULT, SAMPLE_APP_TblValidationFunc);
    if (Status == CFE_SUCCESS)
        Status = CFE_TBL_Load(SAMPLE_APP_Data.TblHandle, CFE_TBL_SRC_ADDRESS, &Default);
    return Status;
}

static CFE_Status_t SAMPLE_APP_Init(void)
{
    static const CFE_EVS_BinFilter_t Filters[] = {
        {SAMPLE_APP_CC_ERR_EID, CFE_EVS_FIRST_8_STOP},
        {SAMPLE_APP_LEN_ERR_EID, CFE_EVS_NO_FILTER},
    };
    memset(&SAMPLE_APP_Data, 0, sizeof(SAMPLE_APP_Data));
    SAMPLE_APP_Data.RunStatus = CFE_ES_RunStatus_APP_RUN;
    CFE_Status_t Status =
        CFE_EVS_Register(Filters, sizeof(Filters) / sizeof(Filters[0]), CFE_EVS_EventFilter_BINARY);
    if (Status == CFE_SUCCESS)
        Status =
            CFE_MSG_Init(CFE_MSG_PTR(SAMPLE_APP_Data.HkTlm.TelemetryHeader),
                         CFE_SB_ValueToMsgId(SAMPLE_APP_HK_TLM_MID), sizeof(SAMPLE_APP_Data.HkTlm));
    if (Status == CFE_SUCCESS)
        Status = CFE_SB_CreatePipe(&SAMPLE_APP_Data.CommandPipe, SAMPLE_APP_PIPE_DEPTH,
                                   "SAMPLE_CMD_PIPE");
    if (Status == CFE_SUCCESS)
        Status = CFE_SB_Subscribe(CFE_SB_ValueToMsgId(SAMPLE_APP_SEND_HK_MID),
                                  SAMPLE_APP_Data.CommandPipe);
    if (Status == CFE_SUCCESS)
        Status =
            CFE_SB_SubscribeEx(CFE_SB_ValueToMsgId(SAMPLE_APP_CMD_MID), SAMPLE_APP_Data.CommandPipe,
                               CFE_SB_DEFAULT_QOS, SAMPLE_APP_PIPE_DEPTH);
    if (Status == CFE_SUCCESS)
        Status = SAMPLE_APP_InitTable();
    if (Status == CFE_SUCCESS)
        Status = CFE_EVS_SendEvent(SAMPLE_APP_STARTUP_INF_EID, CFE_EVS_EventType_INFORMATION,
                                   "SAMPLE: initialized");
    return Status;
}

static void SAMPLE_APP_ReportHousekeeping(void)
{
    CFE_SB_TimeStampMsg(CFE_MSG_PTR(SAMPLE_APP_Data.HkTlm.TelemetryHeader));
    CFE_SB_TransmitMsg(CFE_MSG_PTR(SAMPLE_APP_Data.HkTlm.TelemetryHeader), true);
    CFE_TBL_Manage(SAMPLE_APP_Data.TblHandle);
}

static bool SAMPLE_APP_Noop(void)
{
    CFE_EVS_SendEvent(SAMPLE_APP_NOOP_INF_EID, CFE_EVS_EventType_INFORMATION,
                      "SAMPLE: NOOP command");
    return true;
}

static bool SAMPLE_APP_ResetCounters(void)
{
    SAMPLE_APP_Data.HkTlm.CommandCounter = 0;
    SAMPLE_APP_Data.HkTlm.CommandErrorCounter = 0;
    CFE_EVS_SendEvent(SAMPLE_APP_RESET_INF_EID, CFE_EVS_EventType_INFORMATION,
                      "SAMPLE: RESET command");
    return true;
}

static bool SAMPLE_APP_Process(void)
{
    void *TblAddr;
    CFE_Status_t Status = CFE_TBL_GetAddress(&TblAddr, SAMPLE_APP_Data.TblHandle);
    if (Status < CFE_SUCCESS) {
        CFE_EVS_SendEvent(SAMPLE_APP_TABLE_ERR_EID, CFE_EVS_EventType_ERROR,
                          "SAMPLE: no table, 0x%08lx", (unsigned long)(uint32)Status);
        return false;
    }
    const SAMPLE_APP_Table_t *Table = TblAddr;
    SAMPLE_APP_Data.HkTlm.Sum = (uint16)(Table->First + Table->Second);
    CFE_TBL_ReleaseAddress(SAMPLE_APP_Data.TblHandle);
    CFE_EVS_SendEvent(SAMPLE_APP_PROCESS_INF_EID, CFE_EVS_EventType_INFORMATION, "SAMPLE: sum %u",
                      SAMPLE_APP_Data.HkTlm.Sum);
    return true;
}

static bool SAMPLE_APP_DisplayParam(const SAMPLE_APP_DisplayParamCmd_t *Cmd)
{
    CFE_EVS_SendEvent(SAMPLE_APP_VALUE_INF_EID, CFE_EVS_EventType_INFORMATION,
                      "SAMPLE: value %lu, text %.*s", (unsigned long)Cmd->Value,
                      (int)sizeof(Cmd->Text), Cmd->Text);
    return true;
}

static bool SAMPLE_APP_LoadTable(const SAMPLE_APP_LoadTableCmd_t *Cmd)
{
    char File[sizeof(Cmd->File) + 1];
    memcpy(File, Cmd->File, sizeof(Cmd->File));
    File[sizeof(Cmd->File)] = '\0';
    CFE_Status_t Status = CFE_TBL_Load(SAMPLE_APP_Data.TblHandle, CFE_TBL_SRC_FILE, File);
    if (Status < CFE_SUCCESS) {
        CFE_EVS_SendEvent(SAMPLE_APP_TABLE_ERR_EID, CFE_EVS_EventType_ERROR,
                          "SAMPLE: %s not loaded, 0x%08lx", File, (unsigned long)(uint32)Status);
        return false;
    }
    CFE_EVS_SendEvent(SAMPLE_APP_TABLE_INF_EID, CFE_EVS_EventType_INFORMATION, "SAMPLE: %s loaded",
                      File);
    return true;
}

/* Verifies that a command has the length of its struct. */
static bool SAMPLE_APP_HasLength(const CFE_MSG_Message_t *MsgPtr, size_t Expected)
{
    CFE_MSG_Size_t Actual = 0;
    CFE_MSG_GetSize(MsgPtr, &Actual);
    if (Actual == Expected)
        return true;
    CFE_EVS_SendEvent(SAMPLE_APP_LEN_ERR_EID, CFE_EVS_EventType_ERROR,
                      "SAMPLE: length %u, expected %u", (unsigned)Actual, (unsigned)Expected);
    return false;
}

static bool SAMPLE_APP_DoCommand(const CFE_SB_Buffer_t *SBBufPtr, CFE_MSG_FcnCode_t Code)
{
    const CFE_MSG_Message_t *Msg = &SBBufPtr->Msg;
    switch (Code) {
    case SAMPLE_APP_NOOP_CC:
        return SAMPLE_APP_HasLength(Msg, sizeof(SAMPLE_APP_NoArgsCmd_t)) && SAMPLE_APP_Noop();
    case SAMPLE_APP_PROCESS_CC:
        return SAMPLE_APP_HasLength(Msg, sizeof(SAMPLE_APP_NoArgsCmd_t)) && SAMPLE_APP_Process();
    case SAMPLE_APP_DISPLAY_PARAM_CC:
        return SAMPLE_APP_HasLength(Msg, sizeof(SAMPLE_APP_DisplayParamCmd_t)) &&
               SAMPLE_APP_DisplayParam((const SAMPLE_APP_DisplayParamCmd_t *)SBBufPtr);
    case SAMPLE_APP_LOAD_TABLE_CC:
        return SAMPLE_APP_HasLength(Msg, sizeof(SAMPLE_APP_LoadTableCmd_t)) &&
               SAMPLE_APP_LoadTable((const SAMPLE_APP_LoadTableCmd_t *)SBBufPtr);
    default:
        CFE_EVS_SendEvent(SAMPLE_APP_CC_ERR_EID, CFE_EVS_EventType_ERROR,
                          "SAMPLE: invalid command code %u", Code);
        return false;
    }
}

static void SAMPLE_APP_ProcessGroundCommand(const CFE_SB_Buffer_t *SBBufPtr)
{
    CFE_MSG_FcnCode_t Code = 0;
    CFE_MSG_GetFcnCode(&SBBufPtr->Msg, &Code);
    if (Code == SAMPLE_APP_RESET_COUNTERS_CC &&
        SAMPLE_APP_HasLength(&SBBufPtr->Msg, sizeof(SAMPLE_APP_NoArgsCmd_t)))
        SAMPLE_APP_ResetCounters();
    else if (Code != SAMPLE_APP_RESET_COUNTERS_CC && SAMPLE_APP_DoCommand(SBBufPtr, Code))
        SAMPLE_APP_Data.HkTlm.CommandCounter++;
    else
        SAMPLE_APP_Data.HkTlm.CommandErrorCounter++;
}

static void SAMPLE_APP_ProcessCommandPacket(const CFE_SB_Buffer_t *SBBufPtr)
{
    CFE_SB_MsgId_t MsgId = CFE_SB_INVALID_MSG_ID;
    CFE_MSG_GetMsgId(&SBBufPtr->Msg, &MsgId);
    switch (CFE_SB_MsgIdToValue(MsgId)) {
    case SAMPLE_APP_CMD_MID:
        SAMPLE_APP_ProcessGroundCommand(SBBufPtr);
        break;
    case SAMPLE_APP_SEND_HK_MID:
        SAMPLE_APP_ReportHousekeeping();
        break;
    default:
        CFE_EVS_SendEvent(SAMPLE_APP_MID_ERR_EID, CFE_EVS_EventType_ERROR,
                          "SAMPLE: invalid command packet, MID = 0x%x",
                          (unsigned)CFE_SB_MsgIdToValue(MsgId));
        break;
    }
}

void SAMPLE_APP_Main(void)
{
    CFE_SB_Buffer_t *SBBufPtr;
    CFE_ES_PerfLogEntry(SAMPLE_APP_PERF_ID);
    CFE_Status_t Status = SAMPLE_APP_Init();
    if (Status != CFE_SUCCESS) {
        CFE_ES_WriteToSysLog("SAMPLE: not initialized, 0x%08lx\n", (unsigned long)(uint32)Status);
        SAMPLE_APP_Data.RunStatus = CFE_ES_RunStatus_APP_ERROR;
    }
    while (CFE_ES_RunLoop(&SAMPLE_APP_Data.RunStatus)) {
        CFE_ES_PerfLogExit(SAMPLE_APP_PERF_ID);
        Status = CFE_SB_ReceiveBuffer(&SBBufPtr, SAMPLE_APP_Data.CommandPipe, CFE_SB_PEND_FOREVER);
        CFE_ES_PerfLogEntry(SAMPLE_APP_PERF_ID);
        if (Status == CFE_SUCCESS) {
            SAMPLE_APP_ProcessCommandPacket(SBBufPtr);
        } else if (CFE_ES_RunLoop(&SAMPLE_APP_Data.RunStatus)) {
            /* Not at the program's stop, which refuses a receive too. */
            CFE_EVS_SendEvent(SAMPLE_APP_PIPE_ERR_EID, CFE_EVS_EventType_ERROR,
                              "SAMPLE: pipe read error, 0x%08lx", (unsigned long)(uint32)Status);
            SAMPLE_APP_Data.RunStatus = CFE_ES_RunStatus_APP_ERROR;
        }
    }
    CFE_ES_PerfLogExit(SAMPLE_APP_PERF_ID);
    CFE_ES_ExitApp(SAMPLE_APP_Data.RunStatus);
}
