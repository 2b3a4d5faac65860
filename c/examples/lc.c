/*
 * lc.c: a limit checker, written as for cFE: its watchpoint definition table, which ground loads,
 * says which number of which packet has which limit; the result table is dump only.
 */
#include "labs.h"

#include <string.h>

#define STARTUP_INF_EID 1
#define NOOP_INF_EID    2
#define COMMAND_ERR_EID 3
#define TABLE_INF_EID   4
#define PASSED_INF_EID  5

#define PIPE_DEPTH 40

static CFE_SB_PipeId_t CmdPipe;
static CFE_TBL_Handle_t WDTHandle, WRTHandle;
static const LC_WDT_t *WDT; /* null while none was loaded */
static LC_WRT_t *WRT;
static LAB_HkTlm_t HkTlm;
static uint32 Subscribed[LC_WATCHPOINTS];

static int32 ValidateWDT(void *TblData)
{
    const LC_WDT_t *Table = TblData;
    for (size_t i = 0; i < LC_WATCHPOINTS; i++)
        if (Table->Entry[i].MessageID > CFE_PLATFORM_SB_HIGHEST_VALID_MSGID ||
            Table->Entry[i].Offset > CFE_MISSION_SB_MAX_SB_MSG_SIZE - sizeof(uint32))
            return -1;
    return CFE_SUCCESS;
}

/* Begins anew with the definitions that were loaded. */
static void ProcessNewWDT(void)
{
    memset(WRT, 0, sizeof(*WRT));
    for (size_t i = 0; i < LC_WATCHPOINTS; i++) {
        if (Subscribed[i] != 0)
            CFE_SB_Unsubscribe(CFE_SB_ValueToMsgId(Subscribed[i]), CmdPipe);
        Subscribed[i] = 0;
    }
    for (size_t i = 0; i < LC_WATCHPOINTS; i++)
        if (WDT->Entry[i].MessageID != 0 &&
            CFE_SB_Subscribe(CFE_SB_ValueToMsgId(WDT->Entry[i].MessageID), CmdPipe) == CFE_SUCCESS)
            Subscribed[i] = WDT->Entry[i].MessageID;
    CFE_EVS_SendEvent(TABLE_INF_EID, CFE_EVS_EventType_INFORMATION, "LC: new definition table");
}

static void ManageTables(void)
{
    void *TblAddr;
    bool IsNew = CFE_TBL_ReleaseAddress(WDTHandle) == CFE_TBL_INFO_UPDATED;
    CFE_TBL_Manage(WDTHandle);
    CFE_Status_t Status = CFE_TBL_GetAddress(&TblAddr, WDTHandle);
    WDT = Status >= CFE_SUCCESS ? TblAddr : NULL;
    if (WDT && (IsNew || Status == CFE_TBL_INFO_UPDATED))
        ProcessNewWDT();
    CFE_TBL_Modified(WRTHandle);
}

static void CheckLimit(size_t Point, const CFE_SB_Buffer_t *Buffer)
{
    uint32 Number;
    memcpy(&Number, (const uint8 *)Buffer + WDT->Entry[Point].Offset, sizeof(Number));
    WRT->Entry[Point].Evaluations++;
    if (Number <= WDT->Entry[Point].Limit)
        return;
    WRT->Entry[Point].Passed++;
    HkTlm.Count++;
    CFE_EVS_SendEvent(PASSED_INF_EID, CFE_EVS_EventType_INFORMATION,
                      "LC: watchpoint %u passed its limit, %lu", (unsigned)Point,
                      (unsigned long)Number);
}

static void CheckPacket(const CFE_SB_Buffer_t *Buffer, uint32 MessageID)
{
    CFE_MSG_Size_t Size = 0;
    CFE_MSG_GetSize(&Buffer->Msg, &Size);
    for (size_t i = 0; WDT && i < LC_WATCHPOINTS; i++)
        if (WDT->Entry[i].MessageID == MessageID && WDT->Entry[i].Offset + sizeof(uint32) <= Size)
            CheckLimit(i, Buffer);
}

static void ProcessCommand(const CFE_MSG_Message_t *Msg)
{
    CFE_MSG_FcnCode_t Code = 0;
    CFE_MSG_GetFcnCode(Msg, &Code);
    if (Code == NOOP_CC) {
        HkTlm.CommandCounter++;
        CFE_EVS_SendEvent(NOOP_INF_EID, CFE_EVS_EventType_INFORMATION, "LC: NOOP command");
    } else if (Code == RESET_COUNTERS_CC) {
        HkTlm.CommandCounter = HkTlm.CommandErrorCounter = 0;
        HkTlm.Count = 0;
    } else {
        HkTlm.CommandErrorCounter++;
        CFE_EVS_SendEvent(COMMAND_ERR_EID, CFE_EVS_EventType_ERROR, "LC: no command %u", Code);
    }
}

static void ProcessPacket(const CFE_SB_Buffer_t *Buffer)
{
    CFE_SB_MsgId_t MsgId = CFE_SB_INVALID_MSG_ID;
    CFE_MSG_GetMsgId(&Buffer->Msg, &MsgId);
    switch (CFE_SB_MsgIdToValue(MsgId)) {
    case LC_CMD_MID:
        ProcessCommand(&Buffer->Msg);
        break;
    case LC_SEND_HK_MID:
        ManageTables();
        CFE_SB_TimeStampMsg(CFE_MSG_PTR(HkTlm.TelemetryHeader));
        CFE_SB_TransmitMsg(CFE_MSG_PTR(HkTlm.TelemetryHeader), true);
        break;
    default:
        CheckPacket(Buffer, CFE_SB_MsgIdToValue(MsgId));
        break;
    }
}

static CFE_Status_t Init(void)
{
    void *TblAddr = NULL;
    CFE_Status_t Status = CFE_EVS_Register(NULL, 0, CFE_EVS_EventFilter_BINARY);
    if (Status == CFE_SUCCESS)
        Status = CFE_MSG_Init(CFE_MSG_PTR(HkTlm.TelemetryHeader),
                              CFE_SB_ValueToMsgId(LC_HK_TLM_MID), sizeof(HkTlm));
    if (Status == CFE_SUCCESS)
        Status = CFE_SB_CreatePipe(&CmdPipe, PIPE_DEPTH, "LC_CMD_PIPE");
    if (Status == CFE_SUCCESS)
        Status = CFE_SB_Subscribe(CFE_SB_ValueToMsgId(LC_CMD_MID), CmdPipe);
    if (Status == CFE_SUCCESS)
        Status = CFE_SB_Subscribe(CFE_SB_ValueToMsgId(LC_SEND_HK_MID), CmdPipe);
    if (Status == CFE_SUCCESS)
        Status = CFE_TBL_Register(&WDTHandle, "LC_WDT", sizeof(LC_WDT_t), CFE_TBL_OPT_DEFAULT,
                                  ValidateWDT);
    if (Status == CFE_SUCCESS)
        Status =
            CFE_TBL_Register(&WRTHandle, "LC_WRT", sizeof(LC_WRT_t), CFE_TBL_OPT_DUMP_ONLY, NULL);
    if (Status == CFE_SUCCESS)
        Status = CFE_TBL_GetAddress(&TblAddr, WRTHandle);
    WRT = TblAddr;
    CFE_EVS_SendEvent(STARTUP_INF_EID, CFE_EVS_EventType_INFORMATION, "LC: initialized");
    return Status;
}

void LC_AppMain(void)
{
    CFE_SB_Buffer_t *Buffer;
    uint32 RunStatus =
        Init() == CFE_SUCCESS ? CFE_ES_RunStatus_APP_RUN : CFE_ES_RunStatus_APP_ERROR;
    while (CFE_ES_RunLoop(&RunStatus))
        if (CFE_SB_ReceiveBuffer(&Buffer, CmdPipe, CFE_SB_PEND_FOREVER) == CFE_SUCCESS)
            ProcessPacket(Buffer);
    CFE_ES_ExitApp(RunStatus);
}
