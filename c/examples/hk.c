/*
 * hk.c: a combiner of housekeeping, written as for cFE: its copy table says which bytes of which
 * packets become one packet; its runtime table, which is dump only, how often each was copied.
 */
#include "labs.h"

#include <string.h>

#define STARTUP_INF_EID 1
#define NOOP_INF_EID    2
#define COMMAND_ERR_EID 3
#define TABLE_ERR_EID   4
#define TABLE_INF_EID   5

#define PIPE_DEPTH 40

static CFE_SB_PipeId_t CmdPipe;
static CFE_TBL_Handle_t CopyTblHandle, RuntimeTblHandle;
static const HK_CopyTable_t *CopyTable; /* null while there is none */
static HK_RuntimeTable_t *RuntimeTable;
static LAB_HkTlm_t HkTlm;
static uint32 Subscribed[HK_TABLE_ENTRIES];

static struct {
    CFE_MSG_TelemetryHeader_t TelemetryHeader;
    uint8 Data[HK_COMBINED_BYTES];
} Combined;

static int32 ValidateCopyTable(void *TblData)
{
    const HK_CopyTable_t *Table = TblData;
    if (Table->OutputMid == 0 || Table->OutputMid > CFE_PLATFORM_SB_HIGHEST_VALID_MSGID)
        return -1;
    for (size_t i = 0; i < HK_TABLE_ENTRIES; i++) {
        const HK_CopyTableEntry_t *Entry = &Table->Entry[i];
        if (Entry->InputMid > CFE_PLATFORM_SB_HIGHEST_VALID_MSGID ||
            Entry->NumBytes > HK_COMBINED_BYTES ||
            Entry->OutputOffset + Entry->NumBytes > HK_COMBINED_BYTES)
            return -1;
    }
    return CFE_SUCCESS;
}

/* Subscribes to what a new copy table names, and to nothing else. */
static void ProcessNewCopyTable(void)
{
    for (size_t i = 0; i < HK_TABLE_ENTRIES; i++) {
        if (Subscribed[i] != 0)
            CFE_SB_Unsubscribe(CFE_SB_ValueToMsgId(Subscribed[i]), CmdPipe);
        Subscribed[i] = 0;
        RuntimeTable->Copies[i] = 0;
    }
    for (size_t i = 0; i < HK_TABLE_ENTRIES; i++)
        if (CopyTable->Entry[i].InputMid != 0 &&
            CFE_SB_Subscribe(CFE_SB_ValueToMsgId(CopyTable->Entry[i].InputMid), CmdPipe) ==
                CFE_SUCCESS)
            Subscribed[i] = CopyTable->Entry[i].InputMid;
    CFE_MSG_Init(CFE_MSG_PTR(Combined.TelemetryHeader), CFE_SB_ValueToMsgId(CopyTable->OutputMid),
                 sizeof(Combined));
    CFE_TBL_Modified(RuntimeTblHandle);
    CFE_EVS_SendEvent(TABLE_INF_EID, CFE_EVS_EventType_INFORMATION, "HK: new copy table");
}

/* The copy table is held but for the moment in which it may be updated. */
static void ManageTables(void)
{
    void *TblAddr;
    bool IsNew = CFE_TBL_ReleaseAddress(CopyTblHandle) == CFE_TBL_INFO_UPDATED;
    CFE_TBL_Manage(CopyTblHandle);
    CFE_TBL_Manage(RuntimeTblHandle);
    CFE_Status_t Status = CFE_TBL_GetAddress(&TblAddr, CopyTblHandle);
    CopyTable = Status >= CFE_SUCCESS ? TblAddr : NULL;
    if (CopyTable && (IsNew || Status == CFE_TBL_INFO_UPDATED))
        ProcessNewCopyTable();
}

static void CopyData(const CFE_SB_Buffer_t *Buffer, uint32 InputMid)
{
    CFE_MSG_Size_t Size = 0;
    CFE_MSG_GetSize(&Buffer->Msg, &Size);
    for (size_t i = 0; CopyTable && i < HK_TABLE_ENTRIES; i++) {
        const HK_CopyTableEntry_t *Entry = &CopyTable->Entry[i];
        if (Entry->InputMid != InputMid || Entry->InputOffset + Entry->NumBytes > Size)
            continue;
        memcpy(Combined.Data + Entry->OutputOffset, (const uint8 *)Buffer + Entry->InputOffset,
               Entry->NumBytes);
        RuntimeTable->Copies[i]++;
    }
}

static void SendCombined(void)
{
    if (!CopyTable)
        return;
    CFE_SB_TimeStampMsg(CFE_MSG_PTR(Combined.TelemetryHeader));
    CFE_SB_TransmitMsg(CFE_MSG_PTR(Combined.TelemetryHeader), true);
    HkTlm.Count++;
}

static void ProcessCommand(const CFE_MSG_Message_t *Msg)
{
    CFE_MSG_FcnCode_t Code = 0;
    CFE_MSG_GetFcnCode(Msg, &Code);
    if (Code == NOOP_CC) {
        HkTlm.CommandCounter++;
        CFE_EVS_SendEvent(NOOP_INF_EID, CFE_EVS_EventType_INFORMATION, "HK: NOOP command");
    } else if (Code == RESET_COUNTERS_CC) {
        HkTlm.CommandCounter = HkTlm.CommandErrorCounter = 0;
        HkTlm.Count = 0;
    } else {
        HkTlm.CommandErrorCounter++;
        CFE_EVS_SendEvent(COMMAND_ERR_EID, CFE_EVS_EventType_ERROR, "HK: no command %u", Code);
    }
}

static void ProcessPacket(const CFE_SB_Buffer_t *Buffer)
{
    CFE_SB_MsgId_t MsgId = CFE_SB_INVALID_MSG_ID;
    CFE_MSG_GetMsgId(&Buffer->Msg, &MsgId);
    switch (CFE_SB_MsgIdToValue(MsgId)) {
    case HK_CMD_MID:
        ProcessCommand(&Buffer->Msg);
        break;
    case HK_SEND_COMBINED_PKT_MID:
        SendCombined();
        break;
    case HK_SEND_HK_MID:
        ManageTables();
        CFE_SB_TimeStampMsg(CFE_MSG_PTR(HkTlm.TelemetryHeader));
        CFE_SB_TransmitMsg(CFE_MSG_PTR(HkTlm.TelemetryHeader), true);
        break;
    default:
        CopyData(Buffer, CFE_SB_MsgIdToValue(MsgId));
        break;
    }
}

static CFE_Status_t InitTables(void)
{
    void *TblAddr = NULL;
    CFE_Status_t Status = CFE_TBL_Register(&CopyTblHandle, "CopyTable", sizeof(HK_CopyTable_t),
                                           CFE_TBL_OPT_DEFAULT, ValidateCopyTable);
    if (Status == CFE_SUCCESS)
        Status = CFE_TBL_Register(&RuntimeTblHandle, "RuntimeTbl", sizeof(HK_RuntimeTable_t),
                                  CFE_TBL_OPT_DUMP_ONLY, NULL);
    if (Status == CFE_SUCCESS)
        Status = CFE_TBL_GetAddress(&TblAddr, RuntimeTblHandle);
    if (Status != CFE_SUCCESS)
        return Status;
    RuntimeTable = TblAddr;
    if (CFE_TBL_Load(CopyTblHandle, CFE_TBL_SRC_FILE, HK_COPY_TABLE_FILE) < CFE_SUCCESS)
        CFE_EVS_SendEvent(TABLE_ERR_EID, CFE_EVS_EventType_ERROR, "HK: no copy table");
    ManageTables();
    return Status;
}

static CFE_Status_t Init(void)
{
    static const uint32 Commands[] = {HK_CMD_MID, HK_SEND_HK_MID, HK_SEND_COMBINED_PKT_MID};
    CFE_Status_t Status = CFE_EVS_Register(NULL, 0, CFE_EVS_EventFilter_BINARY);
    if (Status == CFE_SUCCESS)
        Status = CFE_MSG_Init(CFE_MSG_PTR(HkTlm.TelemetryHeader),
                              CFE_SB_ValueToMsgId(HK_HK_TLM_MID), sizeof(HkTlm));
    if (Status == CFE_SUCCESS)
        Status = CFE_SB_CreatePipe(&CmdPipe, PIPE_DEPTH, "HK_CMD_PIPE");
    for (size_t i = 0; Status == CFE_SUCCESS && i < sizeof(Commands) / sizeof(Commands[0]); i++)
        Status = CFE_SB_Subscribe(CFE_SB_ValueToMsgId(Commands[i]), CmdPipe);
    if (Status == CFE_SUCCESS)
        Status = InitTables();
    CFE_EVS_SendEvent(STARTUP_INF_EID, CFE_EVS_EventType_INFORMATION, "HK: initialized");
    return Status;
}

void HK_AppMain(void)
{
    CFE_SB_Buffer_t *Buffer;
    uint32 RunStatus =
        Init() == CFE_SUCCESS ? CFE_ES_RunStatus_APP_RUN : CFE_ES_RunStatus_APP_ERROR;
    while (CFE_ES_RunLoop(&RunStatus))
        if (CFE_SB_ReceiveBuffer(&Buffer, CmdPipe, CFE_SB_PEND_FOREVER) == CFE_SUCCESS)
            ProcessPacket(Buffer);
    CFE_ES_ExitApp(RunStatus);
}
