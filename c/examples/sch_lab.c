/* sch_lab.c: a scheduler with a table, written as for cFE. */
#include "labs.h"

#define STARTUP_INF_EID 1
#define TABLE_ERR_EID   2

#define ENTRIES \
    (sizeof(((SCH_LAB_ScheduleTable_t *)0)->Config) / sizeof(SCH_LAB_ScheduleTableEntry_t))

static CFE_TBL_Handle_t TblHandle;

static int32 Validate(void *TblData)
{
    const SCH_LAB_ScheduleTable_t *Table = TblData;
    if (Table->TickRate < 10 || Table->TickRate > 10000)
        return -1;
    for (size_t i = 0; i < ENTRIES; i++)
        if (Table->Config[i].MessageID > CFE_PLATFORM_SB_HIGHEST_VALID_MSGID ||
            (Table->Config[i].MessageID != 0 && Table->Config[i].PacketRate == 0))
            return -1;
    return CFE_SUCCESS;
}

static void Send(const SCH_LAB_ScheduleTableEntry_t *Entry)
{
    CFE_MSG_CommandHeader_t Command;
    if (CFE_MSG_Init(CFE_MSG_PTR(Command), CFE_SB_ValueToMsgId(Entry->MessageID),
                     sizeof(Command)) != CFE_SUCCESS)
        return;
    CFE_MSG_SetFcnCode(CFE_MSG_PTR(Command), Entry->FcnCode);
    CFE_SB_TransmitMsg(CFE_MSG_PTR(Command), true);
}

/* Sends what is due in this tick. The answer is how long the tick is. */
static uint32 DoTick(uint32 Tick)
{
    void *TblAddr;
    uint32 TickRate = 1000;
    if (CFE_TBL_GetAddress(&TblAddr, TblHandle) >= CFE_SUCCESS) {
        const SCH_LAB_ScheduleTable_t *Table = TblAddr;
        TickRate = Table->TickRate;
        for (size_t i = 0; i < ENTRIES; i++)
            if (Table->Config[i].MessageID != 0 && Tick % Table->Config[i].PacketRate == 0)
                Send(&Table->Config[i]);
    }
    CFE_TBL_ReleaseAddress(TblHandle);
    CFE_TBL_Manage(TblHandle);
    return TickRate;
}

void SCH_LAB_AppMain(void)
{
    uint32 RunStatus = CFE_ES_RunStatus_APP_RUN;
    CFE_Status_t Status = CFE_EVS_Register(NULL, 0, CFE_EVS_EventFilter_BINARY);
    if (Status == CFE_SUCCESS)
        Status = CFE_TBL_Register(&TblHandle, "ScheduleTable", sizeof(SCH_LAB_ScheduleTable_t),
                                  CFE_TBL_OPT_DEFAULT, Validate);
    if (Status != CFE_SUCCESS)
        RunStatus = CFE_ES_RunStatus_APP_ERROR;
    /* Without its file it waits for one that ground loads. */
    else if (CFE_TBL_Load(TblHandle, CFE_TBL_SRC_FILE, SCH_LAB_TABLE_FILE) < CFE_SUCCESS)
        CFE_EVS_SendEvent(TABLE_ERR_EID, CFE_EVS_EventType_ERROR, "SCH_LAB: no table");
    CFE_EVS_SendEvent(STARTUP_INF_EID, CFE_EVS_EventType_INFORMATION, "SCH_LAB: initialized");
    for (uint32 Tick = 1; CFE_ES_RunLoop(&RunStatus); Tick++)
        OS_TaskDelay(DoTick(Tick));
    CFE_ES_ExitApp(RunStatus);
}
