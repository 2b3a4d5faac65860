/* to_lab.c: telemetry output by UDP, of what a table subscribes to, written as for cFE. */
#include "labs.h"

#include <arpa/inet.h>
#include <netinet/in.h>
#include <string.h>
#include <sys/socket.h>
#include <unistd.h>

#define STARTUP_INF_EID 1
#define NOOP_INF_EID    2
#define COMMAND_ERR_EID 3
#define ENABLED_INF_EID 4
#define TABLE_ERR_EID   5

#define PIPE_DEPTH   64
#define WAIT_MS      20
#define MOST_AT_ONCE 64
#define STREAMS      (sizeof(TO_LAB_Subs_t) / sizeof(uint32))

uint16 TO_LAB_Port = 1235;

static CFE_SB_PipeId_t CommandPipe, TlmPipe;
static CFE_TBL_Handle_t TblHandle;
static LAB_HkTlm_t HkTlm;
static int Socket = -1;

/* Subscribes to what the table has; what it had before stays. */
static void Subscribe(void)
{
    void *TblAddr;
    if (CFE_TBL_GetAddress(&TblAddr, TblHandle) >= CFE_SUCCESS) {
        const TO_LAB_Subs_t *Subs = TblAddr;
        for (size_t i = 0; i < STREAMS; i++)
            if (Subs->Stream[i] != 0)
                CFE_SB_SubscribeEx(CFE_SB_ValueToMsgId(Subs->Stream[i]), TlmPipe,
                                   CFE_SB_DEFAULT_QOS, PIPE_DEPTH);
    }
    CFE_TBL_ReleaseAddress(TblHandle);
}

static void EnableOutput(const TO_LAB_EnableOutputCmd_t *Cmd)
{
    struct sockaddr_in Address = {.sin_family = AF_INET, .sin_port = htons(TO_LAB_Port)};
    char Text[sizeof(Cmd->dest_IP) + 1] = {0};
    memcpy(Text, Cmd->dest_IP, sizeof(Cmd->dest_IP));
    if (Socket < 0)
        Socket = socket(AF_INET, SOCK_DGRAM, 0);
    if (Socket >= 0 && inet_pton(AF_INET, Text, &Address.sin_addr) == 1 &&
        connect(Socket, (struct sockaddr *)&Address, sizeof(Address)) == 0) {
        HkTlm.CommandCounter++;
        CFE_EVS_SendEvent(ENABLED_INF_EID, CFE_EVS_EventType_INFORMATION,
                          "TO_LAB: telemetry output enabled for %s", Text);
        return;
    }
    HkTlm.CommandErrorCounter++;
    CFE_EVS_SendEvent(COMMAND_ERR_EID, CFE_EVS_EventType_ERROR, "TO_LAB: no address %s", Text);
}

static void ForwardTelemetry(void)
{
    CFE_SB_Buffer_t *Buffer;
    CFE_MSG_Size_t Size = 0;
    for (int i = 0; i < MOST_AT_ONCE; i++) {
        if (CFE_SB_ReceiveBuffer(&Buffer, TlmPipe, CFE_SB_POLL) != CFE_SUCCESS)
            return;
        CFE_MSG_GetSize(&Buffer->Msg, &Size);
        /* Nobody may listen on the ground. */
        if (Socket >= 0 && send(Socket, Buffer, Size, 0) == (ssize_t)Size)
            HkTlm.Count++;
    }
}

static void ReportHousekeeping(void)
{
    CFE_SB_TimeStampMsg(CFE_MSG_PTR(HkTlm.TelemetryHeader));
    CFE_SB_TransmitMsg(CFE_MSG_PTR(HkTlm.TelemetryHeader), true);
    CFE_TBL_Manage(TblHandle);
    Subscribe();
}

static void ProcessCommand(const CFE_SB_Buffer_t *Buffer)
{
    CFE_SB_MsgId_t MsgId = CFE_SB_INVALID_MSG_ID;
    CFE_MSG_FcnCode_t Code = 0;
    CFE_MSG_Size_t Size = 0;
    CFE_MSG_GetMsgId(&Buffer->Msg, &MsgId);
    CFE_MSG_GetFcnCode(&Buffer->Msg, &Code);
    CFE_MSG_GetSize(&Buffer->Msg, &Size);
    if (CFE_SB_MsgIdToValue(MsgId) == TO_LAB_SEND_HK_MID) {
        ReportHousekeeping();
    } else if (Code == NOOP_CC) {
        HkTlm.CommandCounter++;
        CFE_EVS_SendEvent(NOOP_INF_EID, CFE_EVS_EventType_INFORMATION, "TO_LAB: NOOP command");
    } else if (Code == RESET_COUNTERS_CC) {
        HkTlm.CommandCounter = HkTlm.CommandErrorCounter = 0;
        HkTlm.Count = 0;
    } else if (Code == TO_LAB_OUTPUT_ENABLE_CC && Size == sizeof(TO_LAB_EnableOutputCmd_t)) {
        EnableOutput((const TO_LAB_EnableOutputCmd_t *)Buffer);
    } else {
        HkTlm.CommandErrorCounter++;
        CFE_EVS_SendEvent(COMMAND_ERR_EID, CFE_EVS_EventType_ERROR, "TO_LAB: no command %u", Code);
    }
}

static CFE_Status_t Init(void)
{
    CFE_Status_t Status = CFE_EVS_Register(NULL, 0, CFE_EVS_EventFilter_BINARY);
    if (Status == CFE_SUCCESS)
        Status = CFE_MSG_Init(CFE_MSG_PTR(HkTlm.TelemetryHeader),
                              CFE_SB_ValueToMsgId(TO_LAB_HK_TLM_MID), sizeof(HkTlm));
    if (Status == CFE_SUCCESS)
        Status = CFE_SB_CreatePipe(&CommandPipe, 16, "TO_LAB_CMD_PIPE");
    if (Status == CFE_SUCCESS)
        Status = CFE_SB_CreatePipe(&TlmPipe, PIPE_DEPTH, "TO_LAB_TLM_PIPE");
    if (Status == CFE_SUCCESS)
        Status = CFE_SB_Subscribe(CFE_SB_ValueToMsgId(TO_LAB_CMD_MID), CommandPipe);
    if (Status == CFE_SUCCESS)
        Status = CFE_SB_Subscribe(CFE_SB_ValueToMsgId(TO_LAB_SEND_HK_MID), CommandPipe);
    if (Status == CFE_SUCCESS)
        Status = CFE_TBL_Register(&TblHandle, "TO_LAB_Subs", sizeof(TO_LAB_Subs_t),
                                  CFE_TBL_OPT_DEFAULT, NULL);
    if (Status != CFE_SUCCESS)
        return Status;
    if (CFE_TBL_Load(TblHandle, CFE_TBL_SRC_FILE, TO_LAB_TABLE_FILE) < CFE_SUCCESS)
        CFE_EVS_SendEvent(TABLE_ERR_EID, CFE_EVS_EventType_ERROR, "TO_LAB: no table");
    Subscribe();
    return CFE_EVS_SendEvent(STARTUP_INF_EID, CFE_EVS_EventType_INFORMATION, "TO_LAB: initialized");
}

void TO_LAB_AppMain(void)
{
    CFE_SB_Buffer_t *Buffer;
    uint32 RunStatus =
        Init() == CFE_SUCCESS ? CFE_ES_RunStatus_APP_RUN : CFE_ES_RunStatus_APP_ERROR;
    while (CFE_ES_RunLoop(&RunStatus)) {
        if (CFE_SB_ReceiveBuffer(&Buffer, CommandPipe, WAIT_MS) == CFE_SUCCESS)
            ProcessCommand(Buffer);
        ForwardTelemetry();
    }
    if (Socket >= 0)
        close(Socket);
    CFE_ES_ExitApp(RunStatus);
}
