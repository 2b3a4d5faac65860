/* ci_lab.c: command ingest by UDP on loopback, written as for cFE. */
#include "labs.h"

#include <arpa/inet.h>
#include <errno.h>
#include <netinet/in.h>
#include <string.h>
#include <sys/socket.h>
#include <unistd.h>

#define STARTUP_INF_EID 1
#define NOOP_INF_EID    2
#define COMMAND_ERR_EID 3
#define INGEST_ERR_EID  4

#define LARGEST_COMMAND 1024
#define WAIT_MS         20
#define MOST_AT_ONCE    10

uint16 CI_LAB_Port = 1234;

static CFE_SB_PipeId_t CommandPipe;
static LAB_HkTlm_t HkTlm;
static int Socket = -1;

static void Ingest(CFE_SB_Buffer_t *Buffer, size_t Length)
{
    CFE_MSG_Size_t Size = 0;
    CFE_MSG_Type_t Type = CFE_MSG_Type_Invalid;
    if (Length > sizeof(CFE_MSG_Message_t)) {
        CFE_MSG_GetSize(&Buffer->Msg, &Size);
        CFE_MSG_GetType(&Buffer->Msg, &Type);
    }
    if (Size == Length && Type == CFE_MSG_Type_Cmd &&
        CFE_SB_TransmitBuffer(Buffer, false) == CFE_SUCCESS) {
        HkTlm.Count++;
        return;
    }
    CFE_SB_ReleaseMessageBuffer(Buffer);
    CFE_EVS_SendEvent(INGEST_ERR_EID, CFE_EVS_EventType_ERROR, "CI_LAB: %u bytes are no command",
                      (unsigned)Length);
}

/* Takes the datagrams that wait, each into a buffer of the bus. */
static void ReadUpLink(void)
{
    ssize_t Length = 0;
    for (int i = 0; i < MOST_AT_ONCE && Length >= 0; i++) {
        CFE_SB_Buffer_t *Buffer = CFE_SB_AllocateMessageBuffer(LARGEST_COMMAND);
        if (!Buffer)
            return;
        Length = recv(Socket, Buffer, LARGEST_COMMAND, MSG_DONTWAIT);
        if (Length >= 0)
            Ingest(Buffer, (size_t)Length);
        else
            CFE_SB_ReleaseMessageBuffer(Buffer);
    }
}

static void ProcessCommand(const CFE_MSG_Message_t *Msg)
{
    CFE_SB_MsgId_t MsgId = CFE_SB_INVALID_MSG_ID;
    CFE_MSG_FcnCode_t Code = 0;
    CFE_MSG_GetMsgId(Msg, &MsgId);
    CFE_MSG_GetFcnCode(Msg, &Code);
    if (CFE_SB_MsgIdToValue(MsgId) == CI_LAB_SEND_HK_MID) {
        CFE_SB_TimeStampMsg(CFE_MSG_PTR(HkTlm.TelemetryHeader));
        CFE_SB_TransmitMsg(CFE_MSG_PTR(HkTlm.TelemetryHeader), true);
    } else if (Code == NOOP_CC) {
        HkTlm.CommandCounter++;
        CFE_EVS_SendEvent(NOOP_INF_EID, CFE_EVS_EventType_INFORMATION, "CI_LAB: NOOP command");
    } else if (Code == RESET_COUNTERS_CC) {
        HkTlm.CommandCounter = HkTlm.CommandErrorCounter = 0;
        HkTlm.Count = 0;
    } else {
        HkTlm.CommandErrorCounter++;
        CFE_EVS_SendEvent(COMMAND_ERR_EID, CFE_EVS_EventType_ERROR, "CI_LAB: no command %u", Code);
    }
}

static CFE_Status_t OpenSocket(void)
{
    struct sockaddr_in Address = {.sin_family = AF_INET, .sin_port = htons(CI_LAB_Port)};
    Address.sin_addr.s_addr = htonl(INADDR_LOOPBACK);
    Socket = socket(AF_INET, SOCK_DGRAM, 0);
    if (Socket >= 0 && bind(Socket, (struct sockaddr *)&Address, sizeof(Address)) == 0)
        return CFE_SUCCESS;
    CFE_ES_WriteToSysLog("CI_LAB: no socket: %s", strerror(errno));
    return CFE_STATUS_EXTERNAL_RESOURCE_FAIL;
}

static CFE_Status_t Init(void)
{
    CFE_Status_t Status = CFE_EVS_Register(NULL, 0, CFE_EVS_EventFilter_BINARY);
    if (Status == CFE_SUCCESS)
        Status = CFE_MSG_Init(CFE_MSG_PTR(HkTlm.TelemetryHeader),
                              CFE_SB_ValueToMsgId(CI_LAB_HK_TLM_MID), sizeof(HkTlm));
    if (Status == CFE_SUCCESS)
        Status = CFE_SB_CreatePipe(&CommandPipe, 16, "CI_LAB_CMD_PIPE");
    if (Status == CFE_SUCCESS)
        Status = CFE_SB_Subscribe(CFE_SB_ValueToMsgId(CI_LAB_CMD_MID), CommandPipe);
    if (Status == CFE_SUCCESS)
        Status = CFE_SB_Subscribe(CFE_SB_ValueToMsgId(CI_LAB_SEND_HK_MID), CommandPipe);
    if (Status == CFE_SUCCESS)
        Status = OpenSocket();
    CFE_EVS_SendEvent(STARTUP_INF_EID, CFE_EVS_EventType_INFORMATION, "CI_LAB: commands at %u",
                      CI_LAB_Port);
    return Status;
}

void CI_LAB_AppMain(void)
{
    CFE_SB_Buffer_t *Buffer;
    uint32 RunStatus =
        Init() == CFE_SUCCESS ? CFE_ES_RunStatus_APP_RUN : CFE_ES_RunStatus_APP_ERROR;
    while (CFE_ES_RunLoop(&RunStatus)) {
        if (CFE_SB_ReceiveBuffer(&Buffer, CommandPipe, WAIT_MS) == CFE_SUCCESS)
            ProcessCommand(&Buffer->Msg);
        ReadUpLink();
    }
    if (Socket >= 0)
        close(Socket);
    CFE_ES_ExitApp(RunStatus);
}
