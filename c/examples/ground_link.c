/*
 * ground_link.c: the application's own task sends telemetry down; a child task receives commands
 * into buffers of the bus, which are sent on without a copy.
 */
#include "ground_link.h"

#include <arpa/inet.h>
#include <errno.h>
#include <netinet/in.h>
#include <stdatomic.h>
#include <string.h>
#include <sys/socket.h>
#include <sys/time.h>
#include <unistd.h>

#define LARGEST_COMMAND 1024
#define PIPE_DEPTH      64
#define WAIT_MS         100

#define STARTUP_INF_EID 1
#define COMMAND_ERR_EID 2
#define SOCKET_ERR_EID  3

struct ground_link_config GROUND_LINK_Config = {.command_port = GROUND_LINK_COMMAND_PORT,
                                                .telemetry_port = GROUND_LINK_TELEMETRY_PORT,
                                                .listens = "127.0.0.1",
                                                .ground = "127.0.0.1"};

/* Faults of datagrams. */
static const char NoCommand[] = "are no command of ground's";
static const char WrongChecksum[] = "have a wrong checksum";
static const char Stranger[] = "come from another address";
static const char NoRoom[] = "have no room on the bus";

static struct {
    int Up, Down; /* sockets */
    CFE_SB_PipeId_t Pipe;
    struct in_addr Ground;
    atomic_uint Commands, NoCommands, Checksums, Strangers, Full, Sent;
} Link;

static bool OpenSockets(void)
{
    struct sockaddr_in Up = {.sin_family = AF_INET,
                             .sin_port = htons(GROUND_LINK_Config.command_port)};
    struct sockaddr_in Down = {.sin_family = AF_INET,
                               .sin_port = htons(GROUND_LINK_Config.telemetry_port)};
    struct timeval Wait = {0, WAIT_MS * 1000};
    if (inet_pton(AF_INET, GROUND_LINK_Config.listens, &Up.sin_addr) != 1 ||
        inet_pton(AF_INET, GROUND_LINK_Config.ground, &Link.Ground) != 1) {
        errno = EINVAL;
        return false;
    }
    Down.sin_addr = Link.Ground;
    Link.Up = socket(AF_INET, SOCK_DGRAM | SOCK_CLOEXEC, 0);
    Link.Down = socket(AF_INET, SOCK_DGRAM | SOCK_CLOEXEC | SOCK_NONBLOCK, 0);
    return Link.Up >= 0 && Link.Down >= 0 &&
           setsockopt(Link.Up, SOL_SOCKET, SO_RCVTIMEO, &Wait, sizeof(Wait)) == 0 &&
           bind(Link.Up, (struct sockaddr *)&Up, sizeof(Up)) == 0 &&
           connect(Link.Down, (struct sockaddr *)&Down, sizeof(Down)) == 0;
}

/* ---- Commands: the child task ---- */

static bool IsAllowed(CFE_SB_MsgId_t Id)
{
    for (size_t i = 0; i < GROUND_LINK_Config.command_count; i++)
        if (CFE_SB_MsgId_Equal(GROUND_LINK_Config.commands[i], Id))
            return true;
    return false;
}

const char *GROUND_LINK_FaultOf(const void *Datagram, size_t Length)
{
    const CFE_MSG_Message_t *Msg = Datagram;
    CFE_MSG_Size_t Size = 0;
    CFE_MSG_Type_t Type = CFE_MSG_Type_Invalid;
    CFE_SB_MsgId_t Id = CFE_SB_INVALID_MSG_ID;
    bool IsValid = !GROUND_LINK_Config.tests_checksum;
    if (Length <= sizeof(CFE_MSG_Message_t))
        return NoCommand;
    CFE_MSG_GetSize(Msg, &Size);
    CFE_MSG_GetType(Msg, &Type);
    CFE_MSG_GetMsgId(Msg, &Id);
    if (Size != Length || Type != CFE_MSG_Type_Cmd || !IsAllowed(Id))
        return NoCommand;
    /* A command without room for a secondary header has no checksum. */
    if (!IsValid && (Length < sizeof(CFE_MSG_CommandHeader_t) ||
                     CFE_MSG_ValidateChecksum(Msg, &IsValid) != CFE_SUCCESS || !IsValid))
        return WrongChecksum;
    return NULL;
}

static atomic_uint *CountOf(const char *Fault)
{
    if (Fault == Stranger)
        return &Link.Strangers;
    if (Fault == WrongChecksum)
        return &Link.Checksums;
    return Fault == NoRoom ? &Link.Full : &Link.NoCommands;
}

/* Sends a datagram on, if it is a command. The event says only the first ones that aren't. */
static void SendCommand(CFE_SB_Buffer_t *Buffer, size_t Length, struct in_addr From)
{
    const char *Fault =
        From.s_addr == Link.Ground.s_addr ? GROUND_LINK_FaultOf(Buffer, Length) : Stranger;
    if (!Fault && CFE_SB_TransmitBuffer(Buffer, false) == CFE_SUCCESS) {
        atomic_fetch_add(&Link.Commands, 1);
        return;
    }
    CFE_SB_ReleaseMessageBuffer(Buffer);
    Fault = Fault ? Fault : NoRoom;
    atomic_fetch_add(CountOf(Fault), 1);
    CFE_EVS_SendEvent(COMMAND_ERR_EID, CFE_EVS_EventType_ERROR, "GROUND_LINK: %u bytes %s",
                      (unsigned)Length, Fault);
}

/* The child task. It ends with the application, at one of its calls. */
static void ReceiveCommands(void)
{
    for (;;) {
        struct sockaddr_in From = {0};
        socklen_t Size = sizeof(From);
        CFE_SB_Buffer_t *Buffer = CFE_SB_AllocateMessageBuffer(LARGEST_COMMAND);
        if (!Buffer) {
            OS_TaskDelay(WAIT_MS);
            continue;
        }
        /* A longer datagram is cut, and so no whole command. */
        ssize_t Length =
            recvfrom(Link.Up, Buffer, LARGEST_COMMAND, 0, (struct sockaddr *)&From, &Size);
        bool IsFault = Length < 0 && errno != EAGAIN && errno != EINTR;
        if (Length >= 0)
            SendCommand(Buffer, (size_t)Length, From.sin_addr);
        else
            CFE_SB_ReleaseMessageBuffer(Buffer);
        if (IsFault)
            OS_TaskDelay(WAIT_MS);
    }
}

/* ---- Telemetry: the application's own task ---- */

static CFE_Status_t SetUpPipe(void)
{
    CFE_Status_t Status = CFE_SB_CreatePipe(&Link.Pipe, PIPE_DEPTH, "GROUND_LINK_TLM");
    if (Status == CFE_SUCCESS)
        Status = CFE_SB_Subscribe(CFE_SB_ValueToMsgId(GROUND_LINK_SEND_HK_MID), Link.Pipe);
    for (size_t i = 0; Status == CFE_SUCCESS && i < GROUND_LINK_Config.telemetry_count; i++)
        Status = CFE_SB_SubscribeEx(GROUND_LINK_Config.telemetry[i], Link.Pipe, CFE_SB_DEFAULT_QOS,
                                    PIPE_DEPTH);
    return Status;
}

static CFE_Status_t Init(void)
{
    static const CFE_EVS_BinFilter_t Filter = {COMMAND_ERR_EID, CFE_EVS_FIRST_16_STOP};
    CFE_ES_TaskId_t Task;
    CFE_Status_t Status = CFE_EVS_Register(&Filter, 1, CFE_EVS_EventFilter_BINARY);
    if (Status == CFE_SUCCESS)
        Status = SetUpPipe();
    if (Status == CFE_SUCCESS && !OpenSockets()) {
        CFE_EVS_SendEvent(SOCKET_ERR_EID, CFE_EVS_EventType_ERROR, "GROUND_LINK: no sockets: %s",
                          strerror(errno));
        Status = CFE_ES_BAD_ARGUMENT;
    }
    if (Status == CFE_SUCCESS)
        Status = CFE_ES_CreateChildTask(&Task, "GROUND_LINK_UP", ReceiveCommands,
                                        CFE_ES_TASK_STACK_ALLOCATE, 16384, 50, 0);
    if (Status == CFE_SUCCESS)
        CFE_EVS_SendEvent(STARTUP_INF_EID, CFE_EVS_EventType_INFORMATION,
                          "GROUND_LINK: commands at %u, telemetry to %u",
                          GROUND_LINK_Config.command_port, GROUND_LINK_Config.telemetry_port);
    return Status;
}

static void SendHousekeeping(void)
{
    GROUND_LINK_HkTlm_t Hk;
    CFE_MSG_Init(CFE_MSG_PTR(Hk.TelemetryHeader), CFE_SB_ValueToMsgId(GROUND_LINK_HK_TLM_MID),
                 sizeof(Hk));
    Hk.Commands = atomic_load(&Link.Commands);
    Hk.NoCommands = atomic_load(&Link.NoCommands);
    Hk.Checksums = atomic_load(&Link.Checksums);
    Hk.Strangers = atomic_load(&Link.Strangers);
    Hk.Full = atomic_load(&Link.Full);
    Hk.Sent = atomic_load(&Link.Sent);
    CFE_SB_TimeStampMsg(CFE_MSG_PTR(Hk.TelemetryHeader));
    CFE_SB_TransmitMsg(CFE_MSG_PTR(Hk.TelemetryHeader), true);
}

static void Handle(const CFE_SB_Buffer_t *Buffer)
{
    CFE_SB_MsgId_t Id = CFE_SB_INVALID_MSG_ID;
    CFE_MSG_Size_t Size = 0;
    CFE_MSG_GetMsgId(&Buffer->Msg, &Id);
    CFE_MSG_GetSize(&Buffer->Msg, &Size);
    if (CFE_SB_MsgIdToValue(Id) == GROUND_LINK_SEND_HK_MID)
        SendHousekeeping();
    /* Nobody may listen on the ground. */
    else if (send(Link.Down, Buffer, Size, 0) == (ssize_t)Size)
        atomic_fetch_add(&Link.Sent, 1);
}

void GROUND_LINK_Main(void)
{
    CFE_SB_Buffer_t *Buffer;
    uint32 RunStatus = CFE_ES_RunStatus_APP_RUN;
    if (Init() != CFE_SUCCESS)
        RunStatus = CFE_ES_RunStatus_APP_ERROR;
    while (CFE_ES_RunLoop(&RunStatus))
        if (CFE_SB_ReceiveBuffer(&Buffer, Link.Pipe, WAIT_MS) == CFE_SUCCESS)
            Handle(Buffer);
    CFE_ES_WriteToSysLog("GROUND_LINK: %u commands, %u refused, %u packets down\n",
                         atomic_load(&Link.Commands),
                         atomic_load(&Link.NoCommands) + atomic_load(&Link.Checksums) +
                             atomic_load(&Link.Strangers) + atomic_load(&Link.Full),
                         atomic_load(&Link.Sent));
    /* The child task still uses the sockets; they go with the process. */
    CFE_ES_ExitApp(RunStatus);
}
