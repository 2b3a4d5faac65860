/* sb.c: the Software Bus in cFE's names. */
#include "cfe_sb_events.h"
#include "layer.h"

#include <errno.h>
#include <string.h>

enum { CORE_NAME = 19 };

/* The first two bytes of the ids that services have: 0x1800 to 0x180f. */
enum { SERVICES_FIRST_BYTE = 0x18, SERVICES_LAST_BYTE = 0x0f };

/* ---- Pipes ---- */

/* What the layer has of a live pipe; or null. */
static struct pipe *pipe_numbered(uint32_t number)
{
    for (size_t i = 0; i < PIPE_PLACES; i++)
        if (fsw_layer.pipe[i].number == number)
            return &fsw_layer.pipe[i];
    return NULL;
}

/* A place for a new pipe: one that nobody sleeps on; or null. */
static struct pipe *free_pipe(void)
{
    for (size_t i = 0; i < PIPE_PLACES; i++)
        if (!fsw_layer.pipe[i].number && !fsw_layer.pipe[i].sleepers)
            return &fsw_layer.pipe[i];
    return NULL;
}

static uint32_t create_pipe(const struct app *app, uint32_t depth, const char *name,
                            uint32_t *number)
{
    struct pipe *pipe = free_pipe();
    if (!pipe)
        return FSW_SB_MAX_PIPES_MET;
    uint32_t status =
        fsw_create_pipe(&fsw_layer.core, app->number, depth, name, strlen(name), number);
    if (status == FSW_SUCCESS) {
        pipe->number = *number;
        pipe->depth = depth;
    }
    return status;
}

CFE_Status_t CFE_SB_CreatePipe(CFE_SB_PipeId_t *PipeIdPtr, uint16 Depth, const char *PipeName)
{
    if (!PipeIdPtr)
        return CFE_SB_BAD_ARGUMENT;
    *PipeIdPtr = CFE_SB_INVALID_PIPE;
    if (!PipeName)
        return CFE_SB_BAD_ARGUMENT;
    const struct app *app = fsw_enter();
    if (!app)
        return CFE_SB_BAD_ARGUMENT;
    uint32_t number = 0;
    uint32_t status = create_pipe(app, Depth, PipeName, &number);
    if (status == FSW_SUCCESS)
        *PipeIdPtr = number;
    return fsw_leave_bus((struct fsw_asked){"CreatePipe", CFE_SB_CR_PIPE_BAD_ARG_EID, 0}, status);
}

CFE_Status_t CFE_SB_DeletePipe(CFE_SB_PipeId_t PipeId)
{
    struct app *app = fsw_enter();
    if (!app)
        return CFE_SB_BAD_ARGUMENT;
    uint32_t status = fsw_delete_pipe(&fsw_layer.core, app->number, PipeId);
    struct pipe *pipe = status == FSW_SUCCESS ? pipe_numbered(PipeId) : NULL;
    if (pipe) {
        pipe->number = 0;
        fsw_must(pthread_cond_broadcast(&pipe->arrived));
    }
    return fsw_leave_with(status, CFE_SB_BAD_ARGUMENT);
}

CFE_Status_t CFE_SB_PipeId_ToIndex(CFE_SB_PipeId_t PipeID, uint32 *Idx)
{
    if (!Idx)
        return CFE_SB_BAD_ARGUMENT;
    if (!fsw_enter())
        return CFE_SB_BAD_ARGUMENT;
    const struct pipe *pipe = PipeID ? pipe_numbered(PipeID) : NULL;
    if (pipe)
        *Idx = (uint32)(pipe - fsw_layer.pipe);
    fsw_leave();
    return pipe ? CFE_SUCCESS : CFE_ES_ERR_RESOURCEID_NOT_VALID;
}

CFE_Status_t CFE_SB_SetPipeOpts(CFE_SB_PipeId_t PipeId, uint8 Opts)
{
    struct app *app = fsw_enter();
    if (!app)
        return CFE_SB_BAD_ARGUMENT;
    uint32_t status = fsw_set_options(&fsw_layer.core, app->number, PipeId, Opts);
    return fsw_leave_with(status, CFE_SB_BAD_ARGUMENT);
}

CFE_Status_t CFE_SB_GetPipeOpts(CFE_SB_PipeId_t PipeId, uint8 *OptsPtr)
{
    if (!OptsPtr)
        return CFE_SB_BAD_ARGUMENT;
    if (!fsw_enter())
        return CFE_SB_BAD_ARGUMENT;
    uint32_t status = fsw_get_options(&fsw_layer.core, PipeId, OptsPtr);
    return fsw_leave_with(status, CFE_SB_BAD_ARGUMENT);
}

CFE_Status_t CFE_SB_GetPipeName(char *PipeNameBuf, size_t PipeNameSize, CFE_SB_PipeId_t PipeId)
{
    char name[CORE_NAME + 1];
    uint32_t length = 0;
    if (!PipeNameBuf || PipeNameSize == 0)
        return CFE_SB_BAD_ARGUMENT;
    if (!fsw_enter())
        return CFE_SB_BAD_ARGUMENT;
    uint32_t status = fsw_pipe_name(&fsw_layer.core, PipeId, name, CORE_NAME, &length);
    fsw_leave();
    /* As cFE, the name is cut to its room, and the room is empty after a refusal. */
    if (length >= PipeNameSize)
        length = (uint32_t)PipeNameSize - 1;
    memcpy(PipeNameBuf, name, length);
    PipeNameBuf[length] = '\0';
    return fsw_status(status, CFE_SB_BAD_ARGUMENT);
}

CFE_Status_t CFE_SB_GetPipeIdByName(CFE_SB_PipeId_t *PipeIdPtr, const char *PipeName)
{
    if (!PipeIdPtr || !PipeName)
        return CFE_SB_BAD_ARGUMENT;
    if (!fsw_enter())
        return CFE_SB_BAD_ARGUMENT;
    *PipeIdPtr = CFE_SB_INVALID_PIPE;
    uint32_t status = fsw_find_pipe(&fsw_layer.core, PipeName, strlen(PipeName), PipeIdPtr);
    return fsw_leave_with(status, CFE_SB_BAD_ARGUMENT);
}

void fsw_end_pipes(void)
{
    uint32_t waiting;
    for (uint32_t i = 0; i < MOST_PIPES + MOST_TASKS; i++) {
        struct pipe *pipe = &fsw_layer.pipe[i];
        if (pipe->number && fsw_waiting(&fsw_layer.core, pipe->number, &waiting) != FSW_SUCCESS)
            pipe->number = 0;
    }
}

/* ---- Subscriptions ---- */

/* An id of over 16 bits is as bad as 0. */
static uint16_t core_id(CFE_SB_MsgId_t id)
{
    return id > UINT16_MAX ? 0 : (uint16_t)id;
}

static CFE_Status_t subscribe(CFE_SB_MsgId_t MsgId, CFE_SB_PipeId_t PipeId, uint16 limit,
                              uint32_t scope)
{
    struct app *app = fsw_enter();
    if (!app)
        return CFE_SB_BAD_ARGUMENT;
    uint32_t status =
        fsw_subscribe(&fsw_layer.core, app->number, core_id(MsgId), PipeId, limit, scope);
    return fsw_leave_bus((struct fsw_asked){"Subscribe", CFE_SB_SUB_ARG_ERR_EID, MsgId}, status);
}

CFE_Status_t CFE_SB_Subscribe(CFE_SB_MsgId_t MsgId, CFE_SB_PipeId_t PipeId)
{
    return subscribe(MsgId, PipeId, CFE_PLATFORM_SB_DEFAULT_MSG_LIMIT, FSW_GLOBAL);
}

CFE_Status_t CFE_SB_SubscribeEx(CFE_SB_MsgId_t MsgId, CFE_SB_PipeId_t PipeId, CFE_SB_Qos_t Quality,
                                uint16 MsgLim)
{
    (void)Quality;
    return subscribe(MsgId, PipeId, MsgLim, FSW_GLOBAL);
}

CFE_Status_t CFE_SB_SubscribeLocal(CFE_SB_MsgId_t MsgId, CFE_SB_PipeId_t PipeId, uint16 MsgLim)
{
    return subscribe(MsgId, PipeId, MsgLim, FSW_LOCAL);
}

CFE_Status_t CFE_SB_Unsubscribe(CFE_SB_MsgId_t MsgId, CFE_SB_PipeId_t PipeId)
{
    struct app *app = fsw_enter();
    if (!app)
        return CFE_SB_BAD_ARGUMENT;
    uint32_t status = fsw_unsubscribe(&fsw_layer.core, app->number, core_id(MsgId), PipeId);
    return fsw_leave_bus((struct fsw_asked){"Unsubscribe", CFE_SB_UNSUB_ARG_ERR_EID, MsgId},
                         status);
}

CFE_Status_t CFE_SB_UnsubscribeLocal(CFE_SB_MsgId_t MsgId, CFE_SB_PipeId_t PipeId)
{
    return CFE_SB_Unsubscribe(MsgId, PipeId);
}

/* ---- Sends ---- */

void fsw_wake_sleepers(void)
{
    for (struct pipe *pipe = fsw_layer.asleep; pipe; pipe = pipe->next_asleep) {
        uint32_t waiting = 0;
        fsw_waiting(&fsw_layer.core, pipe->number, &waiting);
        if (waiting > 0)
            fsw_must(pthread_cond_signal(&pipe->arrived));
    }
}

/* The length that a message's header says. */
static size_t length_of(const CFE_MSG_Message_t *message)
{
    return ((size_t)message->Byte[4] << 8 | message->Byte[5]) + 7;
}

/* cFE counts telemetry alone; the core would count commands too. */
static bool is_counted(const CFE_MSG_Message_t *message, bool is_asked)
{
    return is_asked && !(message->Byte[0] & 0x10);
}

void fsw_send_at(const struct app *app, CFE_MSG_TelemetryHeader_t *packet, size_t size,
                 CFE_TIME_SysTime_t time)
{
    struct fsw_sent sent;
    CFE_MSG_SetMsgTime(&packet->Msg, time);
    if (fsw_transmit(&fsw_layer.core, app->number, packet, size, true, &sent) == FSW_SUCCESS)
        fsw_wake(&sent);
}

FSW_SELDOM static CFE_Status_t leave_send_telling(const CFE_MSG_Message_t *message, uint32_t status)
{
    struct fsw_asked asked = {"Transmit", CFE_SB_SEND_BAD_ARG_EID, 0};
    if (message)
        CFE_MSG_GetMsgId(message, &asked.id);
    return fsw_leave_telling(asked, status);
}

/* Ends a send of this message; null if it can't be read. */
static inline CFE_Status_t leave_send(const CFE_MSG_Message_t *message, uint32_t status)
{
    return fsw_tells_events() ? leave_send_telling(message, status)
                              : fsw_leave_with(status, CFE_SB_BAD_ARGUMENT);
}

void fsw_send_own(const struct app *app, CFE_MSG_TelemetryHeader_t *packet, size_t size)
{
    fsw_send_at(app, packet, size, CFE_TIME_GetTime());
}

/* Whether a message is for a service of the layer's, by its id. */
static inline bool is_for_service(const CFE_MSG_Message_t *message)
{
    return message->Byte[0] == SERVICES_FIRST_BYTE && message->Byte[1] <= SERVICES_LAST_BYTE;
}

/* Keeps a message for a service; of one that is longer than any command, its length alone. */
static void keep_command(struct fsw_command *command, const CFE_MSG_Message_t *message)
{
    command->size = length_of(message);
    memcpy(command->bytes, message,
           command->size <= sizeof command->bytes ? command->size
                                                  : sizeof(CFE_MSG_CommandHeader_t));
}

/* Ends an accepted send of a command to a service, which does it before the call ends. */
FSW_SELDOM static CFE_Status_t leave_to_service(const struct fsw_sent *sent,
                                                const CFE_MSG_Message_t *message)
{
    struct fsw_command command;
    keep_command(&command, message);
    /* In cFE the service subscribes to it: that no pipe got it isn't counted, and is no event. */
    if (sent->number == 0) {
        fsw_layer.requests++;
        fsw_layer.events_seen++;
    }
    CFE_Status_t status = leave_send(message, FSW_SUCCESS);
    fsw_serve(&command);
    return status;
}

CFE_Status_t CFE_SB_TransmitMsg(const CFE_MSG_Message_t *MsgPtr, bool IncrementSequenceCount)
{
    struct fsw_sent sent;
    if (!MsgPtr)
        return CFE_SB_BAD_ARGUMENT;
    const struct app *app = fsw_enter();
    if (!app)
        return CFE_SB_BAD_ARGUMENT;
    uint32_t status = fsw_transmit(&fsw_layer.core, app->number, MsgPtr, length_of(MsgPtr),
                                   is_counted(MsgPtr, IncrementSequenceCount), &sent);
    if (status == FSW_SUCCESS)
        fsw_wake(&sent);
    if (status == FSW_SUCCESS && is_for_service(MsgPtr))
        return leave_to_service(&sent, MsgPtr);
    return leave_send(MsgPtr, status);
}

/* ---- Receives ---- */

static void fall_asleep(struct pipe *pipe)
{
    if (pipe->sleepers++ > 0)
        return;
    pipe->next_asleep = fsw_layer.asleep;
    fsw_layer.asleep = pipe;
}

static void wake_up(struct pipe *pipe)
{
    if (--pipe->sleepers > 0)
        return;
    struct pipe **at = &fsw_layer.asleep;
    while (*at && *at != pipe)
        at = &(*at)->next_asleep;
    if (*at)
        *at = pipe->next_asleep;
}

/* Whether a wait goes on: not if the task or all applications were asked to end. */
static bool is_patient(void)
{
    return !fsw_layer.is_stopping && !fsw_self->is_ending;
}

/* Waits on a live pipe of the caller's. A pipe that is deleted meanwhile can't be read. */
static uint32_t wait_for_message(uint32_t number, int32 TimeOut, struct fsw_message *message)
{
    const struct app *app = fsw_self->app;
    struct pipe *pipe = pipe_numbered(number);
    bool is_forever = TimeOut == CFE_SB_PEND_FOREVER;
    struct timespec until = fsw_after(is_forever ? 0 : (uint32_t)TimeOut);
    uint32_t status = FSW_SB_NO_MESSAGE;
    int woken = 0;
    if (!pipe)
        return FSW_SB_BAD_ARGUMENT;
    fall_asleep(pipe);
    while (status == FSW_SB_NO_MESSAGE && woken == 0 && is_patient()) {
        woken = is_forever ? pthread_cond_wait(&pipe->arrived, &fsw_layer.mutex)
                           : pthread_cond_timedwait(&pipe->arrived, &fsw_layer.mutex, &until);
        fsw_must(woken != 0 && woken != ETIMEDOUT);
        status = fsw_receive(&fsw_layer.core, app->number, number, message);
    }
    wake_up(pipe);
    fsw_end_if_asked();
    if (status == FSW_SB_NO_MESSAGE && !is_forever)
        return FSW_SB_TIME_OUT;
    return status == FSW_SUCCESS ? status : (uint32_t)CFE_SB_PIPE_RD_ERR;
}

/* Goes on with a receive that was refused, or found no message. */
FSW_SELDOM static CFE_Status_t receive_later(CFE_SB_Buffer_t **BufPtr, CFE_SB_PipeId_t PipeId,
                                             int32 TimeOut, uint32_t status)
{
    struct fsw_message message = {NULL, 0, 0};
    if (status == FSW_SB_NO_MESSAGE && TimeOut != CFE_SB_POLL)
        status = wait_for_message(PipeId, TimeOut, &message);
    if (status == FSW_SUCCESS)
        *BufPtr = (CFE_SB_Buffer_t *)(uintptr_t)message.at;
    if (status == FSW_SB_BAD_ARGUMENT)
        return fsw_leave_bus((struct fsw_asked){"ReceiveBuffer", CFE_SB_BAD_PIPEID_EID, 0}, status);
    return fsw_leave_with(status, CFE_SB_BAD_ARGUMENT);
}

CFE_Status_t CFE_SB_ReceiveBuffer(CFE_SB_Buffer_t **BufPtr, CFE_SB_PipeId_t PipeId, int32 TimeOut)
{
    struct fsw_message message;
    if (!BufPtr)
        return CFE_SB_BAD_ARGUMENT;
    *BufPtr = NULL;
    if (TimeOut < CFE_SB_PEND_FOREVER)
        return CFE_SB_BAD_ARGUMENT;
    const struct app *app = fsw_enter();
    if (!app)
        return CFE_SB_BAD_ARGUMENT;
    uint32_t status = fsw_receive(&fsw_layer.core, app->number, PipeId, &message);
    if (status != FSW_SUCCESS)
        return receive_later(BufPtr, PipeId, TimeOut, status);
    fsw_leave();
    /* cFE's type lets an application write there; it is not to. */
    *BufPtr = (CFE_SB_Buffer_t *)(uintptr_t)message.at;
    return CFE_SUCCESS;
}

/* ---- Buffers ---- */

/* What the core is given for what is no buffer: it refuses and counts that, and leaves it empty. */
static struct fsw_buffer no_buffer;

/* The application's buffer whose first byte this is; with null, its first empty place; or null. */
static struct fsw_buffer *buffer_at(const struct app *app, const void *at)
{
    struct fsw_buffer *buffer = fsw_layer.buffer + (app->number - 1) * fsw_layer.limits.buffers;
    for (uint32_t i = 0; i < fsw_layer.limits.buffers; i++)
        if (buffer[i].at == at)
            return &buffer[i];
    return NULL;
}

CFE_SB_Buffer_t *CFE_SB_AllocateMessageBuffer(size_t MsgSize)
{
    struct app *app = fsw_enter();
    if (!app)
        return NULL;
    /* If no place is left, none of the core's is. */
    struct fsw_buffer *buffer = buffer_at(app, NULL);
    uint32_t size = MsgSize > UINT32_MAX ? UINT32_MAX : (uint32_t)MsgSize;
    void *at = NULL;
    if (buffer && fsw_allocate_buffer(&fsw_layer.core, app->number, size, buffer) == FSW_SUCCESS)
        at = buffer->at;
    fsw_leave();
    return at;
}

/* Sends a command to a service from a buffer, of whose bytes nothing is left behind the send. */
FSW_SELDOM static CFE_Status_t transmit_command(const struct app *app, struct fsw_buffer *buffer)
{
    struct fsw_command command;
    struct fsw_sent sent;
    keep_command(&command, (const CFE_MSG_Message_t *)buffer->at);
    uint32_t status = fsw_transmit_buffer(&fsw_layer.core, app->number, buffer, false, &sent);
    if (status != FSW_SUCCESS)
        return leave_send(&command.message, status);
    fsw_wake(&sent);
    return leave_to_service(&sent, &command.message);
}

CFE_Status_t CFE_SB_TransmitBuffer(CFE_SB_Buffer_t *BufPtr, bool IncrementSequenceCount)
{
    struct fsw_sent sent;
    if (!BufPtr)
        return CFE_SB_BAD_ARGUMENT;
    const struct app *app = fsw_enter();
    if (!app)
        return CFE_SB_BAD_ARGUMENT;
    struct fsw_buffer *buffer = buffer_at(app, BufPtr);
    bool counts = buffer && is_counted(&BufPtr->Msg, IncrementSequenceCount);
    if (buffer && is_for_service(&BufPtr->Msg))
        return transmit_command(app, buffer);
    uint32_t status = fsw_transmit_buffer(&fsw_layer.core, app->number,
                                          buffer ? buffer : &no_buffer, counts, &sent);
    if (status == FSW_SUCCESS)
        fsw_wake(&sent);
    /* What was sent is the bus's. */
    return leave_send(status != FSW_SUCCESS && buffer ? &BufPtr->Msg : NULL, status);
}

CFE_Status_t CFE_SB_ReleaseMessageBuffer(CFE_SB_Buffer_t *BufPtr)
{
    if (!BufPtr)
        return CFE_SB_BAD_ARGUMENT;
    const struct app *app = fsw_enter();
    if (!app)
        return CFE_SB_BAD_ARGUMENT;
    struct fsw_buffer *buffer = buffer_at(app, BufPtr);
    uint32_t status =
        fsw_release_buffer(&fsw_layer.core, app->number, buffer ? buffer : &no_buffer);
    return fsw_leave_with(status, CFE_SB_BAD_ARGUMENT);
}

void fsw_end_buffers(struct app *app)
{
    struct fsw_buffer *buffer = fsw_layer.buffer + (app->number - 1) * fsw_layer.limits.buffers;
    for (uint32_t i = 0; i < fsw_layer.limits.buffers; i++)
        if (buffer[i].is_out)
            fsw_release_buffer(&fsw_layer.core, app->number, &buffer[i]);
}
