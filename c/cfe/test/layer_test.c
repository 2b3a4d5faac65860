/*
 * layer_test.c: every call of the layer, with its refusals, by applications of one run each. Each
 * test is one fsw_run; its first application makes the calls.
 *
 *     layer_test FOLDER      where table files are written
 */
#include "cfe_msgids.h"
#include "cfe_sb_events.h"
#include "cfe_sb_msg.h"
#include "check.h"
#include "cfe.h"
#include "layer.h"

#include <stdatomic.h>
#include <string.h>
#include <unistd.h>

enum { TLM_ID = 0x0881, OTHER_ID = 0x0882, CMD_ID = 0x1881 };

static const char *folder = ".";

typedef struct {
    CFE_MSG_TelemetryHeader_t header;
    uint32 value;
} tlm_t;

typedef struct {
    CFE_MSG_CommandHeader_t header;
    uint32 value;
} cmd_t;

static tlm_t tlm_of(CFE_SB_MsgId_t id, uint32 value)
{
    tlm_t tlm;
    CHECK_STATUS(CFE_MSG_Init(CFE_MSG_PTR(tlm.header), id, sizeof tlm), CFE_SUCCESS);
    tlm.value = value;
    return tlm;
}

static CFE_Status_t send(CFE_SB_MsgId_t id, uint32 value)
{
    tlm_t tlm = tlm_of(id, value);
    return CFE_SB_TransmitMsg(CFE_MSG_PTR(tlm.header), true);
}

static uint32 value_in(const CFE_SB_Buffer_t *buffer)
{
    tlm_t tlm;
    memcpy(&tlm, buffer, sizeof tlm);
    return tlm.value;
}

static CFE_MSG_SequenceCount_t count_in(const CFE_SB_Buffer_t *buffer)
{
    CFE_MSG_SequenceCount_t count = 0;
    CHECK_STATUS(CFE_MSG_GetSequenceCount(&buffer->Msg, &count), CFE_SUCCESS);
    return count;
}

static CFE_SB_PipeId_t pipe_for(const char *name, CFE_SB_MsgId_t id)
{
    CFE_SB_PipeId_t pipe;
    CHECK_STATUS(CFE_SB_CreatePipe(&pipe, 8, name), CFE_SUCCESS);
    CHECK_STATUS(CFE_SB_SubscribeEx(id, pipe, CFE_SB_DEFAULT_QOS, 8), CFE_SUCCESS);
    return pipe;
}

static const char *path_of(const char *name)
{
    static char path[OS_MAX_PATH_LEN];
    CHECK(snprintf(path, sizeof path, "%s/%s", folder, name) < (int)sizeof path);
    return path;
}

/* ---- Messages ---- */

static void check_fields(void)
{
    CFE_MSG_Size_t size;
    CFE_SB_MsgId_t id;
    CFE_MSG_Type_t type;
    CFE_MSG_ApId_t apid;
    CFE_MSG_HeaderVersion_t version;
    CFE_MSG_SegmentationFlag_t flag;
    CFE_MSG_SequenceCount_t count;
    bool is;
    tlm_t tlm = tlm_of(TLM_ID, 1);
    CFE_MSG_Message_t *msg = CFE_MSG_PTR(tlm.header);
    CHECK_STATUS(CFE_MSG_GetSize(msg, &size), CFE_SUCCESS);
    CHECK(size == sizeof tlm);
    CHECK_STATUS(CFE_MSG_GetMsgId(msg, &id), CFE_SUCCESS);
    CHECK(CFE_SB_MsgId_Equal(id, CFE_SB_ValueToMsgId(TLM_ID)) && CFE_SB_MsgIdToValue(id) == TLM_ID);
    CHECK_STATUS(CFE_MSG_GetType(msg, &type), CFE_SUCCESS);
    CHECK(type == CFE_MSG_Type_Tlm);
    CHECK_STATUS(CFE_MSG_GetApId(msg, &apid), CFE_SUCCESS);
    CHECK(apid == 0x81);
    CHECK_STATUS(CFE_MSG_GetHeaderVersion(msg, &version), CFE_SUCCESS);
    CHECK(version == 0);
    CHECK_STATUS(CFE_MSG_GetHasSecondaryHeader(msg, &is), CFE_SUCCESS);
    CHECK(is);
    CHECK_STATUS(CFE_MSG_GetSegmentationFlag(msg, &flag), CFE_SUCCESS);
    CHECK(flag == CFE_MSG_SegFlag_Unsegmented);
    CHECK_STATUS(CFE_MSG_SetSegmentationFlag(msg, CFE_MSG_SegFlag_First), CFE_SUCCESS);
    CHECK_STATUS(CFE_MSG_GetSegmentationFlag(msg, &flag), CFE_SUCCESS);
    CHECK(flag == CFE_MSG_SegFlag_First);
    CHECK_STATUS(CFE_MSG_SetSegmentationFlag(msg, CFE_MSG_SegFlag_Invalid), CFE_MSG_BAD_ARGUMENT);
    CHECK_STATUS(CFE_MSG_SetSequenceCount(msg, 16383), CFE_SUCCESS);
    CHECK_STATUS(CFE_MSG_SetSequenceCount(msg, 16384), CFE_MSG_BAD_ARGUMENT);
    CHECK_STATUS(CFE_MSG_GetSequenceCount(msg, &count), CFE_SUCCESS);
    CHECK(count == 16383 && CFE_MSG_GetNextSequenceCount(count) == 0);
    CHECK_STATUS(CFE_MSG_GetSegmentationFlag(msg, &flag), CFE_SUCCESS);
    CHECK(flag == CFE_MSG_SegFlag_First);
    CHECK_STATUS(CFE_MSG_SetSize(msg, 7), CFE_SUCCESS);
    CHECK_STATUS(CFE_MSG_SetSize(msg, 6), CFE_MSG_BAD_ARGUMENT);
    CHECK_STATUS(CFE_MSG_SetSize(msg, 65542), CFE_SUCCESS);
    CHECK_STATUS(CFE_MSG_SetSize(msg, 65543), CFE_MSG_BAD_ARGUMENT);
    CHECK_STATUS(CFE_MSG_GetSize(msg, &size), CFE_SUCCESS);
    CHECK(size == 65542);
    CHECK_STATUS(CFE_MSG_SetMsgId(msg, 0x1fff), CFE_SUCCESS);
    CHECK_STATUS(CFE_MSG_SetMsgId(msg, 0x2000), CFE_MSG_BAD_ARGUMENT);
    CHECK_STATUS(CFE_MSG_SetMsgId(msg, 0), CFE_MSG_BAD_ARGUMENT);
    CHECK_STATUS(CFE_MSG_SetApId(msg, 0x123), CFE_SUCCESS);
    CHECK_STATUS(CFE_MSG_SetApId(msg, 0x800), CFE_MSG_BAD_ARGUMENT);
    CHECK_STATUS(CFE_MSG_GetMsgId(msg, &id), CFE_SUCCESS);
    CHECK(id == 0x1923);
    CHECK_STATUS(CFE_MSG_SetType(msg, CFE_MSG_Type_Tlm), CFE_SUCCESS);
    CHECK_STATUS(CFE_MSG_SetType(msg, CFE_MSG_Type_Invalid), CFE_MSG_BAD_ARGUMENT);
    CHECK_STATUS(CFE_MSG_SetHasSecondaryHeader(msg, false), CFE_SUCCESS);
    CHECK_STATUS(CFE_MSG_GetMsgId(msg, &id), CFE_SUCCESS);
    CHECK(id == 0x0123);
    CHECK_STATUS(CFE_MSG_GetTypeFromMsgId(CMD_ID, &type), CFE_SUCCESS);
    CHECK(type == CFE_MSG_Type_Cmd);
    CHECK_STATUS(CFE_MSG_GetTypeFromMsgId(CFE_SB_INVALID_MSG_ID, &type), CFE_MSG_BAD_ARGUMENT);
    CHECK(!CFE_SB_IsValidMsgId(CFE_SB_INVALID_MSG_ID) && !CFE_SB_IsValidMsgId(0));
    CHECK_STATUS(CFE_MSG_Init(msg, TLM_ID, 6), CFE_MSG_BAD_ARGUMENT);
    CHECK_STATUS(CFE_MSG_Init(NULL, TLM_ID, 16), CFE_MSG_BAD_ARGUMENT);
    CHECK_STATUS(CFE_MSG_Init(msg, 0x2000, 16), CFE_MSG_BAD_ARGUMENT);
}

static void check_secondary_headers(void)
{
    tlm_t tlm = tlm_of(TLM_ID, 0);
    cmd_t cmd;
    CFE_MSG_FcnCode_t code;
    CFE_TIME_SysTime_t time = {0x01020304, 0x05060000}, read_back;
    bool is_valid;
    CFE_MSG_Message_t *command = CFE_MSG_PTR(cmd.header), *telemetry = CFE_MSG_PTR(tlm.header);
    CHECK_STATUS(CFE_MSG_Init(command, CMD_ID, sizeof cmd), CFE_SUCCESS);
    CHECK_STATUS(CFE_MSG_SetFcnCode(command, 127), CFE_SUCCESS);
    CHECK_STATUS(CFE_MSG_SetFcnCode(command, 128), CFE_MSG_BAD_ARGUMENT);
    CHECK_STATUS(CFE_MSG_SetFcnCode(command, 256), CFE_MSG_BAD_ARGUMENT);
    CHECK_STATUS(CFE_MSG_GetFcnCode(command, &code), CFE_SUCCESS);
    CHECK(code == 127);
    CHECK_STATUS(CFE_MSG_GetFcnCode(telemetry, &code), CFE_MSG_WRONG_MSG_TYPE);
    CHECK(code == 0);
    CHECK_STATUS(CFE_MSG_SetFcnCode(telemetry, 1), CFE_MSG_WRONG_MSG_TYPE);
    CHECK_STATUS(CFE_MSG_ValidateChecksum(command, &is_valid), CFE_SUCCESS);
    CHECK(!is_valid);
    CHECK_STATUS(CFE_MSG_GenerateChecksum(command), CFE_SUCCESS);
    CHECK_STATUS(CFE_MSG_ValidateChecksum(command, &is_valid), CFE_SUCCESS);
    CHECK(is_valid);
    CHECK_STATUS(CFE_MSG_GenerateChecksum(telemetry), CFE_MSG_WRONG_MSG_TYPE);
    CHECK_STATUS(CFE_MSG_SetMsgTime(telemetry, time), CFE_SUCCESS);
    CHECK_STATUS(CFE_MSG_GetMsgTime(telemetry, &read_back), CFE_SUCCESS);
    CHECK(read_back.Seconds == time.Seconds && read_back.Subseconds == time.Subseconds);
    CHECK(memcmp(tlm.header.Sec.Time, "\1\2\3\4\5\6", 6) == 0);
    CHECK_STATUS(CFE_MSG_SetMsgTime(command, time), CFE_MSG_WRONG_MSG_TYPE);
    CHECK(CFE_SB_GetUserData(telemetry) == (void *)&tlm.value);
    CHECK(CFE_SB_GetUserDataLength(telemetry) == sizeof tlm.value);
    CHECK(CFE_SB_GetUserData(command) == (void *)&cmd.value);
    CHECK(CFE_SB_GetUserDataLength(command) == sizeof cmd.value);
    CHECK(sizeof(CFE_MSG_TelemetryHeader_t) == 16 && sizeof(CFE_MSG_CommandHeader_t) == 8);
    CHECK(sizeof(CFE_EVS_LongEventTlm_t) == 172);
}

static void check_strings(void)
{
    char text[5], field[6];
    CHECK(CFE_SB_MessageStringSet(field, "four", sizeof field, 5) == 4);
    CHECK(memcmp(field, "four\0\0", 6) == 0);
    CHECK(CFE_SB_MessageStringSet(field, "longer text", sizeof field, 12) == 6);
    CHECK(memcmp(field, "longer", 6) == 0);
    CHECK(CFE_SB_MessageStringGet(text, field, NULL, sizeof text, sizeof field) == 4);
    CHECK(strcmp(text, "long") == 0);
    CHECK(CFE_SB_MessageStringGet(text, field, NULL, sizeof text, 3) == 3);
    CHECK(strcmp(text, "lon") == 0);
    CHECK(CFE_SB_MessageStringGet(text, "", "default", sizeof text, 6) == 4);
    CHECK(strcmp(text, "defa") == 0);
    CHECK(CFE_SB_MessageStringGet(text, NULL, NULL, sizeof text, 6) == 0 && !text[0]);
    CHECK_STATUS(CFE_SB_MessageStringGet(text, field, NULL, 0, 6), CFE_SB_BAD_ARGUMENT);
    CHECK_STATUS(CFE_SB_MessageStringSet(field, NULL, 6, 6), CFE_SB_BAD_ARGUMENT);
}

static void test_messages(void)
{
    check_strings();
    check_fields();
    check_secondary_headers();
}

/* ---- Software Bus ---- */

static void check_pipes(void)
{
    CFE_SB_PipeId_t pipe, other;
    char name[OS_MAX_API_NAME];
    uint8 options;
    CHECK_STATUS(CFE_SB_CreatePipe(NULL, 4, "A"), CFE_SB_BAD_ARGUMENT);
    CHECK_STATUS(CFE_SB_CreatePipe(&pipe, 4, NULL), CFE_SB_BAD_ARGUMENT);
    CHECK_STATUS(CFE_SB_CreatePipe(&pipe, 0, "A"), CFE_SB_BAD_ARGUMENT);
    CHECK_STATUS(CFE_SB_CreatePipe(&pipe, 4, ""), CFE_SB_BAD_ARGUMENT);
    CHECK_STATUS(CFE_SB_CreatePipe(&pipe, 4, "TWENTY_BYTES_OF_NAME"), CFE_SB_BAD_ARGUMENT);
    CHECK(pipe == CFE_SB_INVALID_PIPE);
    CHECK_STATUS(CFE_SB_CreatePipe(&pipe, 4, "A"), CFE_SUCCESS);
    CHECK_STATUS(CFE_SB_CreatePipe(&other, 4, "A"), CFE_SB_PIPE_CR_ERR);
    CHECK_STATUS(CFE_SB_CreatePipe(&other, 4, "NINETEEN_BYTES_NAME"), CFE_SUCCESS);
    CHECK_STATUS(CFE_SB_GetPipeName(name, sizeof name, other), CFE_SUCCESS);
    CHECK(strcmp(name, "NINETEEN_BYTES_NAME") == 0);
    CHECK_STATUS(CFE_SB_GetPipeName(name, 4, other), CFE_SUCCESS);
    CHECK(strcmp(name, "NIN") == 0);
    CHECK_STATUS(CFE_SB_GetPipeName(name, sizeof name, 99), CFE_SB_BAD_ARGUMENT);
    CHECK(name[0] == '\0');
    CHECK_STATUS(CFE_SB_GetPipeName(name, 0, other), CFE_SB_BAD_ARGUMENT);
    CFE_SB_PipeId_t found;
    CHECK_STATUS(CFE_SB_GetPipeIdByName(&found, "A"), CFE_SUCCESS);
    CHECK(found == pipe);
    CHECK_STATUS(CFE_SB_GetPipeIdByName(&found, "B"), CFE_SB_BAD_ARGUMENT);
    CHECK_STATUS(CFE_SB_GetPipeIdByName(NULL, "A"), CFE_SB_BAD_ARGUMENT);
    CHECK_STATUS(CFE_SB_SetPipeOpts(pipe, CFE_SB_PIPEOPTS_IGNOREMINE), CFE_SUCCESS);
    CHECK_STATUS(CFE_SB_GetPipeOpts(pipe, &options), CFE_SUCCESS);
    CHECK(options == CFE_SB_PIPEOPTS_IGNOREMINE);
    CHECK_STATUS(CFE_SB_SetPipeOpts(pipe, 2), CFE_SB_BAD_ARGUMENT);
    CHECK_STATUS(CFE_SB_GetPipeOpts(pipe, NULL), CFE_SB_BAD_ARGUMENT);
    CHECK_STATUS(CFE_SB_DeletePipe(other), CFE_SUCCESS);
    CHECK_STATUS(CFE_SB_DeletePipe(other), CFE_SB_BAD_ARGUMENT);
    CHECK_STATUS(CFE_SB_DeletePipe(pipe), CFE_SUCCESS);
}

static void check_messages(void)
{
    CFE_SB_Buffer_t *buffer;
    CFE_SB_PipeId_t pipe = pipe_for("M", TLM_ID);
    CHECK_STATUS(CFE_SB_Subscribe(TLM_ID, pipe), CFE_SUCCESS);
    CHECK_STATUS(CFE_SB_Subscribe(0, pipe), CFE_SB_BAD_ARGUMENT);
    CHECK_STATUS(CFE_SB_Subscribe(CFE_SB_INVALID_MSG_ID, pipe), CFE_SB_BAD_ARGUMENT);
    CHECK_STATUS(CFE_SB_Subscribe(TLM_ID, 99), CFE_SB_BAD_ARGUMENT);
    CHECK_STATUS(CFE_SB_SubscribeLocal(OTHER_ID, pipe, 1), CFE_SUCCESS);
    CHECK_STATUS(CFE_SB_ReceiveBuffer(NULL, pipe, CFE_SB_POLL), CFE_SB_BAD_ARGUMENT);
    CHECK_STATUS(CFE_SB_ReceiveBuffer(&buffer, 99, CFE_SB_POLL), CFE_SB_BAD_ARGUMENT);
    CHECK_STATUS(CFE_SB_ReceiveBuffer(&buffer, pipe, -2), CFE_SB_BAD_ARGUMENT);
    CHECK_STATUS(CFE_SB_ReceiveBuffer(&buffer, pipe, CFE_SB_POLL), CFE_SB_NO_MESSAGE);
    CHECK_STATUS(CFE_SB_ReceiveBuffer(&buffer, pipe, 20), CFE_SB_TIME_OUT);
    CHECK(!buffer);
    CHECK_STATUS(CFE_SB_TransmitMsg(NULL, true), CFE_SB_BAD_ARGUMENT);
    for (uint32 i = 1; i <= 3; i++)
        CHECK_STATUS(send(TLM_ID, i), CFE_SUCCESS);
    for (uint32 i = 1; i <= 3; i++) {
        CHECK_STATUS(CFE_SB_ReceiveBuffer(&buffer, pipe, CFE_SB_PEND_FOREVER), CFE_SUCCESS);
        CHECK(value_in(buffer) == i && count_in(buffer) == i);
    }
    /* A limit of one message for the other id; a command keeps its count. */
    CHECK_STATUS(send(OTHER_ID, 1), CFE_SUCCESS);
    CHECK_STATUS(send(OTHER_ID, 2), CFE_SUCCESS);
    CHECK_STATUS(CFE_SB_ReceiveBuffer(&buffer, pipe, 1000), CFE_SUCCESS);
    CHECK(value_in(buffer) == 1);
    CHECK_STATUS(CFE_SB_ReceiveBuffer(&buffer, pipe, CFE_SB_POLL), CFE_SB_NO_MESSAGE);
    CHECK_STATUS(CFE_SB_Subscribe(CMD_ID, pipe), CFE_SUCCESS);
    cmd_t cmd;
    CHECK_STATUS(CFE_MSG_Init(CFE_MSG_PTR(cmd.header), CMD_ID, sizeof cmd), CFE_SUCCESS);
    CHECK_STATUS(CFE_MSG_SetSequenceCount(CFE_MSG_PTR(cmd.header), 77), CFE_SUCCESS);
    CHECK_STATUS(CFE_SB_TransmitMsg(CFE_MSG_PTR(cmd.header), true), CFE_SUCCESS);
    CHECK_STATUS(CFE_SB_ReceiveBuffer(&buffer, pipe, CFE_SB_POLL), CFE_SUCCESS);
    CHECK(count_in(buffer) == 77);
    CHECK_STATUS(CFE_SB_Unsubscribe(CMD_ID, pipe), CFE_SUCCESS);
    CHECK_STATUS(CFE_SB_UnsubscribeLocal(OTHER_ID, pipe), CFE_SUCCESS);
    CHECK_STATUS(CFE_SB_TransmitMsg(CFE_MSG_PTR(cmd.header), true), CFE_SUCCESS);
    CHECK_STATUS(CFE_SB_ReceiveBuffer(&buffer, pipe, CFE_SB_POLL), CFE_SB_NO_MESSAGE);
    CHECK_STATUS(CFE_SB_DeletePipe(pipe), CFE_SUCCESS);
    tlm_t tlm = tlm_of(TLM_ID, 0);
    CHECK_STATUS(CFE_MSG_SetSize(CFE_MSG_PTR(tlm.header), 65542), CFE_SUCCESS);
    static union {
        CFE_MSG_Message_t Msg;
        uint8 bytes[65542];
    } large;
    memcpy(&large, &tlm, sizeof tlm);
    CHECK_STATUS(CFE_SB_TransmitMsg(&large.Msg, true), CFE_SB_MSG_TOO_BIG);
}

static void check_buffers(void)
{
    CFE_SB_Buffer_t *buffer, *received;
    CFE_SB_PipeId_t pipe = pipe_for("B", TLM_ID);
    uint8 other[64] = {0};
    CHECK(!CFE_SB_AllocateMessageBuffer(6));
    CHECK(!CFE_SB_AllocateMessageBuffer(65543) && !CFE_SB_AllocateMessageBuffer(SIZE_MAX));
    buffer = CFE_SB_AllocateMessageBuffer(sizeof(tlm_t));
    CHECK(buffer && (uintptr_t)buffer % 8 == 0);
    tlm_t *tlm = (tlm_t *)(void *)buffer;
    CHECK(tlm->value == 0);
    CHECK_STATUS(CFE_SB_TransmitBuffer(buffer, true), CFE_SB_BAD_ARGUMENT);
    CHECK_STATUS(CFE_MSG_Init(CFE_MSG_PTR(tlm->header), TLM_ID, sizeof *tlm), CFE_SUCCESS);
    tlm->value = 42;
    CFE_SB_TimeStampMsg(CFE_MSG_PTR(tlm->header));
    CHECK_STATUS(CFE_SB_TransmitBuffer(buffer, true), CFE_SUCCESS);
    CHECK_STATUS(CFE_SB_TransmitBuffer(buffer, true), CFE_SB_BUFFER_INVALID);
    CHECK_STATUS(CFE_SB_ReleaseMessageBuffer(buffer), CFE_SB_BUFFER_INVALID);
    CHECK_STATUS(CFE_SB_ReceiveBuffer(&received, pipe, CFE_SB_POLL), CFE_SUCCESS);
    CHECK(received == buffer && value_in(received) == 42);
    CHECK_STATUS(CFE_SB_TransmitBuffer((CFE_SB_Buffer_t *)(void *)other, true),
                 CFE_SB_BUFFER_INVALID);
    CHECK_STATUS(CFE_SB_TransmitBuffer(NULL, true), CFE_SB_BAD_ARGUMENT);
    CHECK_STATUS(CFE_SB_ReleaseMessageBuffer(NULL), CFE_SB_BAD_ARGUMENT);
    /* As many as the limits say, then none. */
    CFE_SB_Buffer_t *all[16];
    for (size_t i = 0; i < 16; i++)
        CHECK((all[i] = CFE_SB_AllocateMessageBuffer(16)));
    CHECK(!CFE_SB_AllocateMessageBuffer(16));
    for (size_t i = 0; i < 15; i++)
        CHECK_STATUS(CFE_SB_ReleaseMessageBuffer(all[i]), CFE_SUCCESS);
    /* The last one is let go at the application's end. */
}

static void test_bus(void)
{
    check_pipes();
    check_messages();
    check_buffers();
}

/* ---- Housekeeping ---- */

/* Each counter gets a number of its own. */
static void count_some(CFE_SB_PipeId_t pipe)
{
    CFE_SB_PipeId_t none, full;
    CFE_SB_Buffer_t *buffer;
    tlm_t bad = tlm_of(TLM_ID, 0);
    bad.header.Msg.Byte[0] = 0xff;
    CHECK_STATUS(CFE_SB_CreatePipe(&full, 1, "FULL"), CFE_SUCCESS);
    CHECK_STATUS(CFE_SB_SubscribeEx(TLM_ID, full, CFE_SB_DEFAULT_QOS, 64), CFE_SUCCESS);
    CHECK_STATUS(CFE_SB_SubscribeEx(OTHER_ID, pipe, CFE_SB_DEFAULT_QOS, 1), CFE_SUCCESS);
    for (uint32 i = 0; i < 11; i++) {
        CHECK_STATUS(i < 2 ? send(0x1234, i) : CFE_SUCCESS, CFE_SUCCESS);
        CHECK_STATUS(i < 3 ? CFE_SB_TransmitMsg(CFE_MSG_PTR(bad.header), true)
                           : CFE_SB_BAD_ARGUMENT,
                     CFE_SB_BAD_ARGUMENT);
        CHECK_STATUS(i < 4 ? CFE_SB_ReceiveBuffer(&buffer, 99, CFE_SB_POLL) : CFE_SB_BAD_ARGUMENT,
                     CFE_SB_BAD_ARGUMENT);
        CHECK_STATUS(i < 5 ? CFE_SB_CreatePipe(&none, 0, "NONE") : CFE_SB_BAD_ARGUMENT,
                     CFE_SB_BAD_ARGUMENT);
        CHECK_STATUS(i < 6 ? CFE_SB_Subscribe(0, pipe) : CFE_SB_BAD_ARGUMENT, CFE_SB_BAD_ARGUMENT);
        CHECK_STATUS(i < 7 ? CFE_SB_SetPipeOpts(99, 0) : CFE_SB_BAD_ARGUMENT, CFE_SB_BAD_ARGUMENT);
        CHECK_STATUS(i < 8 ? CFE_SB_Subscribe(OTHER_ID, pipe) : CFE_SUCCESS, CFE_SUCCESS);
        CHECK_STATUS(i < 9 ? CFE_SB_GetPipeIdByName(&none, "NONE") : CFE_SB_BAD_ARGUMENT,
                     CFE_SB_BAD_ARGUMENT);
        CHECK_STATUS(send(OTHER_ID, i), CFE_SUCCESS);
        CHECK_STATUS(send(TLM_ID, i), CFE_SUCCESS);
    }
    CHECK_STATUS(send(TLM_ID, 11), CFE_SUCCESS);
}

static void check_counters(const CFE_SB_HousekeepingTlm_Payload_t *counted)
{
    CHECK(counted->NoSubscribersCounter == 2 && counted->MsgSendErrorCounter == 3);
    CHECK(counted->MsgReceiveErrorCounter == 4 && counted->CreatePipeErrorCounter == 5);
    CHECK(counted->SubscribeErrorCounter == 6 && counted->PipeOptsErrorCounter == 7);
    CHECK(counted->DuplicateSubscriptionsCounter == 8 && counted->GetPipeIdByNameErrorCounter == 9);
    CHECK(counted->MsgLimitErrorCounter == 10 && counted->PipeOverflowErrorCounter == 11);
    CHECK(counted->CommandCounter == 0 && counted->CommandErrorCounter == 0);
    CHECK(counted->MemInUse > 0 && counted->MemInUse % 8 == 0);
    CHECK(counted->UnmarkedMem > 0 && counted->UnmarkedMem < 524288 - counted->MemInUse);
}

/* A request is answered, as a message and as a buffer, and is neither counted nor an event. */
static void test_housekeeping(void)
{
    CFE_SB_HousekeepingTlm_t tlm;
    CFE_SB_Buffer_t *buffer, *request;
    CFE_SB_PipeId_t events, pipe = pipe_for("HK", CFE_SB_HK_TLM_MID);
    cmd_t cmd;
    CHECK_STATUS(CFE_SB_CreatePipe(&events, 64, "EVENTS"), CFE_SUCCESS);
    CHECK_STATUS(CFE_SB_SubscribeEx(CFE_EVS_LONG_EVENT_MSG_MID, events, CFE_SB_DEFAULT_QOS, 64),
                 CFE_SUCCESS);
    count_some(pipe);
    while (CFE_SB_ReceiveBuffer(&buffer, events, CFE_SB_POLL) == CFE_SUCCESS)
        ;
    CHECK_STATUS(CFE_SB_ReceiveBuffer(&buffer, pipe, CFE_SB_POLL), CFE_SUCCESS);
    CHECK_STATUS(CFE_MSG_Init(CFE_MSG_PTR(cmd.header), CFE_SB_SEND_HK_MID, sizeof cmd.header),
                 CFE_SUCCESS);
    CHECK_STATUS(CFE_SB_TransmitMsg(CFE_MSG_PTR(cmd.header), true), CFE_SUCCESS);
    request = CFE_SB_AllocateMessageBuffer(sizeof cmd.header);
    CHECK(request);
    memcpy(request, &cmd.header, sizeof cmd.header);
    CHECK_STATUS(CFE_SB_TransmitBuffer(request, true), CFE_SUCCESS);
    for (uint32 i = 1; i <= 2; i++) {
        CHECK_STATUS(CFE_SB_ReceiveBuffer(&buffer, pipe, CFE_SB_POLL), CFE_SUCCESS);
        memcpy(&tlm, buffer, sizeof tlm);
        CHECK(CFE_SB_GetUserDataLength(&buffer->Msg) == sizeof tlm.Payload);
        CHECK(count_in(buffer) == i);
        check_counters(&tlm.Payload);
    }
    CHECK_STATUS(CFE_SB_ReceiveBuffer(&buffer, events, CFE_SB_POLL), CFE_SB_NO_MESSAGE);
}

/* ---- Waits ---- */

static atomic_int phase;

static void wait_for_phase(int number)
{
    while (atomic_load(&phase) < number)
        OS_TaskDelay(1);
}

static void test_waits(void)
{
    CFE_SB_Buffer_t *buffer;
    CFE_SB_PipeId_t pipe = pipe_for("WAITS", TLM_ID);
    atomic_store(&phase, 1);
    for (uint32 i = 1; i <= 100; i++) {
        int32 wait = i % 2 ? CFE_SB_PEND_FOREVER : 10000;
        CHECK_STATUS(CFE_SB_ReceiveBuffer(&buffer, pipe, wait), CFE_SUCCESS);
        CHECK(value_in(buffer) == i);
        CHECK_STATUS(send(OTHER_ID, i), CFE_SUCCESS);
    }
    CHECK_STATUS(CFE_SB_ReceiveBuffer(&buffer, pipe, 5), CFE_SB_TIME_OUT);
}

static void answer_waits(void)
{
    CFE_SB_Buffer_t *buffer;
    CFE_SB_PipeId_t pipe = pipe_for("ANSWERS", OTHER_ID);
    wait_for_phase(1);
    for (uint32 i = 1; i <= 100; i++) {
        CHECK_STATUS(send(TLM_ID, i), CFE_SUCCESS);
        CHECK_STATUS(CFE_SB_ReceiveBuffer(&buffer, pipe, CFE_SB_PEND_FOREVER), CFE_SUCCESS);
        CHECK(value_in(buffer) == i);
    }
}

/* ---- Tasks ---- */

static CFE_SB_PipeId_t shared_pipe;
static atomic_int ended;

static void read_until_deleted(void)
{
    CFE_SB_Buffer_t *buffer;
    CHECK_STATUS(CFE_SB_ReceiveBuffer(&buffer, shared_pipe, CFE_SB_PEND_FOREVER),
                 CFE_SB_PIPE_RD_ERR);
    atomic_fetch_add(&ended, 1);
    CFE_ES_ExitChildTask();
    CHECK(false);
}

static void delay_for_ever(void)
{
    CFE_ES_AppId_t app;
    CFE_ES_TaskId_t task;
    CHECK_STATUS(CFE_ES_GetAppID(&app), CFE_SUCCESS);
    CHECK(app == 1);
    CHECK_STATUS(CFE_ES_CreateChildTask(&task, "C", delay_for_ever, NULL, 0, 0, 0),
                 CFE_ES_ERR_CHILD_TASK_CREATE);
    atomic_fetch_add(&ended, 1);
    for (;;)
        OS_TaskDelay(100000);
}

static void wait_for_ended(int number)
{
    while (atomic_load(&ended) < number)
        OS_TaskDelay(1);
}

/* Waits until a task sleeps on a pipe. */
static void wait_for_sleeper(void)
{
    bool is_asleep = false;
    while (!is_asleep) {
        OS_TaskDelay(1);
        CHECK(fsw_enter());
        is_asleep = fsw_layer.asleep;
        fsw_leave();
    }
}

static void test_tasks(void)
{
    CFE_ES_TaskId_t task, self;
    CFE_ES_AppId_t app;
    char name[OS_MAX_API_NAME];
    atomic_store(&ended, 0);
    CHECK_STATUS(CFE_ES_GetAppID(NULL), CFE_ES_BAD_ARGUMENT);
    CHECK_STATUS(CFE_ES_GetAppIDByName(&app, "FIRST"), CFE_SUCCESS);
    CHECK(app == 1);
    CHECK_STATUS(CFE_ES_GetAppIDByName(&app, "NOBODY"), CFE_ES_ERR_NAME_NOT_FOUND);
    CHECK_STATUS(CFE_ES_GetAppName(name, 1, sizeof name), CFE_SUCCESS);
    CHECK(strcmp(name, "FIRST") == 0);
    CHECK_STATUS(CFE_ES_GetAppName(name, 2, sizeof name), CFE_ES_ERR_RESOURCEID_NOT_VALID);
    shared_pipe = pipe_for("SHARED", TLM_ID);
    CHECK_STATUS(CFE_ES_CreateChildTask(NULL, "C", read_until_deleted, NULL, 0, 0, 0),
                 CFE_ES_BAD_ARGUMENT);
    CHECK_STATUS(CFE_ES_CreateChildTask(&task, "C", read_until_deleted, CFE_ES_TASK_STACK_ALLOCATE,
                                        8192, 100, 0),
                 CFE_SUCCESS);
    wait_for_sleeper();
    CHECK_STATUS(CFE_SB_DeletePipe(shared_pipe), CFE_SUCCESS);
    wait_for_ended(1);
    CHECK_STATUS(CFE_ES_CreateChildTask(&task, "D", delay_for_ever, NULL, 0, 0, 0), CFE_SUCCESS);
    wait_for_ended(2);
    CHECK_STATUS(CFE_ES_GetTaskID(&self), CFE_SUCCESS);
    CHECK(self != task);
    CHECK_STATUS(CFE_ES_DeleteChildTask(self), CFE_ES_ERR_CHILD_TASK_DELETE_MAIN_TASK);
    CHECK_STATUS(CFE_ES_DeleteChildTask(99), CFE_ES_ERR_RESOURCEID_NOT_VALID);
    CHECK_STATUS(CFE_ES_DeleteChildTask(task), CFE_SUCCESS);
    /* This one ends with the application. */
    CHECK_STATUS(CFE_ES_CreateChildTask(&task, "E", delay_for_ever, NULL, 0, 0, 0), CFE_SUCCESS);
    wait_for_ended(3);
    CFE_ES_ExitApp(CFE_ES_RunStatus_APP_EXIT);
    CHECK(false);
}

static void check_mutexes(void)
{
    osal_id_t id, other;
    CHECK(OS_MutSemCreate(&id, "MUTEX", 0) == OS_SUCCESS && OS_ObjectIdDefined(id));
    CHECK(OS_MutSemCreate(&other, "MUTEX", 0) == OS_ERR_NAME_TAKEN);
    CHECK(OS_MutSemCreate(NULL, "M", 0) == OS_INVALID_POINTER);
    CHECK(OS_MutSemCreate(&other, "TWENTY_BYTES_OF_NAME", 0) == OS_ERR_NAME_TOO_LONG);
    CHECK(OS_MutSemGetIdByName(&other, "MUTEX") == OS_SUCCESS && OS_ObjectIdEqual(id, other));
    CHECK(OS_MutSemGetIdByName(&other, "NONE") == OS_ERR_NAME_NOT_FOUND);
    CHECK(OS_MutSemTake(id) == OS_SUCCESS && OS_MutSemTake(id) == OS_SUCCESS);
    CHECK(OS_MutSemGive(id) == OS_SUCCESS && OS_MutSemGive(id) == OS_SUCCESS);
    CHECK(OS_MutSemTake(0) == OS_ERR_INVALID_ID && OS_MutSemTake(99) == OS_ERR_INVALID_ID);
    CHECK(OS_MutSemDelete(id) == OS_SUCCESS && OS_MutSemDelete(id) == OS_ERR_INVALID_ID);
}

/* ---- Events ---- */

static struct fsw_event_counts event_counts(void)
{
    struct fsw_event_counts counts;
    CHECK(fsw_enter());
    CHECK_STATUS(fsw_event_counts(&fsw_layer.core, &counts), FSW_SUCCESS);
    fsw_leave();
    return counts;
}

static void check_packet(CFE_SB_PipeId_t pipe)
{
    CFE_SB_Buffer_t *buffer;
    CFE_EVS_LongEventTlm_t packet;
    char text[300];
    memset(text, 'x', sizeof text);
    text[299] = '\0';
    CHECK_STATUS(CFE_EVS_SendEvent(7, CFE_EVS_EventType_ERROR, "seven %d %s", 7, "words"),
                 CFE_SUCCESS);
    CHECK_STATUS(CFE_SB_ReceiveBuffer(&buffer, pipe, CFE_SB_POLL), CFE_SUCCESS);
    memcpy(&packet, buffer, sizeof packet);
    CHECK(strcmp(packet.Payload.PacketID.AppName, "FIRST") == 0);
    CHECK(packet.Payload.PacketID.EventID == 7 && packet.Payload.PacketID.SpacecraftID == 0x42);
    CHECK(packet.Payload.PacketID.EventType == CFE_EVS_EventType_ERROR);
    CHECK(packet.Payload.PacketID.ProcessorID == 1 && count_in(buffer) == 1);
    CHECK(strcmp(packet.Payload.Message, "seven 7 words") == 0);
    CHECK_STATUS(CFE_EVS_SendEvent(8, CFE_EVS_EventType_INFORMATION, "%s", text), CFE_SUCCESS);
    CHECK_STATUS(CFE_SB_ReceiveBuffer(&buffer, pipe, CFE_SB_POLL), CFE_SUCCESS);
    memcpy(&packet, buffer, sizeof packet);
    CHECK(strlen(packet.Payload.Message) == 121 && packet.Payload.Message[120] == '$');
    CHECK(event_counts().cut == 1);
}

static void test_events(void)
{
    static const CFE_EVS_BinFilter_t filters[9] = {{1, CFE_EVS_FIRST_ONE_STOP},
                                                   {2, CFE_EVS_EVERY_OTHER_ONE},
                                                   {3, 0},
                                                   {4, 0},
                                                   {5, 0},
                                                   {6, 0},
                                                   {17, 0},
                                                   {18, CFE_EVS_FIRST_TWO_STOP},
                                                   {19, 0}};
    CFE_SB_PipeId_t pipe = pipe_for("EVENTS", CFE_EVS_LONG_EVENT_MSG_MID);
    CHECK_STATUS(CFE_EVS_SendEvent(1, CFE_EVS_EventType_ERROR, "x"), CFE_EVS_APP_NOT_REGISTERED);
    CHECK_STATUS(CFE_EVS_ResetFilter(1), CFE_EVS_APP_NOT_REGISTERED);
    CHECK_STATUS(CFE_EVS_ResetAllFilters(), CFE_EVS_APP_NOT_REGISTERED);
    CHECK_STATUS(CFE_EVS_Register(filters, 2, 1), CFE_EVS_UNKNOWN_FILTER);
    CHECK_STATUS(CFE_EVS_Register(NULL, 2, CFE_EVS_EventFilter_BINARY), CFE_ES_BAD_ARGUMENT);
    CHECK_STATUS(CFE_EVS_Register(NULL, 0, CFE_EVS_EventFilter_BINARY), CFE_SUCCESS);
    CHECK_STATUS(CFE_EVS_ResetAllFilters(), CFE_SUCCESS);
    CHECK_STATUS(CFE_EVS_Register(filters, 9, CFE_EVS_EventFilter_BINARY),
                 CFE_EVS_APP_FILTER_OVERLOAD);
    check_packet(pipe);
    struct fsw_event_counts before = event_counts();
    for (int i = 0; i < 4; i++) {
        CHECK_STATUS(CFE_EVS_SendEvent(1, CFE_EVS_EventType_INFORMATION, "one"), CFE_SUCCESS);
        CHECK_STATUS(CFE_EVS_SendEvent(2, CFE_EVS_EventType_INFORMATION, "two"), CFE_SUCCESS);
        CHECK_STATUS(CFE_EVS_SendEvent(18, CFE_EVS_EventType_INFORMATION, "three"), CFE_SUCCESS);
    }
    CHECK(event_counts().sent - before.sent == 1 + 2 + 2);
    CHECK(event_counts().filtered - before.filtered == 3 + 2 + 2);
    CHECK_STATUS(CFE_EVS_ResetFilter(1), CFE_SUCCESS);
    CHECK_STATUS(CFE_EVS_ResetFilter(19), CFE_EVS_EVT_NOT_REGISTERED);
    CHECK_STATUS(CFE_EVS_ResetAllFilters(), CFE_SUCCESS);
    before = event_counts();
    CHECK_STATUS(CFE_EVS_SendEvent(18, CFE_EVS_EventType_INFORMATION, "three"), CFE_SUCCESS);
    CHECK(event_counts().sent - before.sent == 1);
    CHECK_STATUS(CFE_EVS_SendEvent(1, CFE_EVS_EventType_ERROR, NULL), CFE_EVS_INVALID_PARAMETER);
    CHECK_STATUS(CFE_EVS_SendEvent(1, 9, "x"), CFE_EVS_INVALID_PARAMETER);
    CHECK_STATUS(CFE_ES_WriteToSysLog(NULL), CFE_ES_BAD_ARGUMENT);
}

/* ---- The bus's own events ---- */

/* The next packet is an event of the bus's; its text has the number where %u stands. */
static void expect_bus_event(CFE_SB_PipeId_t events, uint16 id, uint16 type, const char *format,
                             CFE_SB_PipeId_t number)
{
    CFE_SB_Buffer_t *buffer;
    CFE_EVS_LongEventTlm_t packet;
    char text[CFE_MISSION_EVS_MAX_MESSAGE_LENGTH];
    snprintf(text, sizeof text, format, (unsigned)number);
    CHECK_STATUS(CFE_SB_ReceiveBuffer(&buffer, events, CFE_SB_POLL), CFE_SUCCESS);
    memcpy(&packet, buffer, sizeof packet);
    CHECK(strcmp(packet.Payload.PacketID.AppName, "CFE_SB") == 0);
    CHECK(packet.Payload.PacketID.EventID == id && packet.Payload.PacketID.EventType == type);
    CHECK(strcmp(packet.Payload.Message, text) == 0);
}

/* Calls that are refused, each with an event. */
static void check_refusal_events(CFE_SB_PipeId_t events, CFE_SB_PipeId_t pipe)
{
    static const uint16 error = CFE_EVS_EventType_ERROR;
    static union {
        CFE_SB_Buffer_t buffer;
        uint8 bytes[40000];
    } large;
    CFE_MSG_Message_t *message = &large.buffer.Msg;
    CFE_SB_PipeId_t other;
    CFE_SB_Buffer_t *buffer;
    CHECK_STATUS(CFE_SB_CreatePipe(&other, 8, "SMALL"), CFE_SB_PIPE_CR_ERR);
    expect_bus_event(events, CFE_SB_CR_PIPE_ERR_EID, error,
                     "CreatePipe refused 0xca000005 app FIRST", 0);
    CHECK_STATUS(CFE_SB_CreatePipe(&other, 0, "OTHER"), CFE_SB_BAD_ARGUMENT);
    expect_bus_event(events, CFE_SB_CR_PIPE_BAD_ARG_EID, error,
                     "CreatePipe refused 0xca000003 app FIRST", 0);
    CHECK_STATUS(CFE_SB_Subscribe(0x2000, pipe), CFE_SB_BAD_ARGUMENT);
    expect_bus_event(events, CFE_SB_SUB_ARG_ERR_EID, error,
                     "Subscribe id 0x2000 refused 0xca000003 app FIRST", 0);
    CHECK_STATUS(CFE_SB_Unsubscribe(TLM_ID, 99), CFE_SB_BAD_ARGUMENT);
    expect_bus_event(events, CFE_SB_UNSUB_ARG_ERR_EID, error,
                     "Unsubscribe id 0x0881 refused 0xca000003 app FIRST", 0);
    CHECK_STATUS(CFE_MSG_Init(message, TLM_ID, sizeof large), CFE_SUCCESS);
    CHECK_STATUS(CFE_SB_TransmitMsg(message, true), CFE_SB_MSG_TOO_BIG);
    expect_bus_event(events, CFE_SB_MSG_TOO_BIG_EID, error,
                     "Transmit id 0x0881 refused 0xca000007 app FIRST", 0);
    CHECK_STATUS(CFE_SB_TransmitBuffer(&large.buffer, true), CFE_SB_BUFFER_INVALID);
    expect_bus_event(events, CFE_SB_SEND_BAD_ARG_EID, error,
                     "Transmit refused 0xca00000e app FIRST", 0);
    CHECK_STATUS(CFE_SB_ReceiveBuffer(&buffer, 99, CFE_SB_POLL), CFE_SB_BAD_ARGUMENT);
    expect_bus_event(events, CFE_SB_BAD_PIPEID_EID, error,
                     "ReceiveBuffer refused 0xca000003 app FIRST", 0);
}

static void test_bus_events(void)
{
    static const uint16 info = CFE_EVS_EventType_INFORMATION, error = CFE_EVS_EventType_ERROR;
    static const char full[] = "overflow id 0x0881 pipe %u sender 1";
    CFE_SB_PipeId_t events, pipe = pipe_for("SMALL", TLM_ID);
    CFE_SB_Buffer_t *buffer;
    /* The first packets have no subscriber: what the bus says of them is not sent, or none ends. */
    CHECK_STATUS(send(OTHER_ID, 0), CFE_SUCCESS);
    CHECK_STATUS(CFE_SB_CreatePipe(&events, 64, "EVENTS"), CFE_SUCCESS);
    CHECK_STATUS(CFE_SB_SubscribeEx(CFE_EVS_LONG_EVENT_MSG_MID, events, CFE_SB_DEFAULT_QOS, 64),
                 CFE_SUCCESS);
    CHECK_STATUS(CFE_SB_Subscribe(TLM_ID, pipe), CFE_SUCCESS);
    expect_bus_event(events, CFE_SB_DUP_SUBSCRIP_EID, info, "duplicate id 0x0881 pipe %u", pipe);
    CHECK_STATUS(CFE_SB_Unsubscribe(OTHER_ID, pipe), CFE_SUCCESS);
    expect_bus_event(events, CFE_SB_UNSUB_NO_SUBS_EID, info, "not subscribed id 0x0882 pipe %u",
                     pipe);
    /* Of messages without a subscriber the first four are told. */
    for (uint32 i = 1; i < 6; i++) {
        CHECK_STATUS(send(OTHER_ID, i), CFE_SUCCESS);
        if (i < 4)
            expect_bus_event(events, CFE_SB_SEND_NO_SUBS_EID, info, "no subscribers id 0x0882", 0);
    }
    CHECK_STATUS(CFE_SB_SubscribeEx(OTHER_ID, pipe, CFE_SB_DEFAULT_QOS, 2), CFE_SUCCESS);
    for (uint32 i = 1; i <= 3; i++)
        CHECK_STATUS(send(OTHER_ID, i), CFE_SUCCESS);
    expect_bus_event(events, CFE_SB_MSGID_LIM_ERR_EID, error, "limit id 0x0882 pipe %u sender 1",
                     pipe);
    /* Of messages that a full pipe missed the first sixteen. */
    for (uint32 i = 1; i <= 6 + 15; i++)
        CHECK_STATUS(send(TLM_ID, i), CFE_SUCCESS);
    buffer = CFE_SB_AllocateMessageBuffer(sizeof(tlm_t));
    CHECK_STATUS(CFE_MSG_Init(&buffer->Msg, TLM_ID, sizeof(tlm_t)), CFE_SUCCESS);
    CHECK_STATUS(CFE_SB_TransmitBuffer(buffer, true), CFE_SUCCESS);
    CHECK_STATUS(send(TLM_ID, 0), CFE_SUCCESS);
    for (int i = 0; i < 16; i++)
        expect_bus_event(events, CFE_SB_Q_FULL_ERR_EID, error, full, pipe);
    check_refusal_events(events, pipe);
    CHECK_STATUS(CFE_SB_ReceiveBuffer(&buffer, events, CFE_SB_POLL), CFE_SB_NO_MESSAGE);
}

/* Messages for a pipe that drops its oldest for the new one, and an event. */
static void overflow(void)
{
    CFE_SB_PipeId_t pipe;
    CHECK_STATUS(CFE_SB_CreatePipe(&pipe, 8, "SMALL"), CFE_SUCCESS);
    CHECK_STATUS(CFE_SB_SubscribeEx(TLM_ID, pipe, CFE_SB_DEFAULT_QOS, 9), CFE_SUCCESS);
    CHECK_STATUS(CFE_SB_SetPipeOpts(pipe, FSW_PIPE_DROPS_OLDEST), CFE_SUCCESS);
    for (uint32 i = 0; i < 8 + 20; i++)
        CHECK_STATUS(send(TLM_ID, i), CFE_SUCCESS);
    CHECK_STATUS(CFE_EVS_Register(NULL, 0, CFE_EVS_EventFilter_BINARY), CFE_SUCCESS);
    CHECK_STATUS(CFE_EVS_SendInfo(3, "end of %d", 28), CFE_SUCCESS);
}

/* Events are printed as lines: all of the bus's, if that is configured. */
static void check_printed_events(void)
{
    static const struct fsw_app app = {.name = "FIRST", .entry = overflow};
    const struct fsw_config config = {.prints_events = true,
                                      .all_bus_events = true,
                                      .spacecraft = 66,
                                      .processor = 1};
    struct fsw_limits limits = FSW_USUAL_LIMITS;
    char line[100], path[OS_MAX_PATH_LEN];
    int usual = dup(STDOUT_FILENO), lines = 0;
    strcpy(path, path_of("printed"));
    limits.version = 2;
    fsw_configure(&config);
    CHECK(usual >= 0 && freopen(path, "w", stdout));
    int answer = fsw_run(&limits, &app, 1);
    fflush(stdout);
    CHECK(dup2(usual, STDOUT_FILENO) >= 0 && close(usual) == 0);
    FILE *file = fopen(path, "r");
    CHECK(answer == 0 && file);
    while (fgets(line, sizeof line, file) && lines < 20) {
        CHECK(strcmp(line, "EVS Port1 66/1/CFE_SB 100: oldest id 0x0881 pipe 1 sender 1\n") == 0);
        lines++;
    }
    CHECK(strcmp(line, "EVS Port1 66/1/FIRST 3: end of 28\n") == 0 &&
          !fgets(line, sizeof line, file));
    fclose(file);
    unlink(path);
}

static void run(const char *name, void (*first)(void), void (*second)(void), int expected)
{
    const struct fsw_app apps[2] = {{.name = "FIRST", .entry = first},
                                    {.name = "SECOND", .entry = second}};
    atomic_store(&phase, 0);
    int answer = fsw_run(NULL, apps, second ? 2 : 1);
    if (answer != expected) {
        fprintf(stderr, "layer_test: %s: fsw_run answers %d, not %d\n", name, answer, expected);
        exit(1);
    }
}

/* ---- CRC ---- */

/* The CRC of one byte, a bit at a time. */
static uint32 crc_of(uint8 byte, uint32 before)
{
    uint32 crc = before ^ byte;
    for (int bit = 0; bit < 8; bit++)
        crc = crc & 1 ? crc >> 1 ^ 0xa001 : crc >> 1;
    return crc;
}

static void check_crc(void)
{
    CHECK(CFE_ES_CalculateCRC("123456789", 9, 0, CFE_MISSION_ES_CRC_16) == 0xbb3d);
    CHECK(CFE_ES_CalculateCRC("56789", 5, CFE_ES_CalculateCRC("1234", 4, 0, CFE_MISSION_ES_CRC_16),
                              CFE_MISSION_ES_CRC_16) == 0xbb3d);
    CHECK(CFE_ES_CalculateCRC(NULL, 9, 0, CFE_MISSION_ES_CRC_16) == 0);
    CHECK(CFE_ES_CalculateCRC("1", 1, 0, 1) == 0);
    for (uint32 value = 0; value < 256; value++) {
        uint8 byte = (uint8)value;
        CHECK(CFE_ES_CalculateCRC(&byte, 1, 0, CFE_MISSION_ES_CRC_16) == crc_of(byte, 0));
        CHECK(CFE_ES_CalculateCRC(&byte, 1, 0xffff, CFE_MISSION_ES_CRC_16) == crc_of(byte, 0xffff));
    }
}

/* ---- Runs ---- */

static void go_on_until_stop(void)
{
    CFE_SB_Buffer_t *buffer;
    uint32 status = CFE_ES_RunStatus_APP_RUN;
    CFE_SB_PipeId_t pipe = pipe_for("STOP", TLM_ID);
    CFE_ES_WaitForStartupSync(10000);
    while (CFE_ES_RunLoop(&status))
        CHECK_STATUS(CFE_SB_ReceiveBuffer(&buffer, pipe, CFE_SB_PEND_FOREVER), CFE_SB_PIPE_RD_ERR);
    CHECK(status == CFE_ES_RunStatus_SYS_DELETE);
    CFE_ES_ExitApp(CFE_ES_RunStatus_APP_ERROR);
}

static void stop(void)
{
    static const struct fsw_app app = {.name = "FIRST", .entry = stop};
    CFE_ES_WaitForStartupSync(10000);
    CHECK(fsw_run(NULL, &app, 1) == -1);
    OS_TaskDelay(20);
    fsw_stop();
}

static void fail(void)
{
    uint32 status = CFE_ES_RunStatus_APP_RUN;
    CHECK(CFE_ES_RunLoop(&status) && CFE_ES_RunLoop(NULL));
    status = CFE_ES_RunStatus_APP_ERROR;
    CHECK(!CFE_ES_RunLoop(&status));
    CFE_ES_ExitApp(status);
}

static void succeed(void)
{
    CFE_ES_WaitForStartupSync(1);
    CFE_ES_PerfLogEntry(1);
    CFE_ES_PerfLogExit(1);
}

static void check_refused_runs(void)
{
    static const struct fsw_app none = {.name = "", .entry = succeed},
                                twice[2] = {{.name = "A", .entry = succeed},
                                            {.name = "A", .entry = succeed}},
                                long_name = {.name = "TWENTY_BYTES_OF_NAME", .entry = succeed},
                                good = {.name = "A", .entry = fail},
                                empty = {.name = "A", .entry = NULL};
    struct fsw_limits limits = FSW_USUAL_LIMITS;
    CFE_SB_PipeId_t pipe;
    CFE_SB_Buffer_t *buffer;
    CFE_ES_AppId_t app;
    uint32 status = CFE_ES_RunStatus_APP_RUN;
    CHECK(fsw_run(NULL, NULL, 1) == -1 && fsw_run(NULL, &good, 0) == -1);
    CHECK(fsw_run(NULL, &none, 1) == -1 && fsw_run(NULL, &empty, 1) == -1);
    CHECK(fsw_run(NULL, &long_name, 1) == -1 && fsw_run(NULL, twice, 2) == -1);
    CHECK(fsw_run(NULL, &good, 17) == -1);
    limits.depth = 0;
    CHECK(fsw_run(&limits, &good, 1) == -1);
    CHECK(fsw_run(NULL, &good, 1) == 1);
    /* Outside an application there is none to make a call. */
    CHECK_STATUS(CFE_SB_CreatePipe(&pipe, 4, "A"), CFE_SB_BAD_ARGUMENT);
    CHECK_STATUS(CFE_SB_ReceiveBuffer(&buffer, 1, CFE_SB_POLL), CFE_SB_BAD_ARGUMENT);
    CHECK_STATUS(CFE_ES_GetAppID(&app), CFE_ES_ERR_RESOURCEID_NOT_VALID);
    CHECK_STATUS(CFE_EVS_SendEvent(1, 1, "x"), CFE_ES_ERR_RESOURCEID_NOT_VALID);
    CHECK(!CFE_ES_RunLoop(&status));
    CHECK(OS_TaskDelay(1) == OS_SUCCESS);
}

int main(int argc, char **argv)
{
    const struct fsw_config config = {.sends_events = true,
                                      .prints_events = false,
                                      .spacecraft = 0x42,
                                      .processor = 1};
    if (argc > 1)
        folder = argv[1];
    fsw_configure(&config);
    check_refused_runs();
    run("messages", test_messages, NULL, 0);
    run("bus", test_bus, NULL, 0);
    run("housekeeping", test_housekeeping, NULL, 0);
    run("waits", test_waits, answer_waits, 0);
    run("tasks", test_tasks, NULL, 0);
    run("mutexes", check_mutexes, NULL, 0);
    run("events", test_events, NULL, 0);
    run("bus events", test_bus_events, NULL, 0);
    run("stop", go_on_until_stop, stop, 0);
    run("failure", fail, succeed, 1);
    check_printed_events();
    check_crc();
    printf("layer_test passed\n");
    return 0;
}
