/*
 * services_test.c: what ground asks of the bus and of Event Services, by commands that an
 * application sends: each is answered by an event or a packet.
 */
#include "cfe_evs_events.h"
#include "cfe_evs_msg.h"
#include "cfe_msgids.h"
#include "cfe_sb_events.h"
#include "cfe_sb_msg.h"
#include "run_apps.h"

enum { TLM_ID = 0x0881, DEPTH = 32 };

static CFE_SB_PipeId_t events, packets;

static CFE_SB_PipeId_t pipe_for(const char *name, CFE_SB_MsgId_t id)
{
    CFE_SB_PipeId_t pipe;
    CHECK_STATUS(CFE_SB_CreatePipe(&pipe, DEPTH, name), CFE_SUCCESS);
    CHECK_STATUS(CFE_SB_SubscribeEx(id, pipe, CFE_SB_DEFAULT_QOS, DEPTH), CFE_SUCCESS);
    return pipe;
}

/* Sends a command of so many bytes, the header among them. */
static void command(CFE_SB_MsgId_t id, CFE_MSG_FcnCode_t code, void *bytes, size_t size)
{
    CFE_MSG_Message_t *message = bytes;
    CHECK_STATUS(CFE_MSG_SetMsgId(message, id), CFE_SUCCESS);
    CHECK_STATUS(CFE_MSG_SetSize(message, size), CFE_SUCCESS);
    CHECK_STATUS(CFE_MSG_SetSegmentationFlag(message, CFE_MSG_SegFlag_Unsegmented), CFE_SUCCESS);
    CHECK_STATUS(CFE_MSG_SetFcnCode(message, code), CFE_SUCCESS);
    CHECK_STATUS(CFE_SB_TransmitMsg(message, true), CFE_SUCCESS);
}

static void plain_command(CFE_SB_MsgId_t id, CFE_MSG_FcnCode_t code)
{
    CFE_MSG_CommandHeader_t message = {.Sec = {0}};
    command(id, code, &message, sizeof message);
}

/* The next event packet is this one. */
static void expect(const char *from, uint16 id, uint16 type, const char *text)
{
    CFE_SB_Buffer_t *buffer;
    CFE_EVS_LongEventTlm_t packet;
    CHECK_STATUS(CFE_SB_ReceiveBuffer(&buffer, events, CFE_SB_POLL), CFE_SUCCESS);
    memcpy(&packet, buffer, sizeof packet);
    CHECK(strcmp(packet.Payload.PacketID.AppName, from) == 0);
    CHECK(packet.Payload.PacketID.EventID == id && packet.Payload.PacketID.EventType == type);
    CHECK(strcmp(packet.Payload.Message, text) == 0);
}

static void expect_no_event(void)
{
    CFE_SB_Buffer_t *buffer;
    CHECK_STATUS(CFE_SB_ReceiveBuffer(&buffer, events, CFE_SB_POLL), CFE_SB_NO_MESSAGE);
}

/* Asks for a packet, and takes it. */
static void take_packet(CFE_SB_MsgId_t id, CFE_MSG_FcnCode_t code, void *packet, size_t size)
{
    CFE_SB_Buffer_t *buffer;
    CFE_MSG_Size_t is = 0;
    plain_command(id, code);
    CHECK_STATUS(CFE_SB_ReceiveBuffer(&buffer, packets, CFE_SB_POLL), CFE_SUCCESS);
    CHECK_STATUS(CFE_MSG_GetSize(&buffer->Msg, &is), CFE_SUCCESS);
    CHECK(is == size);
    memcpy(packet, buffer, size);
}

/* ---- The bus ---- */

static const uint16 debug = CFE_EVS_EventType_DEBUG, info = CFE_EVS_EventType_INFORMATION,
                    error = CFE_EVS_EventType_ERROR;

static void check_bus_commands(void)
{
    CFE_SB_HousekeepingTlm_t hk;
    struct {
        CFE_MSG_CommandHeader_t header;
        uint8 more[200];
    } longer = {.more = {0}};
    packets = pipe_for("SB_HK", CFE_SB_HK_TLM_MID);
    plain_command(CFE_SB_CMD_MID, CFE_SB_NOOP_CC);
    expect("CFE_SB", CFE_SB_CMD0_RCVD_EID, info, "No-op Cmd Rcvd");
    command(CFE_SB_CMD_MID, CFE_SB_NOOP_CC, &longer, 9);
    expect("CFE_SB", CFE_SB_LEN_ERR_EID, error, "Invalid msg length: CC = 0, Len = 9");
    command(CFE_SB_CMD_MID, CFE_SB_NOOP_CC, &longer, sizeof longer);
    expect("CFE_SB", CFE_SB_LEN_ERR_EID, error, "Invalid msg length: CC = 0, Len = 208");
    plain_command(CFE_SB_CMD_MID, 99);
    expect("CFE_SB", CFE_SB_BAD_CMD_CODE_EID, error, "Invalid Cmd, Unexpected Command Code 99");
    CHECK_STATUS(CFE_SB_Subscribe(0, packets), CFE_SB_BAD_ARGUMENT);
    expect("CFE_SB", CFE_SB_SUB_ARG_ERR_EID, error, "Subscribe refused 0xca000003 app FIRST");
    take_packet(CFE_SB_SEND_HK_MID, 0, &hk, sizeof hk);
    CHECK(hk.Payload.CommandCounter == 1 && hk.Payload.CommandErrorCounter == 3);
    CHECK(hk.Payload.SubscribeErrorCounter == 1 && hk.Payload.NoSubscribersCounter == 0);
    plain_command(CFE_SB_CMD_MID, CFE_SB_RESET_COUNTERS_CC);
    expect("CFE_SB", CFE_SB_CMD1_RCVD_EID, debug, "Reset Counters Cmd Rcvd");
    take_packet(CFE_SB_SEND_HK_MID, 0, &hk, sizeof hk);
    CHECK(hk.Payload.CommandCounter == 0 && hk.Payload.CommandErrorCounter == 0);
    CHECK(hk.Payload.SubscribeErrorCounter == 0 && hk.Payload.NoSubscribersCounter == 0);
    expect_no_event();
    CHECK_STATUS(CFE_SB_DeletePipe(packets), CFE_SUCCESS);
}

static void check_statistics(void)
{
    CFE_SB_StatsTlm_t stats;
    CFE_MSG_TelemetryHeader_t tlm;
    CFE_SB_PipeId_t full = pipe_for("FULL", TLM_ID);
    packets = pipe_for("SB_STATS", CFE_SB_STATS_TLM_MID);
    CHECK_STATUS(CFE_MSG_Init(CFE_MSG_PTR(tlm), TLM_ID, sizeof tlm), CFE_SUCCESS);
    for (int i = 0; i < 3; i++)
        CHECK_STATUS(CFE_SB_TransmitMsg(CFE_MSG_PTR(tlm), true), CFE_SUCCESS);
    take_packet(CFE_SB_CMD_MID, CFE_SB_SEND_SB_STATS_CC, &stats, sizeof stats);
    const CFE_SB_StatsTlm_Payload_t *is = &stats.Payload;
    CHECK(is->MaxMsgIdsAllowed == 256 && is->MaxPipesAllowed == 64 && is->PipesInUse == 3);
    CHECK(is->PeakPipesInUse == 3 && is->SubscriptionsInUse == 3 && is->SBBuffersInUse >= 3);
    CHECK(is->MaxMemAllowed == 524288 && is->MemInUse > 0 && is->PeakMemInUse >= is->MemInUse);
    CHECK(is->MaxSubscriptionsAllowed == 256 * 16 && is->MaxPipeDepthAllowed == 256);
    CHECK(is->PipeDepthStats[1].PipeId == full && is->PipeDepthStats[1].MaxQueueDepth == DEPTH);
    CHECK(is->PipeDepthStats[1].CurrentQueueDepth == 3 && is->PipeDepthStats[3].PipeId == 0);
    CHECK_STATUS(CFE_SB_DeletePipe(packets), CFE_SUCCESS);
    CHECK_STATUS(CFE_SB_DeletePipe(full), CFE_SUCCESS);
}

static void check_bus_names(void)
{
    CFE_SB_PipeId_t pipe = pipe_for("INDEX", TLM_ID);
    CFE_MSG_TelemetryHeader_t tlm;
    CFE_MSG_HeaderVersion_t version = 0;
    CFE_SB_MsgId_t id;
    CFE_MSG_Message_t *message = CFE_MSG_PTR(tlm);
    uint32 index = 99, first = 99;
    CHECK_STATUS(CFE_SB_PipeId_ToIndex(events, &first), CFE_SUCCESS);
    CHECK_STATUS(CFE_SB_PipeId_ToIndex(pipe, &index), CFE_SUCCESS);
    CHECK(first == 0 && index == 1);
    CHECK_STATUS(CFE_SB_PipeId_ToIndex(pipe, NULL), CFE_SB_BAD_ARGUMENT);
    CHECK_STATUS(CFE_SB_PipeId_ToIndex(999, &index), CFE_ES_ERR_RESOURCEID_NOT_VALID);
    CHECK_STATUS(CFE_SB_PipeId_ToIndex(CFE_SB_INVALID_PIPE, &index),
                 CFE_ES_ERR_RESOURCEID_NOT_VALID);
    CHECK_STATUS(CFE_SB_DeletePipe(pipe), CFE_SUCCESS);
    CHECK(!CFE_SB_IsValidMsgId(CFE_SB_MSGID_RESERVED));
    CHECK_STATUS(CFE_MSG_Init(message, TLM_ID, sizeof tlm), CFE_SUCCESS);
    CFE_SB_SetUserDataLength(message, 20);
    CHECK(CFE_SB_GetUserDataLength(message) == 20);
    CFE_SB_SetUserDataLength(message, CFE_MISSION_SB_MAX_SB_MSG_SIZE - sizeof tlm + 1);
    CFE_SB_SetUserDataLength(message, SIZE_MAX);
    CHECK(CFE_SB_GetUserDataLength(message) == 20);
    CFE_SB_SetUserDataLength(NULL, 20);
    CHECK_STATUS(CFE_MSG_SetHeaderVersion(message, 5), CFE_SUCCESS);
    CHECK_STATUS(CFE_MSG_GetHeaderVersion(message, &version), CFE_SUCCESS);
    CHECK_STATUS(CFE_MSG_GetMsgId(message, &id), CFE_SUCCESS);
    CHECK(version == 5 && id == (TLM_ID | 5 << 13));
    CHECK_STATUS(CFE_MSG_SetHeaderVersion(message, 8), CFE_MSG_BAD_ARGUMENT);
    CHECK_STATUS(CFE_MSG_SetHeaderVersion(NULL, 0), CFE_MSG_BAD_ARGUMENT);
}

static void test_bus(void)
{
    events = pipe_for("EVENTS", CFE_EVS_LONG_EVENT_MSG_MID);
    check_bus_commands();
    check_statistics();
    check_bus_names();
}

/* ---- Event Services ---- */

/* Sends one event, and says whether it came out. */
static bool comes_out(uint16 id, uint16 type)
{
    CFE_SB_Buffer_t *buffer;
    CHECK_STATUS(CFE_EVS_SendEvent(id, type, "event"), CFE_SUCCESS);
    return CFE_SB_ReceiveBuffer(&buffer, events, CFE_SB_POLL) == CFE_SUCCESS;
}

static void bits_command(CFE_MSG_FcnCode_t code, uint8 bits)
{
    CFE_EVS_BitMaskCmd_t message = {.Payload = {.BitMask = bits}};
    command(CFE_EVS_CMD_MID, code, &message, sizeof message);
}

static void name_command(CFE_MSG_FcnCode_t code, const char *name)
{
    CFE_EVS_AppNameCmd_t message = {.Payload = {.AppName = ""}};
    CFE_SB_MessageStringSet(message.Payload.AppName, name, sizeof message.Payload.AppName, 20);
    command(CFE_EVS_CMD_MID, code, &message, sizeof message);
}

static void name_bits_command(CFE_MSG_FcnCode_t code, const char *name, uint8 bits)
{
    CFE_EVS_AppNameBitMaskCmd_t message = {.Payload = {.BitMask = bits}};
    CFE_SB_MessageStringSet(message.Payload.AppName, name, sizeof message.Payload.AppName, 20);
    command(CFE_EVS_CMD_MID, code, &message, sizeof message);
}

static void name_id_command(CFE_MSG_FcnCode_t code, const char *name, uint16 id)
{
    CFE_EVS_AppNameEventIDCmd_t message = {.Payload = {.EventID = id}};
    CFE_SB_MessageStringSet(message.Payload.AppName, name, sizeof message.Payload.AppName, 20);
    command(CFE_EVS_CMD_MID, code, &message, sizeof message);
}

static void filter_command(CFE_MSG_FcnCode_t code, const char *name, uint16 id, uint16 mask)
{
    CFE_EVS_AppNameEventIDMaskCmd_t message = {.Payload = {.EventID = id, .Mask = mask}};
    CFE_SB_MessageStringSet(message.Payload.AppName, name, sizeof message.Payload.AppName, 20);
    command(CFE_EVS_CMD_MID, code, &message, sizeof message);
}

static void check_types(void)
{
    CHECK(!comes_out(1, debug) && comes_out(1, info) && comes_out(1, error));
    bits_command(CFE_EVS_ENABLE_EVENT_TYPE_CC, CFE_EVS_DEBUG_BIT);
    expect("CFE_EVS", CFE_EVS_ENAEVTTYPE_EID, debug, "Enable Event Type Command Received: CC = 2");
    CHECK(comes_out(1, debug) && comes_out(1, info));
    bits_command(CFE_EVS_DISABLE_EVENT_TYPE_CC, CFE_EVS_DEBUG_BIT | CFE_EVS_ERROR_BIT);
    expect("CFE_EVS", CFE_EVS_DISEVTTYPE_EID, debug, "Disable Event Type Command Received: CC = 3");
    CHECK(!comes_out(1, debug) && comes_out(1, info) && !comes_out(1, error));
    name_bits_command(CFE_EVS_ENABLE_APP_EVENT_TYPE_CC, "FIRST", CFE_EVS_ERROR_BIT);
    expect("CFE_EVS", CFE_EVS_ENAAPPEVTTYPE_EID, debug,
           "Enable App Event Type Command Received: CC = 5, AppName = FIRST");
    CHECK(comes_out(1, error));
    name_bits_command(CFE_EVS_DISABLE_APP_EVENT_TYPE_CC, "FIRST", CFE_EVS_INFORMATION_BIT);
    expect("CFE_EVS", CFE_EVS_DISAPPENTTYPE_EID, debug,
           "Disable App Event Type Command Received: CC = 6, AppName = FIRST");
    CHECK(!comes_out(1, info) && comes_out(1, error));
    name_command(CFE_EVS_DISABLE_APP_EVENTS_CC, "FIRST");
    expect("CFE_EVS", CFE_EVS_DISAPPEVT_EID, debug,
           "Disable App Events Command Received: CC = 8, AppName = FIRST");
    CHECK(!comes_out(1, error) && !comes_out(1, CFE_EVS_EventType_CRITICAL));
    name_command(CFE_EVS_ENABLE_APP_EVENTS_CC, "FIRST");
    expect("CFE_EVS", CFE_EVS_ENAAPPEVT_EID, debug,
           "Enable App Events Command Received: CC = 7, AppName = FIRST");
    CHECK(comes_out(1, error));
    /* Registering begins anew. */
    CHECK_STATUS(CFE_EVS_Register(NULL, 0, CFE_EVS_EventFilter_BINARY), CFE_SUCCESS);
    CHECK(!comes_out(1, debug) && comes_out(1, info));
}

static void check_filters(void)
{
    static const CFE_EVS_BinFilter_t twice[] = {{5, CFE_EVS_FIRST_ONE_STOP},
                                                {5, CFE_EVS_NO_FILTER}};
    /* The first filter of an id is the one that counts. */
    CHECK_STATUS(CFE_EVS_Register(twice, 2, CFE_EVS_EventFilter_BINARY), CFE_SUCCESS);
    CHECK(comes_out(5, info) && !comes_out(5, info) && comes_out(6, info));
    filter_command(CFE_EVS_SET_FILTER_CC, "FIRST", 5, CFE_EVS_FIRST_TWO_STOP);
    expect("CFE_EVS", CFE_EVS_SETFILTERMSK_EID, debug,
           "Set Filter Mask Command Received: CC = 10, AppName = FIRST");
    CHECK(comes_out(5, info) && comes_out(5, info) && !comes_out(5, info));
    name_id_command(CFE_EVS_RESET_FILTER_CC, "FIRST", 5);
    expect("CFE_EVS", CFE_EVS_RSTFILTER_EID, debug,
           "Reset Filter Command Received: CC = 13, AppName = FIRST");
    CHECK(comes_out(5, info));
    name_command(CFE_EVS_RESET_ALL_FILTERS_CC, "FIRST");
    expect("CFE_EVS", CFE_EVS_RSTALLFILTER_EID, debug,
           "Reset All Filters Command Received: CC = 14, AppName = FIRST");
    CHECK(comes_out(5, info) && comes_out(5, info) && !comes_out(5, info));
    for (uint16 id = 10; id < 17; id++) {
        filter_command(CFE_EVS_ADD_EVENT_FILTER_CC, "FIRST", id, CFE_EVS_FIRST_ONE_STOP);
        expect("CFE_EVS", CFE_EVS_ADDFILTER_EID, debug,
               "Add Filter Command Received: CC = 15, AppName = FIRST");
    }
    CHECK(comes_out(16, info) && !comes_out(16, info));
    filter_command(CFE_EVS_ADD_EVENT_FILTER_CC, "FIRST", 17, 0);
    expect("CFE_EVS", CFE_EVS_ERR_MAXREGSFILTER_EID, error,
           "As many filters as there may be: CC = 15, AppName = FIRST");
    filter_command(CFE_EVS_ADD_EVENT_FILTER_CC, "FIRST", 16, 0);
    expect("CFE_EVS", CFE_EVS_EVT_FILTERED_EID, error,
           "Event ID already filtered: CC = 15, AppName = FIRST");
    name_id_command(CFE_EVS_DELETE_EVENT_FILTER_CC, "FIRST", 16);
    expect("CFE_EVS", CFE_EVS_DELFILTER_EID, debug,
           "Delete Filter Command Received: CC = 16, AppName = FIRST");
    CHECK(comes_out(16, info) && comes_out(16, info));
    name_id_command(CFE_EVS_DELETE_EVENT_FILTER_CC, "FIRST", 16);
    expect("CFE_EVS", CFE_EVS_ERR_EVTIDNOREGS_EID, error,
           "Event ID not filtered: CC = 16, AppName = FIRST");
    name_id_command(CFE_EVS_RESET_FILTER_CC, "FIRST", 16);
    expect("CFE_EVS", CFE_EVS_ERR_EVTIDNOREGS_EID, error,
           "Event ID not filtered: CC = 13, AppName = FIRST");
}

/* A filter that lets all through locks too, once it has seen 65535 events. */
static void check_lock(void)
{
    static const CFE_EVS_BinFilter_t all = {7, CFE_EVS_NO_FILTER};
    CHECK_STATUS(CFE_EVS_Register(&all, 1, CFE_EVS_EventFilter_BINARY), CFE_SUCCESS);
    for (int i = 0; i < 65535; i++)
        CHECK(comes_out(7, info));
    expect("CFE_EVS", CFE_EVS_FILTER_MAX_EID, info,
           "Max filter count reached, AppName = FIRST, EventID = 0x00000007: Filter locked until "
           "reset");
    CHECK(!comes_out(7, info) && !comes_out(7, info) && comes_out(8, info));
    CHECK_STATUS(CFE_EVS_ResetFilter(7), CFE_SUCCESS);
    CHECK(comes_out(7, info));
    expect_no_event();
}

static void check_event_refusals(void)
{
    plain_command(CFE_EVS_CMD_MID, CFE_EVS_NOOP_CC);
    expect("CFE_EVS", CFE_EVS_NOOP_EID, info, "No-op Cmd Rcvd: CC = 0");
    plain_command(CFE_EVS_CMD_MID, 4);
    expect("CFE_EVS", CFE_EVS_ERR_CC_EID, error, "Invalid command code: CC = 4, Len = 8");
    plain_command(CFE_EVS_CMD_MID, 99);
    expect("CFE_EVS", CFE_EVS_ERR_CC_EID, error, "Invalid command code: CC = 99, Len = 8");
    plain_command(CFE_EVS_CMD_MID, CFE_EVS_SET_FILTER_CC);
    expect("CFE_EVS", CFE_EVS_LEN_ERR_EID, error, "Invalid msg length: CC = 10, Len = 8");
    bits_command(CFE_EVS_ENABLE_EVENT_TYPE_CC, 0);
    expect("CFE_EVS", CFE_EVS_ERR_INVALID_BITMASK_EID, error, "Bit mask out of range: CC = 2");
    bits_command(CFE_EVS_DISABLE_EVENT_TYPE_CC, 16);
    expect("CFE_EVS", CFE_EVS_ERR_INVALID_BITMASK_EID, error, "Bit mask out of range: CC = 3");
    bits_command(CFE_EVS_ENABLE_PORTS_CC, 2);
    expect("CFE_EVS", CFE_EVS_ERR_INVALID_BITMASK_EID, error, "Bit mask out of range: CC = 11");
    name_command(CFE_EVS_DISABLE_APP_EVENTS_CC, "NOBODY");
    expect("CFE_EVS", CFE_EVS_ERR_NOAPPIDFOUND_EID, error,
           "No application of the name: CC = 8, AppName = NOBODY");
    name_command(CFE_EVS_DISABLE_APP_EVENTS_CC, "SECOND");
    expect("CFE_EVS", CFE_EVS_ERR_APPNOREGS_EID, error,
           "Not registered with EVS: CC = 8, AppName = SECOND");
    bits_command(CFE_EVS_DISABLE_PORTS_CC, CFE_EVS_PORT1_BIT);
    expect("CFE_EVS", CFE_EVS_DISPORT_EID, debug, "Disable Ports Command Received: CC = 12");
}

static void check_event_housekeeping(void)
{
    CFE_EVS_HousekeepingTlm_t hk;
    const CFE_EVS_HousekeepingTlm_Payload_t *is = &hk.Payload;
    packets = pipe_for("EVS_HK", CFE_EVS_HK_TLM_MID);
    plain_command(CFE_EVS_CMD_MID, CFE_EVS_RESET_COUNTERS_CC);
    expect("CFE_EVS", CFE_EVS_RSTCNT_EID, debug, "Reset Counters Command Received: CC = 1");
    name_command(CFE_EVS_RESET_APP_COUNTER_CC, "FIRST");
    expect("CFE_EVS", CFE_EVS_RSTEVTCNT_EID, debug,
           "Reset Event Counter Command Received: CC = 9, AppName = FIRST");
    check_event_refusals();
    CHECK_STATUS(CFE_EVS_SendEventWithAppID(4, info, 2, "by 2"), CFE_EVS_APP_NOT_REGISTERED);
    for (int i = 0; i < 30; i++)
        CHECK(comes_out(1, info));
    take_packet(CFE_EVS_SEND_HK_MID, 0, &hk, sizeof hk);
    CHECK(is->CommandCounter == 3 && is->CommandErrorCounter == 8);
    CHECK(is->MessageSendCounter == 30 + 12 && is->AppData[0].AppMessageSentCounter == 30);
    CHECK(is->AppData[0].AppID == 1 && is->AppData[0].AppEnableStatus == 1);
    CHECK(is->AppData[1].AppID == CFE_ES_APPID_UNDEFINED && is->UnregisteredAppCounter == 1);
    CHECK(is->MessageFormatMode == 2 && is->OutputPort == 0 && is->LogFullFlag == 1);
    CHECK(is->LogEnabled == 1 && is->LogMode == 0 && is->MessageTruncCounter == 0);
    CHECK_STATUS(CFE_SB_DeletePipe(packets), CFE_SUCCESS);
}

/* With a time, and for another application. */
static void check_other_events(void)
{
    const CFE_TIME_SysTime_t time = {1234, 0x56780000};
    CFE_TIME_SysTime_t is;
    CFE_SB_Buffer_t *buffer;
    CHECK_STATUS(CFE_EVS_SendTimedEvent(time, 3, info, "at %u", 1234u), CFE_SUCCESS);
    CHECK_STATUS(CFE_SB_ReceiveBuffer(&buffer, events, CFE_SB_POLL), CFE_SUCCESS);
    CHECK_STATUS(CFE_MSG_GetMsgTime(&buffer->Msg, &is), CFE_SUCCESS);
    CHECK(is.Seconds == time.Seconds && is.Subseconds == time.Subseconds);
    CHECK_STATUS(CFE_EVS_SendTimedEvent(time, 3, info, NULL), CFE_EVS_INVALID_PARAMETER);
    CHECK_STATUS(CFE_EVS_SendEventWithAppID(4, info, 1, "by %d", 1), CFE_SUCCESS);
    expect("FIRST", 4, info, "by 1");
    CHECK_STATUS(CFE_EVS_SendEventWithAppID(4, info, 2, "by 2"), CFE_EVS_APP_NOT_REGISTERED);
    CHECK_STATUS(CFE_EVS_SendEventWithAppID(4, info, 3, "by 3"), CFE_EVS_APP_ILLEGAL_APP_ID);
    CHECK_STATUS(CFE_EVS_SendEventWithAppID(4, info, CFE_ES_APPID_UNDEFINED, "by none"),
                 CFE_EVS_APP_ILLEGAL_APP_ID);
    CHECK_STATUS(CFE_EVS_SendEventWithAppID(4, info, 1, NULL), CFE_EVS_INVALID_PARAMETER);
    CHECK_STATUS(CFE_EVS_SendEvent(4, 9, "no type"), CFE_EVS_INVALID_PARAMETER);
    expect_no_event();
}

static void test_events(void)
{
    events = pipe_for("EVENTS", CFE_EVS_LONG_EVENT_MSG_MID);
    CHECK_STATUS(CFE_EVS_Register(NULL, 0, CFE_EVS_EventFilter_BINARY), CFE_SUCCESS);
    check_types();
    check_filters();
    check_lock();
    check_other_events();
    check_event_housekeeping();
    reach(1);
}

static void stay_unregistered(void)
{
    wait_for(1);
}

int main(void)
{
    const struct fsw_config config = {.sends_events = true};
    fsw_configure(&config);
    run(test_bus, NULL);
    run(test_events, stay_unregistered);
    printf("services_test passed\n");
    return 0;
}
