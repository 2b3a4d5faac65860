/*
 * sample_test.c: plays ground for sample_app on the bus: each command of its table, and each way
 * in which one is refused, by the counters in housekeeping and the events that come.
 *
 *     sample_test FOLDER     where table files are written
 */
#include "cfe_msgids.h"
#include "cfe_tbl_events.h"
#include "check.h"
#include "command.h"
#include "fsw_run.h"
#include "sample_app.h"

#include <string.h>
#include <unistd.h>

static const char *folder = ".";
static CFE_SB_PipeId_t hk_pipe, event_pipe;

/* The next event, which is to be this one's, with this id and text. */
static void expect_event_of(const char *app, uint16 id, const char *text)
{
    CFE_SB_Buffer_t *buffer;
    CFE_EVS_LongEventTlm_t event;
    CHECK_STATUS(CFE_SB_ReceiveBuffer(&buffer, event_pipe, 10000), CFE_SUCCESS);
    memcpy(&event, buffer, sizeof event);
    if (event.Payload.PacketID.EventID != id || strcmp(event.Payload.Message, text) != 0)
        printf("event %u: %s\n", event.Payload.PacketID.EventID, event.Payload.Message);
    CHECK(event.Payload.PacketID.EventID == id);
    CHECK(strcmp(event.Payload.Message, text) == 0);
    CHECK(strcmp(event.Payload.PacketID.AppName, app) == 0);
}

static void expect_event(uint16 id, const char *text)
{
    expect_event_of("SAMPLE_APP", id, text);
}

/* Table Services' event of what it did with the table, and where the table is from. */
static void expect_table_event(uint16 id, const char *did, const char *behind, const char *path)
{
    char text[200];
    snprintf(text, sizeof text, "%s of SAMPLE_APP.SampleAppTable%s%s%s", did, behind,
             path ? " from " : "", path ? path : "");
    expect_event_of("CFE_TBL", id, text);
}

static void expect_no_event(void)
{
    CFE_SB_Buffer_t *buffer;
    CHECK_STATUS(CFE_SB_ReceiveBuffer(&buffer, event_pipe, 20), CFE_SB_TIME_OUT);
}

static void expect_housekeeping(uint8 accepted, uint8 refused, uint16 sum)
{
    CFE_SB_Buffer_t *buffer;
    SAMPLE_APP_HkTlm_t hk;
    send_command(SAMPLE_APP_SEND_HK_MID, 0, NULL, 0);
    CHECK_STATUS(CFE_SB_ReceiveBuffer(&buffer, hk_pipe, 10000), CFE_SUCCESS);
    memcpy(&hk, buffer, sizeof hk);
    CHECK(hk.CommandCounter == accepted);
    CHECK(hk.CommandErrorCounter == refused);
    CHECK(hk.Sum == sum);
}

static const char *write_table(uint16 first, uint16 second)
{
    static char path[OS_MAX_PATH_LEN];
    SAMPLE_APP_Table_t table = {first, second};
    uint8 headers[116] = {'c', 'F', 'E', '1', 0, 0, 0, 8};
    headers[75] = sizeof table;
    strcpy((char *)headers + 76, "SAMPLE_APP.SampleAppTable");
    CHECK(snprintf(path, sizeof path, "%s/sample.tbl", folder) < (int)sizeof path);
    FILE *file = fopen(path, "wb");
    CHECK(file && fwrite(headers, sizeof headers, 1, file) == 1);
    CHECK(fwrite(&table, sizeof table, 1, file) == 1);
    fclose(file);
    return path;
}

static void ask_to_load(const char *path)
{
    char argument[OS_MAX_PATH_LEN] = {0};
    snprintf(argument, sizeof argument, "%s", path);
    send_command(SAMPLE_APP_CMD_MID, SAMPLE_APP_LOAD_TABLE_CC, argument, sizeof argument);
}

static void expect_answer(uint16 id, const char *path, const char *answer)
{
    char expected[122];
    snprintf(expected, sizeof expected, "SAMPLE: %s %s", path, answer);
    expect_event(id, expected);
}

static void load_tables(void)
{
    const char *none = "/no/such/file", *path = write_table(10, 20);
    ask_to_load(path);
    expect_answer(SAMPLE_APP_TABLE_INF_EID, path, "loaded");
    send_command(SAMPLE_APP_CMD_MID, SAMPLE_APP_PROCESS_CC, NULL, 0);
    expect_event(SAMPLE_APP_PROCESS_INF_EID, "SAMPLE: sum 30");
    expect_housekeeping(5, 1, 30);
    path = write_table(11, 2);
    ask_to_load(path);
    expect_event(SAMPLE_APP_TABLE_ERR_EID, "SAMPLE: table out of range, 11 and 2");
    expect_table_event(CFE_TBL_VALIDATION_ERR_EID, "load", " refused 0xffffffff", path);
    expect_answer(SAMPLE_APP_TABLE_ERR_EID, path, "not loaded, 0xffffffff");
    ask_to_load(none);
    expect_table_event(CFE_TBL_FILE_ACCESS_ERR_EID, "load", " refused 0xcc00002c", none);
    expect_answer(SAMPLE_APP_TABLE_ERR_EID, none, "not loaded, 0xcc00002c");
    expect_housekeeping(5, 3, 30);
    /* A table that ground stages is validated and updated with the next housekeeping. */
    path = write_table(3, 4);
    CHECK_STATUS(fsw_stage_table(path), CFE_SUCCESS);
    expect_table_event(CFE_TBL_FILE_LOADED_INF_EID, "stage", "", path);
    expect_housekeeping(5, 3, 30);
    expect_table_event(CFE_TBL_VALIDATION_INF_EID, "validation", "", NULL);
    expect_table_event(CFE_TBL_UPDATE_SUCCESS_INF_EID, "update", "", NULL);
    send_command(SAMPLE_APP_CMD_MID, SAMPLE_APP_PROCESS_CC, NULL, 0);
    expect_event(SAMPLE_APP_PROCESS_INF_EID, "SAMPLE: sum 7");
}

static void play(void)
{
    const struct {
        uint32 value;
        char text[12];
    } argument = {42, "forty-two"};
    uint32 id = SAMPLE_APP_CMD_MID;
    send_command(id, SAMPLE_APP_NOOP_CC, NULL, 0);
    expect_event(SAMPLE_APP_NOOP_INF_EID, "SAMPLE: NOOP command");
    expect_housekeeping(1, 0, 0);
    send_command(id, SAMPLE_APP_NOOP_CC, &argument, 4);
    expect_event(SAMPLE_APP_LEN_ERR_EID, "SAMPLE: length 12, expected 8");
    expect_housekeeping(1, 1, 0);
    send_command(id, SAMPLE_APP_PROCESS_CC, NULL, 0);
    expect_event(SAMPLE_APP_PROCESS_INF_EID, "SAMPLE: sum 3");
    expect_housekeeping(2, 1, 3);
    send_command(id, SAMPLE_APP_DISPLAY_PARAM_CC, &argument, sizeof argument);
    expect_event(SAMPLE_APP_VALUE_INF_EID, "SAMPLE: value 42, text forty-two");
    expect_housekeeping(3, 1, 3);
    load_tables();
    /* The filter lets eight events of an unknown code through. */
    for (int i = 0; i < 10; i++) {
        send_command(id, 99, NULL, 0);
        if (i < 8)
            expect_event(SAMPLE_APP_CC_ERR_EID, "SAMPLE: invalid command code 99");
    }
    expect_no_event();
    expect_housekeeping(6, 13, 7);
    send_command(id, SAMPLE_APP_RESET_COUNTERS_CC, &argument, 1);
    expect_event(SAMPLE_APP_LEN_ERR_EID, "SAMPLE: length 9, expected 8");
    expect_housekeeping(6, 14, 7);
    send_command(id, SAMPLE_APP_RESET_COUNTERS_CC, NULL, 0);
    expect_event(SAMPLE_APP_RESET_INF_EID, "SAMPLE: RESET command");
    expect_housekeeping(0, 0, 7);
}

static void ground(void)
{
    CHECK_STATUS(CFE_SB_CreatePipe(&hk_pipe, 8, "GROUND_HK"), CFE_SUCCESS);
    CHECK_STATUS(CFE_SB_CreatePipe(&event_pipe, 32, "GROUND_EVENTS"), CFE_SUCCESS);
    CHECK_STATUS(CFE_SB_Subscribe(SAMPLE_APP_HK_TLM_MID, hk_pipe), CFE_SUCCESS);
    CHECK_STATUS(CFE_SB_SubscribeEx(CFE_EVS_LONG_EVENT_MSG_MID, event_pipe, CFE_SB_DEFAULT_QOS, 32),
                 CFE_SUCCESS);
    CFE_ES_WaitForStartupSync(10000);
    CFE_SB_Buffer_t *buffer;
    while (CFE_SB_ReceiveBuffer(&buffer, event_pipe, CFE_SB_POLL) == CFE_SUCCESS)
        ;
    play();
    fsw_stop();
}

int main(int argc, char **argv)
{
    static const struct fsw_app apps[] = {{.name = "SAMPLE_APP", .entry = SAMPLE_APP_Main},
                                          {.name = "GROUND", .entry = ground}};
    const struct fsw_config config = {.sends_events = true, .prints_events = false};
    if (argc > 1)
        folder = argv[1];
    fsw_configure(&config);
    CHECK(fsw_run(NULL, apps, 2) == 0);
    unlink(write_table(0, 0));
    printf("sample_test passed\n");
    return 0;
}
