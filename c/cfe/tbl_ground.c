/*
 * tbl_ground.c: the commands of Table Services, and its housekeeping packet. A command stages a
 * file, asks for its validation and its update, or drops it; the table's owner does the rest by
 * CFE_TBL_Manage.
 */
#include "cfe_msgids.h"
#include "cfe_tbl_events.h"
#include "layer_tbl.h"

#include <stdio.h>
#include <string.h>

/* As many single-buffered tables have a staged value at most, in the core. */
enum { SHARED_BUFFERS = 4 };

static const char service[] = "CFE_TBL";

/* ---- Counts ---- */

void fsw_note_validation(const struct table *table, bool is_active, struct verdict verdict)
{
    CFE_TBL_HousekeepingTlm_Payload_t *counts = &fsw_layer.table_counts;
    counts->ValidationCounter++;
    if (verdict.status == FSW_SUCCESS)
        counts->SuccessValCtr++;
    else
        counts->FailedValCtr++;
    counts->LastValCrc = verdict.crc;
    counts->LastValStatus = (int32)verdict.status;
    counts->ActiveBuffer = is_active;
    memcpy(counts->LastValTableName, table->name, sizeof counts->LastValTableName);
}

void fsw_note_update(const struct table *table)
{
    CFE_TBL_HousekeepingTlm_Payload_t *counts = &fsw_layer.table_counts;
    counts->LastUpdateTime = table->info.TimeOfLastUpdate;
    memcpy(counts->LastUpdatedTable, table->name, sizeof counts->LastUpdatedTable);
}

static void note_load(const struct report *report)
{
    CFE_TBL_HousekeepingTlm_Payload_t *counts = &fsw_layer.table_counts;
    fsw_resume();
    memcpy(counts->LastFileLoaded, report->file, sizeof counts->LastFileLoaded);
    memcpy(counts->LastTableLoaded, report->table, sizeof counts->LastTableLoaded);
    fsw_leave();
}

static void reset_counters(void)
{
    CFE_TBL_HousekeepingTlm_Payload_t *counts = &fsw_layer.table_counts;
    fsw_resume();
    counts->CommandCounter = counts->CommandErrorCounter = 0;
    counts->SuccessValCtr = counts->FailedValCtr = counts->NumValRequests = 0;
    counts->ValidationCounter = 0;
    fsw_leave();
    fsw_reply(service, CFE_TBL_RESET_INF_EID, CFE_EVS_EventType_DEBUG, "Reset Counters command");
}

/* Counts the tables that are there, and what waits for them. */
static void count_tables(CFE_TBL_HousekeepingTlm_Payload_t *counts)
{
    counts->NumFreeSharedBufs = SHARED_BUFFERS;
    for (size_t i = 0; i < MOST_TABLES; i++) {
        const struct table *table = &fsw_layer.table[i];
        if (table->owner)
            counts->NumTables++;
        if (table->state == UPDATE_PENDING)
            counts->NumLoadPending++;
        if (table->state != NO_LOAD && !table->info.DoubleBuffered)
            counts->NumFreeSharedBufs--;
    }
}

void fsw_send_table_housekeeping(const struct fsw_command *command)
{
    CFE_TBL_HousekeepingTlm_t packet;
    (void)command;
    memset(&packet, 0, sizeof packet);
    CFE_MSG_Init(CFE_MSG_PTR(packet.TelemetryHeader), CFE_TBL_HK_TLM_MID, sizeof packet);
    fsw_resume();
    packet.Payload = fsw_layer.table_counts;
    count_tables(&packet.Payload);
    fsw_send_own(fsw_self->app, &packet.TelemetryHeader, sizeof packet);
    fsw_leave();
}

/* ---- Commands ---- */

/* What is answered to a command about a table. */
struct answer {
    uint16 id;
    uint16 type;
    const char *format; /* of the table's name */
};

static struct answer error_of(uint16 id, const char *format)
{
    return (struct answer){id, CFE_EVS_EventType_ERROR, format};
}

/* Sends an answer about a table; whether it is none of an error. */
static bool reply(struct answer answer, const char *name)
{
    char text[200];
    snprintf(text, sizeof text, "%s '%s'", answer.format, name);
    fsw_reply(service, answer.id, answer.type, "%s", text);
    return answer.type != CFE_EVS_EventType_ERROR;
}

static bool load_table(const struct fsw_command *command)
{
    char path[CFE_MISSION_MAX_PATH_LEN + 1];
    struct report report = {.call = "load",
                            .done = CFE_TBL_FILE_LOADED_INF_EID,
                            .failed = CFE_TBL_INTERNAL_ERROR_ERR_EID};
    const char *name = (const char *)command->bytes + sizeof(CFE_MSG_CommandHeader_t);
    snprintf(path, sizeof path, "%.*s", CFE_MISSION_MAX_PATH_LEN, name);
    report.status = fsw_stage_file(fsw_self->app, path, true, &report);
    if (report.status == FSW_SUCCESS)
        note_load(&report);
    fsw_send_report(&report);
    return report.status == FSW_SUCCESS;
}

/* A table without a validation function is valid; it has no loader. */
static bool assume_valid(struct table *table)
{
    struct fsw_bytes staged;
    uint32_t number = 0, app = fsw_self->app->number;
    if (fsw_share_table(fsw_self->app, table, &number) != FSW_SUCCESS)
        return false;
    bool is_valid = fsw_table_staged(&fsw_layer.core, app, number, &staged) == FSW_SUCCESS;
    if (is_valid)
        table->staged_crc =
            CFE_ES_CalculateCRC(staged.at, staged.len, 0, CFE_MISSION_ES_DEFAULT_CRC);
    is_valid = is_valid && fsw_table_validate(&fsw_layer.core, app, number) == FSW_SUCCESS;
    fsw_table_unregister(&fsw_layer.core, app, number);
    if (is_valid)
        table->state = table->is_commanded ? VALIDATED : UPDATE_PENDING;
    return is_valid;
}

/* Asks the owner to validate a table as it is, or what is staged for it. */
static struct answer ask_to_validate(struct table *table, bool is_active)
{
    struct answer assumed = {CFE_TBL_ASSUMED_VALID_INF_EID, CFE_EVS_EventType_INFORMATION,
                             "Valid without a validation function:"};
    struct answer asked = {CFE_TBL_VAL_REQ_MADE_INF_EID, CFE_EVS_EventType_DEBUG,
                           "Validation request issued for"};
    if (!is_active && (table->state == NO_LOAD || table->loader))
        return error_of(CFE_TBL_NO_INACTIVE_BUFFER_ERR_EID, "No inactive buffer of");
    if (!table->validate && !is_active && !assume_valid(table))
        return error_of(CFE_TBL_INTERNAL_ERROR_ERR_EID, "No handle left for");
    if (!table->validate)
        return assumed;
    fsw_layer.table_counts.NumValRequests++;
    if (is_active)
        table->is_active_due = true;
    else if (table->state < UPDATE_PENDING)
        table->state = VALIDATION_PENDING;
    return asked;
}

static struct answer activate(struct table *table)
{
    struct answer pending = {CFE_TBL_LOAD_PEND_REQ_INF_EID, CFE_EVS_EventType_DEBUG,
                             "Load pending for"};
    if (table->info.DumpOnly)
        return error_of(CFE_TBL_ACTIVATE_DUMP_ONLY_ERR_EID, "Illegal activation of dump-only");
    if (table->state == NO_LOAD)
        return error_of(CFE_TBL_ACTIVATE_ERR_EID, "No inactive image of");
    if (table->state < VALIDATED)
        return error_of(CFE_TBL_UNVALIDATED_ERR_EID, "Inactive image not validated of");
    table->state = UPDATE_PENDING;
    return pending;
}

static struct answer abort_load(struct table *table)
{
    struct load load = {fsw_self->app, table, 0};
    struct answer aborted = {CFE_TBL_LOAD_ABORT_INF_EID, CFE_EVS_EventType_INFORMATION,
                             "Load aborted of"};
    if (table->state == NO_LOAD || table->loader)
        return error_of(CFE_TBL_LOAD_ABORT_ERR_EID, "No load started of");
    if (fsw_share_table(load.app, table, &load.number) != FSW_SUCCESS)
        return error_of(CFE_TBL_INTERNAL_ERROR_ERR_EID, "No handle left for");
    fsw_drop_load(load);
    fsw_table_unregister(&fsw_layer.core, load.app->number, load.number);
    return aborted;
}

/* Does what a command asks of the table that it names. */
static bool serve_table(uint32_t code, const struct fsw_command *command)
{
    CFE_TBL_ValidateCmd_Payload_t asked;
    char name[CFE_TBL_MAX_FULL_NAME_LEN + 1];
    struct answer answer = error_of(CFE_TBL_NO_SUCH_TABLE_ERR_EID, "Unable to locate");
    const uint8_t *payload = command->bytes + sizeof(CFE_MSG_CommandHeader_t);
    memcpy(&asked, payload, sizeof asked);
    if (code == CFE_TBL_VALIDATE_CC)
        payload += offsetof(CFE_TBL_ValidateCmd_Payload_t, TableName);
    snprintf(name, sizeof name, "%.*s", CFE_TBL_MAX_FULL_NAME_LEN, (const char *)payload);
    fsw_resume();
    struct table *table = fsw_table_named(name);
    if (table && code == CFE_TBL_ACTIVATE_CC)
        answer = activate(table);
    else if (table && code == CFE_TBL_ABORT_LOAD_CC)
        answer = abort_load(table);
    else if (table && asked.ActiveTableFlag > CFE_TBL_BufferSelect_ACTIVE)
        answer = error_of(CFE_TBL_ILLEGAL_BUFF_PARAM_ERR_EID, "Illegal buffer of");
    else if (table)
        answer = ask_to_validate(table, asked.ActiveTableFlag == CFE_TBL_BufferSelect_ACTIVE);
    fsw_leave();
    return reply(answer, name);
}

static bool do_nothing(void)
{
    fsw_reply(service, CFE_TBL_NOOP_INF_EID, CFE_EVS_EventType_INFORMATION, "No-op command");
    return true;
}

/* The bytes that a command of this code has; 0 if there is no such code. */
static size_t size_of(uint32_t code)
{
    switch (code) {
    case CFE_TBL_NOOP_CC:
    case CFE_TBL_RESET_COUNTERS_CC:
        return sizeof(CFE_TBL_NoArgsCmd_t);
    case CFE_TBL_LOAD_CC:
        return sizeof(CFE_TBL_LoadCmd_t);
    case CFE_TBL_VALIDATE_CC:
        return sizeof(CFE_TBL_ValidateCmd_t);
    case CFE_TBL_ACTIVATE_CC:
    case CFE_TBL_ABORT_LOAD_CC:
        return sizeof(CFE_TBL_ActivateCmd_t);
    default:
        return 0;
    }
}

/* Whether a command is one, by its code and length; an event says what is wrong. */
static bool is_command(uint32_t code, const struct fsw_command *command)
{
    size_t size = size_of(code);
    if (size == 0)
        fsw_reply(service, CFE_TBL_CC1_ERR_EID, CFE_EVS_EventType_ERROR, "Invalid command code %u",
                  (unsigned)code);
    else if (size != command->size)
        fsw_reply(service, CFE_TBL_LEN_ERR_EID, CFE_EVS_EventType_ERROR,
                  "Invalid msg length: CC = %u, Len = %u, not %u", (unsigned)code,
                  (unsigned)command->size, (unsigned)size);
    return size > 0 && size == command->size;
}

void fsw_serve_tables(const struct fsw_command *command)
{
    uint32_t code = fsw_code_of(command);
    bool is_done = is_command(code, command);
    if (is_done && code == CFE_TBL_RESET_COUNTERS_CC) {
        reset_counters();
        return;
    }
    if (is_done)
        is_done = code == CFE_TBL_NOOP_CC   ? do_nothing()
                  : code == CFE_TBL_LOAD_CC ? load_table(command)
                                            : serve_table(code, command);
    fsw_resume();
    if (is_done)
        fsw_layer.table_counts.CommandCounter++;
    else
        fsw_layer.table_counts.CommandErrorCounter++;
    fsw_leave();
}
