/* tbl_report.c: the events of Table Services. */
#include "cfe_tbl_events.h"
#include "layer_tbl.h"

#include <stdio.h>

/* The refusals that have events of their own. */
static const struct {
    CFE_Status_t status;
    uint16 id;
} refusals[] = {{CFE_TBL_ERR_INVALID_HANDLE, CFE_TBL_HANDLE_ACCESS_ERR_EID},
                {CFE_TBL_ERR_NO_ACCESS, CFE_TBL_HANDLE_ACCESS_ERR_EID},
                {CFE_TBL_ERR_UNREGISTERED, CFE_TBL_HANDLE_ACCESS_ERR_EID},
                {CFE_TBL_ERR_INVALID_NAME, CFE_TBL_NO_SUCH_TABLE_ERR_EID},
                {CFE_TBL_ERR_DUMP_ONLY, CFE_TBL_LOADING_A_DUMP_ONLY_ERR_EID},
                {CFE_TBL_ERR_ILLEGAL_SRC_TYPE, CFE_TBL_LOAD_TYPE_ERR_EID},
                {CFE_TBL_ERR_LOAD_IN_PROGRESS, CFE_TBL_LOAD_IN_PROGRESS_ERR_EID},
                {CFE_TBL_ERR_NO_BUFFER_AVAIL, CFE_TBL_NO_WORK_BUFFERS_ERR_EID},
                {CFE_TBL_ERR_FILENAME_TOO_LONG, CFE_TBL_LOAD_FILENAME_LONG_ERR_EID},
                {CFE_TBL_ERR_ACCESS, CFE_TBL_FILE_ACCESS_ERR_EID},
                {CFE_TBL_ERR_NO_STD_HEADER, CFE_TBL_FILE_STD_HDR_ERR_EID},
                {CFE_TBL_ERR_BAD_CONTENT_ID, CFE_TBL_FILE_TYPE_ERR_EID},
                {CFE_TBL_ERR_BAD_SUBTYPE_ID, CFE_TBL_FILE_SUBTYPE_ERR_EID},
                {CFE_TBL_ERR_NO_TBL_HEADER, CFE_TBL_FILE_TBL_HDR_ERR_EID},
                {CFE_TBL_ERR_FILE_TOO_LARGE, CFE_TBL_LOAD_EXCEEDS_SIZE_ERR_EID},
                {CFE_TBL_ERR_FILE_SIZE_INCONSISTENT, CFE_TBL_ZERO_LENGTH_LOAD_ERR_EID},
                {CFE_TBL_ERR_FILE_FOR_WRONG_TABLE, CFE_TBL_LOAD_TBLNAME_MISMATCH_ERR_EID},
                {CFE_TBL_ERR_LOAD_INCOMPLETE, CFE_TBL_FILE_INCOMPLETE_ERR_EID},
                {CFE_TBL_ERR_PARTIAL_LOAD, CFE_TBL_PARTIAL_LOAD_ERR_EID}};

static uint16 event_of(const struct report *report)
{
    if (report->status == FSW_SUCCESS)
        return report->done;
    for (size_t i = 0; i < sizeof refusals / sizeof refusals[0]; i++)
        if (report->status == (uint32_t)refusals[i].status)
            return refusals[i].id;
    return report->failed;
}

void fsw_send_report(const struct report *report)
{
    char text[200], refused[32] = "";
    CFE_Status_t status = fsw_status(report->status, CFE_TBL_BAD_ARGUMENT);
    uint16 id = event_of(report);
    bool is_good = status == CFE_SUCCESS;
    /* A positive status says what a call waits for, and is no refusal. */
    if (id == 0 || status > CFE_SUCCESS)
        return;
    if (!is_good)
        snprintf(refused, sizeof refused, " refused 0x%08x", (unsigned)status);
    snprintf(text, sizeof text, "%s of %s%s%s%s", report->call,
             report->table[0] ? report->table : "no table", refused,
             report->file[0] ? " from " : "", report->file);
    fsw_send_service_event("CFE_TBL", id,
                           is_good ? CFE_EVS_EventType_INFORMATION : CFE_EVS_EventType_ERROR, text);
}
