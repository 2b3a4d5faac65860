/*
 * tbl_load.c: loads of tables, from an address or a file. A validation function makes calls of its
 * own, so it is called without the mutex, on the table's image, a copy of what is staged; a file is
 * read there too. Meanwhile the table has a loader, and no other load of it begins.
 */
#include "cfe_tbl_events.h"
#include "layer_tbl.h"

#include <stdio.h>
#include <string.h>

/* ---- Begin and end ---- */

/* Whether a value is staged for the table of a handle, if its application may ask. */
static uint32_t find_staged(const struct app *app, uint32_t number, bool *is_there)
{
    struct fsw_bytes staged;
    uint32_t status = fsw_table_staged(&fsw_layer.core, app->number, number, &staged);
    *is_there = status == FSW_SUCCESS;
    return status == FSW_TBL_INFO_NO_LOAD ? FSW_SUCCESS : status;
}

/* Begins what only one task does with a table at a time. */
static uint32_t begin(struct load load)
{
    if (load.table->loader)
        return FSW_TBL_ERR_LOAD_IN_PROGRESS;
    load.table->loader = load.number;
    load.table->loading = fsw_self;
    return FSW_SUCCESS;
}

static void end(struct table *table)
{
    table->loader = 0;
    table->loading = NULL;
    fsw_drop_unused(table);
}

void fsw_drop_load(struct load load)
{
    fsw_table_abort(&fsw_layer.core, load.app->number, load.number);
    load.table->state = NO_LOAD;
    load.table->is_change = false;
}

void fsw_end_loads(const struct task *task)
{
    for (size_t i = 0; i < MOST_TABLES; i++) {
        struct table *table = &fsw_layer.table[i];
        if (table->loading != task)
            continue;
        fsw_drop_load((struct load){task->app, table, table->loader});
        end(table);
    }
}

/* ---- The three steps ---- */

uint32_t fsw_stage_bytes(struct load load, uint32_t offset, const uint8_t *bytes, uint32_t length)
{
    fsw_drop_load(load);
    uint32_t status =
        fsw_table_stage(&fsw_layer.core, load.app->number, load.number, offset, bytes, length);
    if (status == FSW_TOO_LONG)
        return FSW_TBL_ERR_FILE_TOO_LARGE;
    /* The inactive buffer of a double-buffered table is held. */
    return status == FSW_TBL_INFO_TABLE_LOCKED ? FSW_TBL_ERR_NO_BUFFER_AVAIL : status;
}

/* Stages the image, if the validation function changed it. */
static uint32_t stage_changes(struct load load)
{
    struct fsw_bytes staged;
    const struct table *table = load.table;
    uint32_t status = fsw_table_staged(&fsw_layer.core, load.app->number, load.number, &staged);
    if (status != FSW_SUCCESS || memcmp(table->image, staged.at, staged.len) == 0)
        return status;
    enum load_state state = table->state;
    status = fsw_stage_bytes(load, 0, table->image, (uint32_t)staged.len);
    if (status == FSW_SUCCESS)
        load.table->state = state;
    return status;
}

/* Asks a table's validation function of these bytes; the mutex is let go meanwhile. */
static struct verdict judge(const struct table *table, uint8_t *bytes)
{
    CFE_TBL_CallbackFuncPtr_t validation = table->validate;
    size_t size = table->info.Size;
    fsw_leave();
    int32 status = validation ? validation(bytes) : CFE_SUCCESS;
    uint32_t crc = CFE_ES_CalculateCRC(bytes, size, 0, CFE_MISSION_ES_DEFAULT_CRC);
    fsw_resume();
    /* As in cFE, a positive verdict is none. */
    return (struct verdict){(uint32_t)(status > 0 ? -1 : status), crc};
}

/* Validates what is staged, by the table's function, on a copy. */
static uint32_t validate(struct load load)
{
    struct fsw_bytes staged;
    struct table *table = load.table;
    uint32_t status = fsw_table_staged(&fsw_layer.core, load.app->number, load.number, &staged);
    if (status != FSW_SUCCESS)
        return status;
    memcpy(table->image, staged.at, staged.len);
    struct verdict verdict = judge(table, table->image);
    table->staged_crc = verdict.crc;
    if (verdict.status != FSW_SUCCESS)
        return verdict.status;
    if (table->validate)
        status = stage_changes(load);
    return status == FSW_SUCCESS
               ? fsw_table_validate(&fsw_layer.core, load.app->number, load.number)
               : status;
}

/* Notes what the table's bytes are now. */
static void note_value(const struct app *app, struct table *table, uint32_t number)
{
    struct fsw_table_status figures;
    CFE_TBL_Info_t *info = &table->info;
    info->Crc = table->staged_crc;
    info->TableLoadedOnce = true;
    info->TimeOfLastUpdate = CFE_TIME_GetTime();
    info->FileCreateTimeSecs = table->source.seconds;
    info->FileCreateTimeSubSecs = table->source.subseconds;
    snprintf(info->LastFileLoaded, sizeof info->LastFileLoaded, "%s", table->source.name);
    /* The owner's copy is of its own change. */
    if (table->is_change &&
        fsw_table_status(&fsw_layer.core, app->number, number, &figures) == FSW_SUCCESS)
        table->copied = figures.version;
    table->state = NO_LOAD;
    table->is_change = false;
    fsw_note_update(table);
}

uint32_t fsw_update_table(const struct app *app, struct table *table, uint32_t number)
{
    uint32_t status = fsw_table_update(&fsw_layer.core, app->number, number);
    if (status == FSW_SUCCESS)
        note_value(app, table, number);
    else if (status == FSW_TBL_INFO_TABLE_LOCKED)
        table->state = UPDATE_PENDING;
    return status;
}

/* ---- Loads by an application ---- */

/* Stages, validates and updates. If one is refused, nothing stays staged, but in a held table. */
static uint32_t load_bytes(struct load load, uint32_t offset, const uint8_t *bytes, uint32_t length)
{
    uint32_t status = fsw_stage_bytes(load, offset, bytes, length);
    if (status != FSW_SUCCESS)
        return status;
    status = validate(load);
    if (status == FSW_SUCCESS)
        status = fsw_update_table(load.app, load.table, load.number);
    if (status != FSW_SUCCESS && status != FSW_TBL_INFO_TABLE_LOCKED)
        fsw_drop_load(load);
    return status;
}

/* Why a table file is none for a table of this size; its length is cFE's affair, and at least 1. */
static uint32_t misfit(const struct table_file *file, size_t size)
{
    if ((uint64_t)file->offset + file->length > size)
        return FSW_TBL_ERR_FILE_TOO_LARGE;
    return file->length == 0 ? FSW_TBL_ERR_FILE_SIZE : FSW_SUCCESS;
}

/* Reads a file to the image, which is zeros elsewhere; without the mutex. */
static uint32_t read_image(const struct table *table, const char *path, struct table_file *file)
{
    uint32_t status = fsw_open_table_file(path, file);
    if (status != FSW_SUCCESS)
        return status;
    status = misfit(file, table->info.Size);
    if (status == FSW_SUCCESS && strcmp(table->name, file->table) != 0)
        status = (uint32_t)CFE_TBL_ERR_FILE_FOR_WRONG_TABLE;
    if (status != FSW_SUCCESS) {
        fsw_close_table_file(file);
        return status;
    }
    memset(table->image, 0, table->info.Size);
    return fsw_read_table_file(file, table->image);
}

static uint32_t load_file(struct load load, const char *path)
{
    struct table *table = load.table;
    struct table_file file;
    uint32_t size = (uint32_t)table->info.Size;
    bool is_first = !table->info.TableLoadedOnce;
    fsw_leave();
    uint32_t status = read_image(table, path, &file);
    fsw_resume();
    if (status == FSW_SUCCESS && is_first && file.offset > 0)
        status = FSW_TBL_ERR_PARTIAL_LOAD;
    if (status != FSW_SUCCESS)
        return status;
    table->source = file.source;
    if (!is_first)
        return load_bytes(load, file.offset, table->image + file.offset, file.length);
    status = load_bytes(load, 0, table->image, size);
    /* As in cFE, the verdict of a validation function stands in place of the warning. */
    bool is_short = file.length < size && !table->validate;
    return status == FSW_SUCCESS && is_short ? (uint32_t)CFE_TBL_WARN_SHORT_FILE : status;
}

static uint32_t load_address(struct load load, const void *at)
{
    struct table *table = load.table;
    table->source = (struct source){.seconds = 0};
    snprintf(table->source.name, sizeof table->source.name, "Addr 0x%08lX",
             (unsigned long)(uintptr_t)at);
    return load_bytes(load, 0, at, (uint32_t)table->info.Size);
}

/* Begins a load by an application's handle. */
static uint32_t begin_load(struct app *app, CFE_TBL_Handle_t TblHandle, struct load *load)
{
    const struct handle *handle = fsw_handle_at(TblHandle);
    bool is_there;
    *load = (struct load){app, handle->table, handle->number};
    uint32_t status = find_staged(app, load->number, &is_there);
    if (status != FSW_SUCCESS)
        return status;
    if (load->table->info.DumpOnly)
        return FSW_TBL_ERR_DUMP_ONLY;
    return is_there ? FSW_TBL_ERR_LOAD_IN_PROGRESS : begin(*load);
}

/* The report of a call by a handle. */
static struct report report_of(const char *call, uint16 done, uint16 failed,
                               const struct handle *handle)
{
    struct report report = {.call = call, .done = done, .failed = failed};
    if (handle->table)
        snprintf(report.table, sizeof report.table, "%s", handle->table->name);
    return report;
}

static CFE_Status_t leave_with_report(struct report *report, uint32_t status)
{
    fsw_leave();
    report->status = status;
    fsw_send_report(report);
    return fsw_status(status, CFE_TBL_BAD_ARGUMENT);
}

CFE_Status_t CFE_TBL_Load(CFE_TBL_Handle_t TblHandle, CFE_TBL_SrcEnum_t SrcType,
                          const void *SrcDataPtr)
{
    struct load load;
    if (!SrcDataPtr)
        return CFE_TBL_BAD_ARGUMENT;
    struct app *app = fsw_enter();
    if (!app)
        return CFE_ES_ERR_RESOURCEID_NOT_VALID;
    struct report report =
        report_of("load", 0, CFE_TBL_VALIDATION_ERR_EID, fsw_handle_at(TblHandle));
    if (SrcType == CFE_TBL_SRC_FILE)
        snprintf(report.file, sizeof report.file, "%s", (const char *)SrcDataPtr);
    uint32_t status = begin_load(app, TblHandle, &load);
    if (status == FSW_SUCCESS) {
        if (SrcType == CFE_TBL_SRC_FILE)
            status = load_file(load, SrcDataPtr);
        else if (SrcType == CFE_TBL_SRC_ADDRESS)
            status = load_address(load, SrcDataPtr);
        else
            status = (uint32_t)CFE_TBL_ERR_ILLEGAL_SRC_TYPE;
        end(load.table);
    }
    return leave_with_report(&report, status);
}

/* ---- Loads that wait ---- */

/* Begins a load for the table that a file names, by a handle of the caller's own. */
static uint32_t begin_named(struct app *app, const struct table_file *file, bool is_commanded,
                            struct load *load)
{
    bool is_there;
    *load = (struct load){app, fsw_table_named(file->table), 0};
    if (!load->table)
        return FSW_TBL_ERR_INVALID_NAME;
    if (load->table->info.DumpOnly)
        return FSW_TBL_ERR_DUMP_ONLY;
    uint32_t status = misfit(file, load->table->info.Size);
    if (status == FSW_SUCCESS)
        status = fsw_share_table(app, load->table, &load->number);
    if (status != FSW_SUCCESS)
        return status;
    status = find_staged(app, load->number, &is_there);
    /* As in cFE, a command may load over what a command loaded. */
    if (is_there && (!is_commanded || load->table->state == UPDATE_PENDING))
        status = FSW_TBL_ERR_LOAD_IN_PROGRESS;
    else if (!is_there && !load->table->info.TableLoadedOnce && file->offset > 0)
        status = FSW_TBL_ERR_PARTIAL_LOAD;
    if (status == FSW_SUCCESS)
        status = begin(*load);
    if (status != FSW_SUCCESS)
        fsw_table_unregister(&fsw_layer.core, app->number, load->number);
    return status;
}

/* What the bytes of a file are read over: what is staged, or zeros. Whether it is staged whole. */
static bool fill_image(struct load load)
{
    struct fsw_bytes staged;
    struct table *table = load.table;
    memset(table->image, 0, table->info.Size);
    if (fsw_table_staged(&fsw_layer.core, load.app->number, load.number, &staged) == FSW_SUCCESS) {
        memcpy(table->image, staged.at, staged.len);
        return true;
    }
    return !table->info.TableLoadedOnce;
}

/* Reads a file to the image of a table that has a loader, and stages it. */
static uint32_t stage_named(struct load load, const struct table_file *file, bool is_commanded)
{
    struct table *table = load.table;
    bool is_whole = fill_image(load);
    fsw_leave();
    uint32_t status = fsw_read_table_file(file, table->image);
    fsw_resume();
    if (status != FSW_SUCCESS)
        return status;
    status = is_whole
                 ? fsw_stage_bytes(load, 0, table->image, (uint32_t)table->info.Size)
                 : fsw_stage_bytes(load, file->offset, table->image + file->offset, file->length);
    if (status != FSW_SUCCESS)
        return status;
    table->source = file->source;
    table->is_commanded = is_commanded;
    table->state = is_commanded ? LOADED : VALIDATION_PENDING;
    return status;
}

uint32_t fsw_stage_file(struct app *app, const char *path, bool is_commanded, struct report *report)
{
    struct table_file file;
    struct load load;
    snprintf(report->file, sizeof report->file, "%s", path);
    uint32_t status = fsw_open_table_file(path, &file);
    if (status != FSW_SUCCESS)
        return status;
    snprintf(report->table, sizeof report->table, "%s", file.table);
    fsw_resume();
    status = begin_named(app, &file, is_commanded, &load);
    if (status == FSW_SUCCESS) {
        status = stage_named(load, &file, is_commanded);
        fsw_table_unregister(&fsw_layer.core, app->number, load.number);
        end(load.table);
    } else {
        fsw_close_table_file(&file);
    }
    fsw_leave();
    return status;
}

CFE_Status_t fsw_stage_table(const char *file)
{
    struct report report = {.call = "stage",
                            .done = CFE_TBL_FILE_LOADED_INF_EID,
                            .failed = CFE_TBL_INTERNAL_ERROR_ERR_EID};
    if (!file)
        return CFE_TBL_BAD_ARGUMENT;
    struct app *app = fsw_enter();
    if (!app)
        return CFE_ES_ERR_RESOURCEID_NOT_VALID;
    fsw_leave();
    report.status = fsw_stage_file(app, file, false, &report);
    fsw_send_report(&report);
    return fsw_status(report.status, CFE_TBL_BAD_ARGUMENT);
}

/* Makes the validation of what is staged. What isn't valid waits for a ground command. */
static uint32_t validate_staged(struct load load)
{
    struct table *table = load.table;
    uint32_t status = validate(load);
    fsw_note_validation(table, false, (struct verdict){status, table->staged_crc});
    if (status == FSW_SUCCESS)
        table->state = table->is_commanded ? VALIDATED : UPDATE_PENDING;
    else if (table->is_commanded)
        table->state = LOADED;
    else
        fsw_drop_load(load);
    return status;
}

/* Makes the validation of a table as it is: of a dump-only one there, of another on a copy. */
static uint32_t validate_active(struct load load)
{
    struct fsw_address address = {NULL, 0, 0};
    struct table *table = load.table;
    uint32_t number = 0, status = FSW_SUCCESS;
    if (!table->info.DumpOnly)
        status = fsw_share_table(load.app, table, &number);
    if (status != FSW_SUCCESS)
        return status;
    if (number) {
        fsw_table_get_address(&fsw_layer.core, load.app->number, number, &address);
        if (address.at)
            memcpy(table->image, address.at, address.len);
        fsw_table_unregister(&fsw_layer.core, load.app->number, number);
    }
    table->is_active_due = false;
    struct verdict verdict = judge(table, number ? table->image : table->copy);
    fsw_note_validation(table, true, verdict);
    return verdict.status;
}

CFE_Status_t CFE_TBL_Validate(CFE_TBL_Handle_t TblHandle)
{
    bool is_there = false;
    struct app *app = fsw_enter();
    if (!app)
        return CFE_ES_ERR_RESOURCEID_NOT_VALID;
    struct handle *handle = fsw_handle_at(TblHandle);
    struct report report =
        report_of("validation", CFE_TBL_VALIDATION_INF_EID, CFE_TBL_VALIDATION_ERR_EID, handle);
    struct load load = {app, handle->table, handle->number};
    uint32_t status = find_staged(app, load.number, &is_there);
    bool is_due = is_there && load.table && load.table->state == VALIDATION_PENDING;
    if (status == FSW_SUCCESS && !is_due && !(load.table && load.table->is_active_due))
        status = FSW_TBL_INFO_NO_LOAD;
    if (status == FSW_SUCCESS)
        status = begin(load);
    if (status != FSW_SUCCESS)
        return leave_with_report(&report, status);
    status = is_due ? validate_staged(load) : validate_active(load);
    end(load.table);
    /* As in cFE, that a validation was made is success; the event has its verdict. */
    leave_with_report(&report, status);
    return CFE_SUCCESS;
}

/* What the table of a handle waits for, if the caller may ask. */
static uint32_t state_of(const struct app *app, const struct handle *handle, enum load_state *state)
{
    bool is_there;
    uint32_t status = find_staged(app, handle->number, &is_there);
    if (status == FSW_SUCCESS)
        *state = handle->table->state;
    return status;
}

CFE_Status_t CFE_TBL_Update(CFE_TBL_Handle_t TblHandle)
{
    enum load_state state = NO_LOAD;
    struct app *app = fsw_enter();
    if (!app)
        return CFE_ES_ERR_RESOURCEID_NOT_VALID;
    struct handle *handle = fsw_handle_at(TblHandle);
    struct report report =
        report_of("update", CFE_TBL_UPDATE_SUCCESS_INF_EID, CFE_TBL_UPDATE_ERR_EID, handle);
    uint32_t status = state_of(app, handle, &state);
    if (status == FSW_SUCCESS)
        status = state == UPDATE_PENDING ? fsw_update_table(app, handle->table, handle->number)
                                         : FSW_TBL_INFO_NO_UPDATE_PENDING;
    return leave_with_report(&report, status);
}

CFE_Status_t CFE_TBL_GetStatus(CFE_TBL_Handle_t TblHandle)
{
    static const CFE_Status_t answers[] = {[VALIDATION_PENDING] = CFE_TBL_INFO_VALIDATION_PENDING,
                                           [UPDATE_PENDING] = CFE_TBL_INFO_UPDATE_PENDING};
    enum load_state state = NO_LOAD;
    struct app *app = fsw_enter();
    if (!app)
        return CFE_ES_ERR_RESOURCEID_NOT_VALID;
    const struct handle *handle = fsw_handle_at(TblHandle);
    uint32_t status = state_of(app, handle, &state);
    if (status == FSW_SUCCESS && handle->table->is_active_due)
        state = VALIDATION_PENDING;
    fsw_leave();
    return status == FSW_SUCCESS ? answers[state] : fsw_status(status, CFE_TBL_BAD_ARGUMENT);
}

CFE_Status_t CFE_TBL_Manage(CFE_TBL_Handle_t TblHandle)
{
    enum { VALIDATIONS = 2 }; /* of what is staged, and of the table as it is */
    CFE_Status_t status = CFE_TBL_GetStatus(TblHandle);
    for (int i = 0; i < VALIDATIONS && status == CFE_TBL_INFO_VALIDATION_PENDING; i++) {
        status = CFE_TBL_Validate(TblHandle);
        if (status == CFE_SUCCESS)
            status = CFE_TBL_GetStatus(TblHandle);
    }
    return status == CFE_TBL_INFO_UPDATE_PENDING ? CFE_TBL_Update(TblHandle) : status;
}

/* Nothing asks for a dump here, so none is pending. */
CFE_Status_t CFE_TBL_DumpToBuffer(CFE_TBL_Handle_t TblHandle)
{
    return CFE_TBL_GetStatus(TblHandle);
}
