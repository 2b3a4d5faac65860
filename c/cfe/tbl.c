/*
 * tbl.c: Table Services in cFE's names: full names, handles and addresses. The core has each
 * table's versions, and which handle holds which. The layer has the bytes of dump-only tables, a
 * copy of each other table where its owner may write, and what each handle was last told.
 */
#include "layer_tbl.h"

#include <stdio.h>
#include <string.h>

/* What isn't one of the core's options. */
enum { NO_OPTION = 3 };

/* cFE's mark of a table whose bytes were changed in place. */
static const char mark[] = "(*)";

/* ---- Names and handles ---- */

struct table *fsw_table_named(const char *name)
{
    for (size_t i = 0; i < MOST_TABLES; i++)
        if (fsw_layer.table[i].owner && strcmp(fsw_layer.table[i].name, name) == 0)
            return &fsw_layer.table[i];
    return NULL;
}

/* A table's name in the core, whose names are shorter than full ones: its place. */
struct core_name {
    char text[12];
};

static struct core_name core_name_of(const struct table *table)
{
    struct core_name name;
    snprintf(name.text, sizeof name.text, "%u", (unsigned)(table - fsw_layer.table));
    return name;
}

uint32_t fsw_share_table(const struct app *app, const struct table *table, uint32_t *number)
{
    struct core_name known = core_name_of(table);
    return fsw_table_share(&fsw_layer.core, app->number, known.text, strlen(known.text), number);
}

struct handle *fsw_handle_at(CFE_TBL_Handle_t handle)
{
    static struct handle none;
    return 0 <= handle && handle < MOST_HANDLES ? &fsw_layer.handle[handle] : &none;
}

/* The handle with this number in the core; CFE_TBL_BAD_TABLE_HANDLE if there is none. */
static CFE_TBL_Handle_t handle_numbered(uint32_t number)
{
    for (CFE_TBL_Handle_t handle = 0; handle < MOST_HANDLES; handle++)
        if (fsw_layer.handle[handle].number == number)
            return handle;
    return CFE_TBL_BAD_TABLE_HANDLE;
}

/* Adds a handle that the core gave; the application knows the table as it is. */
static uint32_t add_handle(struct app *app, struct table *table, uint32_t number,
                           CFE_TBL_Handle_t *handle)
{
    struct fsw_table_status figures = {.version = 0};
    uint32_t status = fsw_table_status(&fsw_layer.core, app->number, number, &figures);
    *handle = handle_numbered(0);
    if (status != FSW_SUCCESS || *handle == CFE_TBL_BAD_TABLE_HANDLE) {
        fsw_table_unregister(&fsw_layer.core, app->number, number);
        return FSW_TBL_ERR_HANDLES_FULL;
    }
    fsw_layer.handle[*handle] = (struct handle){
        .number = number,
        .app = app,
        .table = table,
        .told = table->info.DumpOnly ? table->changes : figures.version,
    };
    table->users++;
    return FSW_SUCCESS;
}

void fsw_drop_unused(struct table *table)
{
    if (table->users > 0 || table->loader)
        return;
    if (table->memory)
        fsw_give_table_memory(table);
    *table = (struct table){.users = 0};
}

/* Lets a handle go that the core has back. */
static void drop_handle(struct handle *handle)
{
    struct table *table = handle->table;
    if (table->owner == handle->number) {
        table->owner = 0;
        table->state = NO_LOAD;
        table->is_active_due = false;
    }
    *handle = (struct handle){.number = 0};
    table->users--;
    fsw_drop_unused(table);
}

/* ---- Registration ---- */

static uint32_t option_of(uint16 flags)
{
    switch (flags) {
    case CFE_TBL_OPT_DEFAULT:
        return FSW_TABLE_SINGLE;
    case CFE_TBL_OPT_DBL_BUFFER:
        return FSW_TABLE_DOUBLE;
    case CFE_TBL_OPT_DUMP_ONLY:
        return FSW_TABLE_DUMP_ONLY;
    default:
        return NO_OPTION;
    }
}

/* The table of this full name, or a place for one; null if there is none. */
static struct table *place_table(const char *name)
{
    struct table *table = fsw_table_named(name);
    for (size_t i = 0; !table && i < MOST_TABLES; i++)
        if (fsw_layer.table[i].users == 0 && !fsw_layer.table[i].loader)
            table = &fsw_layer.table[i];
    return table;
}

/* Takes the memory and the handle of a table that the core registered. */
static uint32_t set_up_table(struct app *app, struct table *table, uint32_t number,
                             CFE_TBL_Handle_t *handle)
{
    uint32_t status = FSW_TBL_ERR_NO_BUFFER_AVAIL;
    if (fsw_take_table_memory(table))
        status = add_handle(app, table, number, handle);
    else
        fsw_table_unregister(&fsw_layer.core, app->number, number);
    if (status == FSW_SUCCESS)
        table->owner = number;
    else
        fsw_drop_unused(table);
    return status;
}

static uint32_t register_table(struct app *app, const char *name, size_t size, uint16 flags,
                               CFE_TBL_CallbackFuncPtr_t validate, CFE_TBL_Handle_t *handle)
{
    char full[CFE_TBL_MAX_FULL_NAME_LEN];
    uint32_t number = 0;
    if (name[0] == '\0' || strlen(name) >= CFE_MISSION_TBL_MAX_NAME_LENGTH)
        return FSW_TBL_ERR_INVALID_NAME;
    if (size > UINT32_MAX)
        return FSW_TBL_ERR_INVALID_SIZE;
    snprintf(full, sizeof full, "%s.%s", app->name, name);
    struct table *table = place_table(full);
    if (!table)
        return FSW_TBL_ERR_REGISTRY_FULL;
    struct core_name known = core_name_of(table);
    uint32_t status =
        fsw_table_register(&fsw_layer.core, app->number, known.text, strlen(known.text),
                           (uint32_t)size, option_of(flags), NULL, 0, &number);
    if (status == FSW_TBL_WARN_DUPLICATE)
        *handle = handle_numbered(number);
    if (status != FSW_SUCCESS)
        return status;
    *table = (struct table){.validate = validate};
    snprintf(table->name, sizeof table->name, "%s", full);
    table->info.Size = size;
    table->info.DumpOnly = flags == CFE_TBL_OPT_DUMP_ONLY;
    table->info.DoubleBuffered = flags == CFE_TBL_OPT_DBL_BUFFER;
    /* As in cFE, its owner writes it: it counts as loaded. */
    table->info.TableLoadedOnce = table->info.DumpOnly;
    return set_up_table(app, table, number, handle);
}

CFE_Status_t CFE_TBL_Register(CFE_TBL_Handle_t *TblHandlePtr, const char *Name, size_t Size,
                              uint16 TblOptionFlags, CFE_TBL_CallbackFuncPtr_t TblValidationFuncPtr)
{
    if (!TblHandlePtr || !Name)
        return CFE_TBL_BAD_ARGUMENT;
    *TblHandlePtr = CFE_TBL_BAD_TABLE_HANDLE;
    struct app *app = fsw_enter();
    if (!app)
        return CFE_ES_ERR_RESOURCEID_NOT_VALID;
    uint32_t status =
        register_table(app, Name, Size, TblOptionFlags, TblValidationFuncPtr, TblHandlePtr);
    return fsw_leave_with(status, CFE_TBL_BAD_ARGUMENT);
}

CFE_Status_t CFE_TBL_Share(CFE_TBL_Handle_t *TblHandlePtr, const char *TblName)
{
    uint32_t number = 0, status = FSW_TBL_ERR_INVALID_NAME;
    if (!TblHandlePtr || !TblName)
        return CFE_TBL_BAD_ARGUMENT;
    *TblHandlePtr = CFE_TBL_BAD_TABLE_HANDLE;
    struct app *app = fsw_enter();
    if (!app)
        return CFE_ES_ERR_RESOURCEID_NOT_VALID;
    struct table *table = fsw_table_named(TblName);
    if (table)
        status = fsw_share_table(app, table, &number);
    if (status == FSW_SUCCESS)
        status = add_handle(app, table, number, TblHandlePtr);
    return fsw_leave_with(status, CFE_TBL_BAD_ARGUMENT);
}

CFE_Status_t CFE_TBL_Unregister(CFE_TBL_Handle_t TblHandle)
{
    struct app *app = fsw_enter();
    if (!app)
        return CFE_ES_ERR_RESOURCEID_NOT_VALID;
    struct handle *handle = fsw_handle_at(TblHandle);
    uint32_t status = fsw_table_unregister(&fsw_layer.core, app->number, handle->number);
    if (status == FSW_SUCCESS)
        drop_handle(handle);
    return fsw_leave_with(status, CFE_TBL_BAD_ARGUMENT);
}

/* ---- Addresses ---- */

static bool is_owner(const struct handle *handle)
{
    return handle->number && handle->number == handle->table->owner;
}

/* Where the application of a handle finds the bytes of the version that it holds now. */
static const uint8_t *bytes_for(const struct handle *handle, const struct fsw_address *address)
{
    struct table *table = handle->table;
    if (table->info.DumpOnly)
        return table->copy;
    if (!is_owner(handle))
        return address->at;
    if (table->copied != address->version)
        memcpy(table->copy, address->at, address->len);
    table->copied = address->version;
    return table->copy;
}

/* What an application is told that asks for an address or releases it: news once. */
static uint32_t news_of(struct handle *handle, uint64_t version)
{
    if (handle->table->info.DumpOnly)
        version = handle->table->changes;
    if (!handle->table->info.TableLoadedOnce)
        return FSW_TBL_ERR_NEVER_LOADED;
    bool is_new = handle->told != version;
    handle->told = version;
    return is_new ? FSW_TBL_INFO_UPDATED : FSW_SUCCESS;
}

CFE_Status_t CFE_TBL_GetAddress(void **TblPtr, CFE_TBL_Handle_t TblHandle)
{
    struct fsw_address address = {NULL, 0, 0};
    if (!TblPtr)
        return CFE_TBL_BAD_ARGUMENT;
    *TblPtr = NULL;
    struct app *app = fsw_enter();
    if (!app)
        return CFE_ES_ERR_RESOURCEID_NOT_VALID;
    struct handle *handle = fsw_handle_at(TblHandle);
    uint32_t status = fsw_table_get_address(&fsw_layer.core, app->number, handle->number, &address);
    if (address.at) {
        handle->has_address = true;
        /* cFE's type lets every application write there; it is for the owner alone. */
        *TblPtr = (void *)(uintptr_t)bytes_for(handle, &address);
        status = news_of(handle, address.version);
    }
    return fsw_leave_with(status, CFE_TBL_BAD_ARGUMENT);
}

static uint32_t release_address(const struct app *app, struct handle *handle)
{
    struct fsw_table_status figures;
    uint32_t status = fsw_table_release_address(&fsw_layer.core, app->number, handle->number);
    if (status == FSW_SUCCESS)
        status = fsw_table_status(&fsw_layer.core, app->number, handle->number, &figures);
    if (status != FSW_SUCCESS)
        return status;
    handle->has_address = false;
    return news_of(handle, figures.version);
}

CFE_Status_t CFE_TBL_ReleaseAddress(CFE_TBL_Handle_t TblHandle)
{
    struct app *app = fsw_enter();
    if (!app)
        return CFE_ES_ERR_RESOURCEID_NOT_VALID;
    uint32_t status = release_address(app, fsw_handle_at(TblHandle));
    return fsw_leave_with(status, CFE_TBL_BAD_ARGUMENT);
}

/* As in cFE, the first status that isn't success is the answer of the next two. */
static CFE_Status_t first_of(CFE_Status_t first, CFE_Status_t next)
{
    return first == CFE_SUCCESS ? next : first;
}

CFE_Status_t CFE_TBL_GetAddresses(void **TblPtrs[], uint16 NumTables,
                                  const CFE_TBL_Handle_t TblHandles[])
{
    CFE_Status_t first = CFE_SUCCESS;
    if (!TblPtrs || !TblHandles)
        return CFE_TBL_BAD_ARGUMENT;
    for (uint16 i = 0; i < NumTables; i++)
        first = first_of(first, CFE_TBL_GetAddress(TblPtrs[i], TblHandles[i]));
    return first;
}

CFE_Status_t CFE_TBL_ReleaseAddresses(uint16 NumTables, const CFE_TBL_Handle_t TblHandles[])
{
    CFE_Status_t first = CFE_SUCCESS;
    if (!TblHandles)
        return CFE_TBL_BAD_ARGUMENT;
    for (uint16 i = 0; i < NumTables; i++)
        first = first_of(first, CFE_TBL_ReleaseAddress(TblHandles[i]));
    return first;
}

/* ---- Changes in place ---- */

/* Marks where the bytes were from, within the room of a full name, as cFE does. */
static void mark_source(char *name)
{
    size_t most = CFE_TBL_MAX_FULL_NAME_LEN - sizeof mark, length = strlen(name);
    bool is_marked = length >= strlen(mark) && strcmp(name + length - strlen(mark), mark) == 0;
    if (!is_marked)
        memcpy(name + (length < most ? length : most), mark, sizeof mark);
}

static uint32_t change_dump_only(struct table *table)
{
    CFE_TBL_Info_t *info = &table->info;
    table->changes++;
    info->Crc = CFE_ES_CalculateCRC(table->copy, info->Size, 0, CFE_MISSION_ES_CRC_16);
    info->TimeOfLastUpdate = CFE_TIME_GetTime();
    mark_source(info->LastFileLoaded);
    fsw_note_update(table);
    return FSW_SUCCESS;
}

/* Makes the owner's copy the table's next value; if another handle holds the table, it waits. */
static uint32_t load_copy(struct load load)
{
    struct table *table = load.table;
    uint32_t size = (uint32_t)table->info.Size;
    uint32_t status = fsw_stage_bytes(load, 0, table->copy, size);
    if (status == FSW_SUCCESS)
        status = fsw_table_validate(&fsw_layer.core, load.app->number, load.number);
    if (status != FSW_SUCCESS)
        return status;
    table->is_change = true;
    table->staged_crc = CFE_ES_CalculateCRC(table->copy, size, 0, CFE_MISSION_ES_CRC_16);
    table->source = (struct source){.seconds = table->info.FileCreateTimeSecs,
                                    .subseconds = table->info.FileCreateTimeSubSecs};
    snprintf(table->source.name, sizeof table->source.name, "%s", table->info.LastFileLoaded);
    mark_source(table->source.name);
    return fsw_update_table(load.app, table, load.number);
}

/* The owner's own hold doesn't keep its change from being made. */
static uint32_t change_alone(struct load load, const struct handle *owner)
{
    struct fsw_address address;
    if (owner->has_address)
        fsw_table_release_address(&fsw_layer.core, load.app->number, load.number);
    uint32_t status = load_copy(load);
    if (owner->has_address)
        fsw_table_get_address(&fsw_layer.core, load.app->number, load.number, &address);
    return status;
}

/* Another load is staged: it is set aside in the image, and staged again after the change. */
static uint32_t change_beside(struct load load, const struct handle *owner,
                              const struct fsw_bytes *staged)
{
    struct fsw_table_status figures;
    struct table *table = load.table;
    enum load_state state = table->state;
    struct source source = table->source;
    uint32_t crc = table->staged_crc;
    uint32_t status = fsw_table_status(&fsw_layer.core, load.app->number, load.number, &figures);
    if (status == FSW_SUCCESS && figures.holds > owner->has_address)
        status = FSW_TBL_INFO_TABLE_LOCKED;
    if (status != FSW_SUCCESS)
        return status;
    memcpy(table->image, staged->at, staged->len);
    status = change_alone(load, owner);
    if (fsw_stage_bytes(load, 0, table->image, (uint32_t)staged->len) != FSW_SUCCESS)
        return status;
    if (state > VALIDATION_PENDING)
        fsw_table_validate(&fsw_layer.core, load.app->number, load.number);
    table->state = state;
    table->source = source;
    table->staged_crc = crc;
    return status;
}

static uint32_t change_table(struct app *app, struct handle *handle)
{
    struct fsw_bytes staged;
    struct load load = {app, handle->table, handle->number};
    uint32_t status = fsw_table_staged(&fsw_layer.core, app->number, handle->number, &staged);
    if (status != FSW_SUCCESS && status != FSW_TBL_INFO_NO_LOAD)
        return status;
    if (!is_owner(handle))
        return FSW_TBL_ERR_NO_ACCESS;
    if (load.table->info.DumpOnly)
        return change_dump_only(load.table);
    if (load.table->loader)
        return FSW_TBL_ERR_LOAD_IN_PROGRESS;
    return status == FSW_SUCCESS && !load.table->is_change ? change_beside(load, handle, &staged)
                                                           : change_alone(load, handle);
}

CFE_Status_t CFE_TBL_Modified(CFE_TBL_Handle_t TblHandle)
{
    struct app *app = fsw_enter();
    if (!app)
        return CFE_ES_ERR_RESOURCEID_NOT_VALID;
    uint32_t status = change_table(app, fsw_handle_at(TblHandle));
    return fsw_leave_with(status, CFE_TBL_BAD_ARGUMENT);
}

/* ---- Figures ---- */

CFE_Status_t CFE_TBL_GetInfo(CFE_TBL_Info_t *TblInfoPtr, const char *TblName)
{
    if (!TblInfoPtr || !TblName)
        return CFE_TBL_BAD_ARGUMENT;
    if (!fsw_enter())
        return CFE_ES_ERR_RESOURCEID_NOT_VALID;
    const struct table *table = fsw_table_named(TblName);
    if (table) {
        *TblInfoPtr = table->info;
        TblInfoPtr->NumUsers = table->users;
    }
    fsw_leave();
    return table ? CFE_SUCCESS : CFE_TBL_ERR_INVALID_NAME;
}

void fsw_end_tables(struct app *app)
{
    for (size_t i = 0; i < MOST_HANDLES; i++) {
        struct handle *handle = &fsw_layer.handle[i];
        if (handle->app == app)
            drop_handle(handle);
    }
}
