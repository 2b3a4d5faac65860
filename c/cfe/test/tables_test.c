/*
 * tables_test.c: every call of Table Services with its refusals, by applications of one run each.
 *
 *     tables_test FOLDER      where table files are written
 */
#include "cfe_msgids.h"
#include "cfe_tbl_events.h"
#include "cfe_tbl_msg.h"
#include "command.h"
#include "run_apps.h"

#include <fcntl.h>
#include <sys/stat.h>

typedef struct {
    uint32 number;
    uint8 bytes[12];
} table_t;

static const CFE_TBL_SrcEnum_t from_file = CFE_TBL_SRC_FILE, from_address = CFE_TBL_SRC_ADDRESS;
static int32 validations;

/* It makes calls of its own, as applications' do, and mends what it finds. */
static int32 validate(void *at)
{
    table_t *table = at;
    CFE_EVS_SendEvent(1, CFE_EVS_EventType_INFORMATION, "validation of %u", table->number);
    validations++;
    if (table->number == 99)
        return 5;
    table->bytes[11] = 0xee;
    return table->number < 10 ? CFE_SUCCESS : -7;
}

/* ---- Events ---- */

static CFE_SB_PipeId_t open_events(const char *name)
{
    CFE_SB_PipeId_t pipe;
    CHECK_STATUS(CFE_SB_CreatePipe(&pipe, 64, name), CFE_SUCCESS);
    CHECK_STATUS(CFE_SB_SubscribeEx(CFE_EVS_LONG_EVENT_MSG_MID, pipe, CFE_SB_DEFAULT_QOS, 64),
                 CFE_SUCCESS);
    return pipe;
}

/* The next event of Table Services; its id is 0 if there is none. */
static CFE_EVS_LongEventTlm_Payload_t next_event(CFE_SB_PipeId_t pipe)
{
    CFE_SB_Buffer_t *buffer;
    CFE_EVS_LongEventTlm_t packet;
    while (CFE_SB_ReceiveBuffer(&buffer, pipe, CFE_SB_POLL) == CFE_SUCCESS) {
        memcpy(&packet, buffer, sizeof packet);
        if (strcmp(packet.Payload.PacketID.AppName, "CFE_TBL") == 0)
            return packet.Payload;
    }
    return (CFE_EVS_LongEventTlm_Payload_t){.PacketID = {.EventID = 0}};
}

static void expect_event(CFE_SB_PipeId_t pipe, uint16 id)
{
    CFE_EVS_LongEventTlm_Payload_t event = next_event(pipe);
    if (event.PacketID.EventID != id) {
        fprintf(stderr, "event %u, not %u: %s\n", event.PacketID.EventID, id, event.Message);
        exit(1);
    }
}

/* ---- Files ---- */

/* Writes a table file: cFE's header of 64 bytes, the table's of 52, and the bytes. */
static const char *write_file(const char *content, uint8 subtype, const char *name, uint32 offset,
                              const void *bytes, uint8 length, uint8 said)
{
    uint8 headers[116] = {0};
    memcpy(headers, content, 4);
    headers[7] = subtype;
    headers[27] = 77;
    headers[71] = (uint8)offset;
    headers[75] = said;
    strcpy((char *)headers + 76, name);
    const char *path = path_of("table.tbl");
    FILE *file = fopen(path, "wb");
    CHECK(file && fwrite(headers, sizeof headers, 1, file) == 1);
    CHECK(length == 0 || fwrite(bytes, length, 1, file) == 1);
    fclose(file);
    return path;
}

static const char *file_for(const char *name, uint32 number)
{
    table_t table = {number, {1, 2, 3}};
    return write_file("cFE1", 8, name, 0, &table, sizeof table, sizeof table);
}

static const char *good_file(uint32 number)
{
    return file_for("FIRST.TABLE", number);
}

static void cut_file(off_t length)
{
    CHECK(truncate(path_of("table.tbl"), length) == 0);
}

/* ---- Values ---- */

static uint32 number_of(CFE_TBL_Handle_t handle, CFE_Status_t expected)
{
    void *at;
    CHECK_STATUS(CFE_TBL_GetAddress(&at, handle), expected);
    uint32 number = ((table_t *)at)->number;
    CHECK_STATUS(CFE_TBL_ReleaseAddress(handle), CFE_SUCCESS);
    return number;
}

static CFE_Status_t load(CFE_TBL_Handle_t handle, uint32 number)
{
    table_t table = {number, {0}};
    return CFE_TBL_Load(handle, from_address, &table);
}

static table_t *address_of(CFE_TBL_Handle_t handle, CFE_Status_t expected)
{
    void *at;
    CHECK_STATUS(CFE_TBL_GetAddress(&at, handle), expected);
    return at;
}

static CFE_TBL_Info_t info_of(const char *name)
{
    CFE_TBL_Info_t info;
    CHECK_STATUS(CFE_TBL_GetInfo(&info, name), CFE_SUCCESS);
    return info;
}

static CFE_TBL_Handle_t table_of(const char *name, uint16 options,
                                 CFE_TBL_CallbackFuncPtr_t function)
{
    CFE_TBL_Handle_t handle;
    CHECK_STATUS(CFE_TBL_Register(&handle, name, sizeof(table_t), options, function), CFE_SUCCESS);
    return handle;
}

static CFE_TBL_Handle_t share_of(const char *name)
{
    CFE_TBL_Handle_t handle;
    CHECK_STATUS(CFE_TBL_Share(&handle, name), CFE_SUCCESS);
    return handle;
}

/* ---- Registration ---- */

static void check_registers(void)
{
    CFE_TBL_Handle_t handle, other;
    CHECK_STATUS(CFE_TBL_Register(NULL, "T", 16, 0, NULL), CFE_TBL_BAD_ARGUMENT);
    CHECK_STATUS(CFE_TBL_Register(&handle, NULL, 16, 0, NULL), CFE_TBL_BAD_ARGUMENT);
    CHECK_STATUS(CFE_TBL_Register(&handle, "", 16, 0, NULL), CFE_TBL_ERR_INVALID_NAME);
    CHECK_STATUS(CFE_TBL_Register(&handle, "SIXTEEN_BYTES_OF", 16, 0, NULL),
                 CFE_TBL_ERR_INVALID_NAME);
    CHECK_STATUS(CFE_TBL_Register(&handle, "T", 0, 0, NULL), CFE_TBL_ERR_INVALID_SIZE);
    CHECK_STATUS(CFE_TBL_Register(&handle, "T", 65537, 0, NULL), CFE_TBL_ERR_INVALID_SIZE);
    CHECK_STATUS(CFE_TBL_Register(&handle, "T", 16, CFE_TBL_OPT_CRITICAL, NULL),
                 CFE_TBL_ERR_INVALID_OPTIONS);
    CHECK_STATUS(CFE_TBL_Register(&handle, "T", 16, CFE_TBL_OPT_USR_DEF_ADDR, NULL),
                 CFE_TBL_ERR_INVALID_OPTIONS);
    CHECK(handle == CFE_TBL_BAD_TABLE_HANDLE);
    CHECK_STATUS(CFE_TBL_Register(&handle, "DUMP", 16, CFE_TBL_OPT_DUMP_ONLY, NULL), CFE_SUCCESS);
    CHECK_STATUS(CFE_TBL_Register(&other, "DUMP", 16, 0, NULL), CFE_TBL_WARN_DUPLICATE);
    CHECK(other == handle);
    CHECK_STATUS(CFE_TBL_Register(&other, "DUMP", 17, 0, NULL), CFE_TBL_ERR_DUPLICATE_DIFF_SIZE);
    CHECK_STATUS(CFE_TBL_Load(handle, from_address, "0123456789abcdef"), CFE_TBL_ERR_DUMP_ONLY);
    CHECK_STATUS(CFE_TBL_Unregister(handle), CFE_SUCCESS);
    CHECK_STATUS(CFE_TBL_Unregister(handle), CFE_TBL_ERR_INVALID_HANDLE);
    CHECK_STATUS(CFE_TBL_Share(&other, "FIRST.DUMP"), CFE_TBL_ERR_INVALID_NAME);
}

/* ---- Dump-only tables ---- */

/* The owner writes through the address, from its registration on. */
static void write_dump_only(void)
{
    CFE_TBL_Handle_t handle = table_of("DUMP", CFE_TBL_OPT_DUMP_ONLY, NULL);
    CFE_TBL_Info_t info = info_of("FIRST.DUMP");
    CHECK(info.TableLoadedOnce && info.DumpOnly && info.Crc == 0);
    table_t *table = address_of(handle, CFE_SUCCESS);
    CHECK((uintptr_t)table % 8 == 0 && table->number == 0 && table->bytes[11] == 0);
    table->number = 5;
    CHECK_STATUS(CFE_TBL_ReleaseAddress(handle), CFE_SUCCESS);
    CHECK_STATUS(CFE_TBL_GetStatus(handle), CFE_SUCCESS);
    CHECK_STATUS(CFE_TBL_DumpToBuffer(handle), CFE_SUCCESS);
    CHECK_STATUS(CFE_TBL_DumpToBuffer(CFE_TBL_BAD_TABLE_HANDLE), CFE_TBL_ERR_INVALID_HANDLE);
    CHECK_STATUS(CFE_TBL_Manage(handle), CFE_SUCCESS);
    CHECK_STATUS(CFE_TBL_Validate(handle), CFE_TBL_INFO_NO_VALIDATION_PENDING);
    CHECK_STATUS(CFE_TBL_Update(handle), CFE_TBL_INFO_NO_UPDATE_PENDING);
    reach(1);
    wait_for(2);
    CHECK_STATUS(CFE_TBL_Modified(handle), CFE_SUCCESS);
    info = info_of("FIRST.DUMP");
    CHECK(info.Crc == CFE_ES_CalculateCRC(table, sizeof *table, 0, CFE_MISSION_ES_CRC_16));
    CHECK(strcmp(info.LastFileLoaded, "(*)") == 0 && info.TimeOfLastUpdate.Seconds < 100);
    CHECK_STATUS(CFE_TBL_Modified(handle), CFE_SUCCESS);
    CHECK(strcmp(info_of("FIRST.DUMP").LastFileLoaded, "(*)") == 0);
    reach(3);
    wait_for(4);
    /* The owner gets the notice too, by the release here. */
    CHECK(address_of(handle, CFE_TBL_INFO_UPDATED) == table);
    CHECK_STATUS(CFE_TBL_ReleaseAddress(handle), CFE_SUCCESS);
    CHECK_STATUS(CFE_TBL_Modified(handle), CFE_SUCCESS);
    CHECK_STATUS(CFE_TBL_ReleaseAddress(handle), CFE_TBL_INFO_UPDATED);
    CHECK_STATUS(CFE_TBL_ReleaseAddress(handle), CFE_SUCCESS);
    reach(5);
    wait_for(6);
    CHECK_STATUS(CFE_TBL_Unregister(handle), CFE_SUCCESS);
    CHECK_STATUS(CFE_TBL_Modified(handle), CFE_TBL_ERR_INVALID_HANDLE);
    reach(7);
    wait_for(8);
}

static void read_dump_only(void)
{
    void *at;
    wait_for(1);
    CFE_TBL_Handle_t handle = share_of("FIRST.DUMP");
    CHECK(number_of(handle, CFE_SUCCESS) == 5);
    CHECK_STATUS(CFE_TBL_Modified(handle), CFE_TBL_ERR_NO_ACCESS);
    CHECK_STATUS(CFE_TBL_Modified(0), CFE_TBL_ERR_NO_ACCESS);
    CHECK_STATUS(load(handle, 1), CFE_TBL_ERR_DUMP_ONLY);
    reach(2);
    wait_for(3);
    CHECK(number_of(handle, CFE_TBL_INFO_UPDATED) == 5 && number_of(handle, CFE_SUCCESS) == 5);
    reach(4);
    wait_for(5);
    const table_t *table = address_of(handle, CFE_TBL_INFO_UPDATED);
    reach(6);
    wait_for(7);
    /* The bytes stay for those who hold them. */
    CHECK(table->number == 5);
    CHECK_STATUS(CFE_TBL_ReleaseAddress(handle), CFE_SUCCESS);
    CHECK_STATUS(CFE_TBL_GetAddress(&at, handle), CFE_TBL_ERR_UNREGISTERED);
    CHECK_STATUS(CFE_TBL_Unregister(handle), CFE_SUCCESS);
    reach(8);
}

/* ---- Changes in place ---- */

/* Changes of a table that others share, for each kind of buffering. */
static void change_in_place(uint16 options)
{
    CFE_TBL_Handle_t handle = table_of("TABLE", options, validate);
    CHECK_STATUS(CFE_TBL_Load(handle, from_file, good_file(1)), CFE_SUCCESS);
    CFE_TBL_Info_t info = info_of("FIRST.TABLE");
    table_t *table = address_of(handle, CFE_TBL_INFO_UPDATED);
    reach(1);
    wait_for(2);
    table->number = 55;
    reach(3);
    wait_for(4);
    /* The owner's own hold doesn't matter, nor what its validation would say. */
    CHECK_STATUS(CFE_TBL_Modified(handle), CFE_SUCCESS);
    CHECK(table->number == 55 && info.Crc != info_of("FIRST.TABLE").Crc);
    info = info_of("FIRST.TABLE");
    CHECK(info.Crc == CFE_ES_CalculateCRC(table, sizeof *table, 0, CFE_MISSION_ES_CRC_16));
    size_t length = strlen(info.LastFileLoaded);
    CHECK(length > 3 && strcmp(info.LastFileLoaded + length - 3, "(*)") == 0);
    CHECK(info.FileCreateTimeSecs == 77);
    CHECK(address_of(handle, CFE_TBL_INFO_UPDATED) == table && table->number == 55);
    reach(5);
    wait_for(6);
    /* The other holds it now. */
    table->number = 56;
    CFE_Status_t locked =
        options == CFE_TBL_OPT_DBL_BUFFER ? CFE_SUCCESS : CFE_TBL_INFO_TABLE_LOCKED;
    CHECK_STATUS(CFE_TBL_Modified(handle), locked);
    table->number = 57;
    CHECK_STATUS(CFE_TBL_Modified(handle),
                 locked == CFE_SUCCESS ? CFE_TBL_ERR_NO_BUFFER_AVAIL : locked);
    reach(7);
    wait_for(8);
    CHECK_STATUS(CFE_TBL_ReleaseAddress(handle),
                 locked == CFE_SUCCESS ? CFE_TBL_INFO_UPDATED : CFE_SUCCESS);
    if (locked == CFE_SUCCESS)
        CHECK_STATUS(CFE_TBL_Modified(handle), CFE_SUCCESS);
    else
        CHECK_STATUS(CFE_TBL_GetStatus(handle), CFE_TBL_INFO_UPDATE_PENDING);
    CHECK_STATUS(CFE_TBL_Manage(handle), CFE_SUCCESS);
    CHECK(number_of(handle, CFE_TBL_INFO_UPDATED) == 57);
    reach(9);
    wait_for(10);
}

static void change_single(void)
{
    change_in_place(CFE_TBL_OPT_DEFAULT);
}

static void change_double(void)
{
    change_in_place(CFE_TBL_OPT_DBL_BUFFER);
}

static void see_changes(void)
{
    wait_for(1);
    CFE_TBL_Handle_t handle = share_of("FIRST.TABLE");
    const table_t *table = address_of(handle, CFE_SUCCESS);
    reach(2);
    wait_for(3);
    CHECK(table->number == 1);
    CHECK_STATUS(CFE_TBL_ReleaseAddress(handle), CFE_SUCCESS);
    reach(4);
    wait_for(5);
    table = address_of(handle, CFE_TBL_INFO_UPDATED);
    CHECK(table->number == 55);
    reach(6);
    wait_for(7);
    CHECK(table->number == 55);
    CFE_TBL_ReleaseAddress(handle);
    reach(8);
    wait_for(9);
    CHECK(number_of(handle, CFE_TBL_INFO_UPDATED) == 57);
    reach(10);
}

/* A change beside a load that waits: both come through. */
static void change_beside_load(void)
{
    CFE_TBL_Handle_t handle = table_of("TABLE", CFE_TBL_OPT_DEFAULT, NULL), own;
    CHECK_STATUS(load(handle, 1), CFE_SUCCESS);
    table_t *table = address_of(handle, CFE_TBL_INFO_UPDATED);
    CHECK_STATUS(fsw_stage_table(good_file(2)), CFE_SUCCESS);
    table->number = 3;
    own = share_of("FIRST.TABLE");
    CHECK(number_of(own, CFE_SUCCESS) == 1);
    CHECK_STATUS(CFE_TBL_Modified(handle), CFE_SUCCESS);
    CHECK(number_of(own, CFE_TBL_INFO_UPDATED) == 3);
    CHECK_STATUS(CFE_TBL_GetStatus(handle), CFE_TBL_INFO_VALIDATION_PENDING);
    CHECK_STATUS(CFE_TBL_Validate(handle), CFE_SUCCESS);
    address_of(own, CFE_SUCCESS);
    table->number = 4;
    CHECK_STATUS(CFE_TBL_Modified(handle), CFE_TBL_INFO_TABLE_LOCKED);
    CHECK_STATUS(CFE_TBL_ReleaseAddress(own), CFE_SUCCESS);
    CHECK_STATUS(CFE_TBL_Modified(handle), CFE_SUCCESS);
    CHECK(number_of(own, CFE_TBL_INFO_UPDATED) == 4);
    CHECK_STATUS(CFE_TBL_GetStatus(handle), CFE_TBL_INFO_UPDATE_PENDING);
    CHECK_STATUS(CFE_TBL_ReleaseAddress(handle), CFE_TBL_INFO_UPDATED);
    CHECK_STATUS(CFE_TBL_Update(handle), CFE_SUCCESS);
    CHECK(number_of(handle, CFE_TBL_INFO_UPDATED) == 2);
    CHECK(strcmp(info_of("FIRST.TABLE").LastFileLoaded, path_of("table.tbl")) == 0);
}

/* ---- Loads ---- */

static void check_loads(CFE_TBL_Handle_t handle)
{
    table_t table = {1, {0}};
    void *at;
    validations = 0;
    CHECK(address_of(handle, CFE_TBL_ERR_NEVER_LOADED)->number == 0);
    CHECK_STATUS(CFE_TBL_GetAddress(NULL, handle), CFE_TBL_BAD_ARGUMENT);
    CHECK_STATUS(CFE_TBL_Load(handle, from_address, NULL), CFE_TBL_BAD_ARGUMENT);
    CHECK_STATUS(CFE_TBL_Load(handle, (CFE_TBL_SrcEnum_t)2, &table), CFE_TBL_ERR_ILLEGAL_SRC_TYPE);
    CHECK_STATUS(CFE_TBL_Load(77, from_address, &table), CFE_TBL_ERR_INVALID_HANDLE);
    CHECK_STATUS(CFE_TBL_Load(-1, from_address, &table), CFE_TBL_ERR_INVALID_HANDLE);
    CHECK_STATUS(CFE_TBL_GetAddress(&at, -1), CFE_TBL_ERR_INVALID_HANDLE);
    CHECK(!at);
    CHECK_STATUS(CFE_TBL_ReleaseAddress(handle), CFE_TBL_ERR_NEVER_LOADED);
    CHECK_STATUS(load(handle, 10), -7);
    CHECK_STATUS(load(handle, 1), CFE_SUCCESS);
    CHECK_STATUS(CFE_TBL_ReleaseAddress(handle), CFE_TBL_INFO_UPDATED);
    CHECK(number_of(handle, CFE_SUCCESS) == 1);
    CHECK_STATUS(load(handle, 10), -7);
    CHECK_STATUS(load(handle, 99), -1);
    CHECK(number_of(handle, CFE_SUCCESS) == 1 && validations == 4);
}

/* A load that finds its table held waits. */
static void check_held_loads(CFE_TBL_Handle_t handle)
{
    address_of(handle, CFE_SUCCESS);
    CHECK_STATUS(load(handle, 2), CFE_TBL_INFO_TABLE_LOCKED);
    CHECK_STATUS(CFE_TBL_GetStatus(handle), CFE_TBL_INFO_UPDATE_PENDING);
    CHECK_STATUS(load(handle, 3), CFE_TBL_ERR_LOAD_IN_PROGRESS);
    CHECK_STATUS(CFE_TBL_Manage(handle), CFE_TBL_INFO_TABLE_LOCKED);
    CHECK_STATUS(CFE_TBL_ReleaseAddress(handle), CFE_SUCCESS);
    CHECK_STATUS(CFE_TBL_Manage(handle), CFE_SUCCESS);
    CHECK(number_of(handle, CFE_TBL_INFO_UPDATED) == 2);
    address_of(handle, CFE_SUCCESS);
    CHECK_STATUS(CFE_TBL_Load(handle, from_file, good_file(4)), CFE_TBL_INFO_TABLE_LOCKED);
    CHECK(strncmp(info_of("FIRST.TABLE").LastFileLoaded, "Addr 0x", 7) == 0);
    CHECK_STATUS(CFE_TBL_ReleaseAddress(handle), CFE_SUCCESS);
    CHECK_STATUS(CFE_TBL_Update(handle), CFE_SUCCESS);
    CHECK(number_of(handle, CFE_TBL_INFO_UPDATED) == 4);
    CHECK(strcmp(info_of("FIRST.TABLE").LastFileLoaded, path_of("table.tbl")) == 0);
}

/* What the validation function writes there is loaded. */
static void check_mended_loads(CFE_TBL_Handle_t handle)
{
    const table_t *table = address_of(handle, CFE_SUCCESS);
    CHECK(table->bytes[0] == 1 && table->bytes[11] == 0xee);
    CHECK(info_of("FIRST.TABLE").Crc ==
          CFE_ES_CalculateCRC(table, sizeof *table, 0, CFE_MISSION_ES_CRC_16));
    CHECK_STATUS(CFE_TBL_ReleaseAddress(handle), CFE_SUCCESS);
    CFE_TBL_Handle_t twice = table_of("MENDED", CFE_TBL_OPT_DBL_BUFFER, validate);
    CHECK_STATUS(load(twice, 1), CFE_SUCCESS);
    CHECK_STATUS(load(twice, 2), CFE_SUCCESS);
    table = address_of(twice, CFE_TBL_INFO_UPDATED);
    CHECK(table->number == 2 && table->bytes[11] == 0xee);
    CHECK_STATUS(CFE_TBL_Unregister(twice), CFE_SUCCESS);
}

/* What a file must not be, and the answer. */
static void check_file_faults(CFE_TBL_Handle_t handle)
{
    table_t table = {3, {0}};
    char path[100] = "/";
    memset(path + 1, 'a', sizeof path - 2);
    CHECK_STATUS(CFE_TBL_Load(handle, from_file, path_of("none")), CFE_TBL_ERR_ACCESS);
    CHECK_STATUS(CFE_TBL_Load(handle, from_file, ""), CFE_TBL_ERR_ACCESS);
    CHECK_STATUS(CFE_TBL_Load(handle, from_file, path), CFE_TBL_ERR_FILENAME_TOO_LONG);
    good_file(3);
    cut_file(63);
    CHECK_STATUS(CFE_TBL_Load(handle, from_file, path_of("table.tbl")), CFE_TBL_ERR_NO_STD_HEADER);
    write_file("cFE2", 7, "FIRST.TABLE", 0, &table, 16, 16);
    CHECK_STATUS(CFE_TBL_Load(handle, from_file, path_of("table.tbl")), CFE_TBL_ERR_BAD_CONTENT_ID);
    write_file("cFE1", 7, "FIRST.TABLE", 0, &table, 16, 16);
    cut_file(64);
    CHECK_STATUS(CFE_TBL_Load(handle, from_file, path_of("table.tbl")), CFE_TBL_ERR_BAD_SUBTYPE_ID);
    good_file(3);
    cut_file(115);
    CHECK_STATUS(CFE_TBL_Load(handle, from_file, path_of("table.tbl")), CFE_TBL_ERR_NO_TBL_HEADER);
    write_file("cFE1", 8, "OTHER.TABLE", 1, &table, 15, 16);
    CHECK_STATUS(CFE_TBL_Load(handle, from_file, path_of("table.tbl")), CFE_TBL_ERR_FILE_TOO_LARGE);
    write_file("cFE1", 8, "OTHER.TABLE", 0, &table, 15, 16);
    CHECK_STATUS(CFE_TBL_Load(handle, from_file, path_of("table.tbl")),
                 CFE_TBL_ERR_FILE_FOR_WRONG_TABLE);
    write_file("cFE1", 8, "", 0, &table, 16, 16);
    CHECK_STATUS(CFE_TBL_Load(handle, from_file, path_of("table.tbl")),
                 CFE_TBL_ERR_FILE_FOR_WRONG_TABLE);
    write_file("cFE1", 8, "FIRST.TABLE", 0, &table, 15, 16);
    CHECK_STATUS(CFE_TBL_Load(handle, from_file, path_of("table.tbl")),
                 CFE_TBL_ERR_LOAD_INCOMPLETE);
    write_file("cFE1", 8, "FIRST.TABLE", 0, path, 17, 16);
    CHECK_STATUS(CFE_TBL_Load(handle, from_file, path_of("table.tbl")), CFE_TBL_ERR_FILE_TOO_LARGE);
    write_file("cFE1", 8, "FIRST.TABLE", 0, path, 0, 0);
    CHECK_STATUS(CFE_TBL_Load(handle, from_file, path_of("table.tbl")),
                 CFE_TBL_ERR_FILE_SIZE_INCONSISTENT);
    CHECK(number_of(handle, CFE_SUCCESS) == 4);
}

static void check_files(CFE_TBL_Handle_t handle)
{
    check_file_faults(handle);
    CHECK_STATUS(CFE_TBL_Load(handle, from_file, good_file(2)), CFE_SUCCESS);
    CHECK(number_of(handle, CFE_TBL_INFO_UPDATED) == 2);
    CFE_TBL_Info_t info = info_of("FIRST.TABLE");
    CHECK(info.Size == sizeof(table_t) && info.TableLoadedOnce && info.NumUsers == 1 && info.Crc);
    CHECK(!info.DumpOnly && !info.DoubleBuffered && info.FileCreateTimeSecs == 77);
    CHECK(strcmp(info.LastFileLoaded, path_of("table.tbl")) == 0);
    CHECK_STATUS(CFE_TBL_GetInfo(&info, "TABLE"), CFE_TBL_ERR_INVALID_NAME);
    CHECK_STATUS(CFE_TBL_GetInfo(NULL, "TABLE"), CFE_TBL_BAD_ARGUMENT);
    /* The last file is one that was loaded. */
    CHECK_STATUS(load(handle, 3), CFE_SUCCESS);
    CHECK_STATUS(CFE_TBL_Load(handle, from_file, good_file(11)), -7);
    CHECK(strncmp(info_of("FIRST.TABLE").LastFileLoaded, "Addr 0x", 7) == 0);
    /* A part of a table that was loaded. */
    CHECK_STATUS(CFE_TBL_Load(handle, from_file,
                              write_file("cFE1", 8, "FIRST.TABLE", 4, "abc", 3, 3)),
                 CFE_SUCCESS);
    const table_t *table = address_of(handle, CFE_TBL_INFO_UPDATED);
    CHECK(table->number == 3 && memcmp(table->bytes, "abc", 4) == 0);
    CHECK_STATUS(CFE_TBL_ReleaseAddress(handle), CFE_SUCCESS);
}

/* A first load may be short, from the first byte on. */
static void check_short_files(uint16 options)
{
    CFE_TBL_Handle_t plain = table_of("SHORT", options, NULL);
    write_file("cFE1", 8, "FIRST.SHORT", 1, "ab", 2, 2);
    CHECK_STATUS(CFE_TBL_Load(plain, from_file, path_of("table.tbl")), CFE_TBL_ERR_PARTIAL_LOAD);
    CHECK_STATUS(CFE_TBL_GetStatus(plain), CFE_SUCCESS);
    write_file("cFE1", 8, "FIRST.SHORT", 0, "abcdef", 6, 6);
    CHECK_STATUS(CFE_TBL_Load(plain, from_file, path_of("table.tbl")), CFE_TBL_WARN_SHORT_FILE);
    const table_t *table = address_of(plain, CFE_TBL_INFO_UPDATED);
    CHECK(memcmp(table, "abcdef\0\0\0\0\0\0\0\0\0", sizeof *table) == 0);
    CHECK_STATUS(CFE_TBL_Unregister(plain), CFE_SUCCESS);
    /* The validation's verdict replaces the warning. */
    CFE_TBL_Handle_t tested = table_of("SHORT", options, validate);
    write_file("cFE1", 8, "FIRST.SHORT", 0, "\1\0", 2, 2);
    CHECK_STATUS(CFE_TBL_Load(tested, from_file, path_of("table.tbl")), CFE_SUCCESS);
    CHECK(number_of(tested, CFE_TBL_INFO_UPDATED) == 1);
    CHECK_STATUS(CFE_TBL_Unregister(tested), CFE_SUCCESS);
}

/* ---- Loads that fsw_stage_table stages ---- */

static void check_stages(CFE_TBL_Handle_t handle)
{
    table_t table = {5, {0}};
    CHECK_STATUS(load(handle, 2), CFE_SUCCESS);
    CHECK(number_of(handle, CFE_TBL_INFO_UPDATED) == 2);
    CHECK_STATUS(CFE_TBL_GetStatus(handle), CFE_SUCCESS);
    CHECK_STATUS(CFE_TBL_Manage(handle), CFE_SUCCESS);
    CHECK_STATUS(CFE_TBL_Validate(handle), CFE_TBL_INFO_NO_VALIDATION_PENDING);
    CHECK_STATUS(CFE_TBL_Update(handle), CFE_TBL_INFO_NO_UPDATE_PENDING);
    CHECK_STATUS(fsw_stage_table(good_file(4)), CFE_SUCCESS);
    CHECK(strcmp(info_of("FIRST.TABLE").LastFileLoaded, path_of("table.tbl")) != 0);
    CHECK_STATUS(fsw_stage_table(good_file(4)), CFE_TBL_ERR_LOAD_IN_PROGRESS);
    CHECK_STATUS(CFE_TBL_Load(handle, from_address, &table), CFE_TBL_ERR_LOAD_IN_PROGRESS);
    CHECK_STATUS(CFE_TBL_GetStatus(handle), CFE_TBL_INFO_VALIDATION_PENDING);
    CHECK_STATUS(CFE_TBL_Update(handle), CFE_TBL_INFO_NO_UPDATE_PENDING);
    CHECK_STATUS(CFE_TBL_Validate(handle), CFE_SUCCESS);
    CHECK_STATUS(CFE_TBL_GetStatus(handle), CFE_TBL_INFO_UPDATE_PENDING);
    CHECK(number_of(handle, CFE_SUCCESS) == 2);
    CHECK_STATUS(CFE_TBL_Update(handle), CFE_SUCCESS);
    CHECK(number_of(handle, CFE_TBL_INFO_UPDATED) == 4);
    CHECK(strcmp(info_of("FIRST.TABLE").LastFileLoaded, path_of("table.tbl")) == 0);
    CHECK_STATUS(fsw_stage_table(good_file(6)), CFE_SUCCESS);
    CHECK_STATUS(CFE_TBL_Manage(handle), CFE_SUCCESS);
    CHECK(number_of(handle, CFE_TBL_INFO_UPDATED) == 6);
    CHECK_STATUS(fsw_stage_table(NULL), CFE_TBL_BAD_ARGUMENT);
    CHECK_STATUS(fsw_stage_table(path_of("none")), CFE_TBL_ERR_ACCESS);
    CHECK_STATUS(fsw_stage_table(write_file("cFE1", 8, "NO.TABLE", 0, &table, 16, 16)),
                 CFE_TBL_ERR_INVALID_NAME);
}

/* What isn't valid is said by an event, as in cFE; that a validation was made is success. */
static void check_events(CFE_TBL_Handle_t handle)
{
    CFE_SB_PipeId_t events = open_events("EVENTS");
    table_t table = {3, {0}};
    CHECK_STATUS(fsw_stage_table(good_file(11)), CFE_SUCCESS);
    expect_event(events, CFE_TBL_FILE_LOADED_INF_EID);
    CHECK_STATUS(CFE_TBL_Manage(handle), CFE_SUCCESS);
    CFE_EVS_LongEventTlm_Payload_t event = next_event(events);
    CHECK(event.PacketID.EventID == CFE_TBL_VALIDATION_ERR_EID);
    CHECK(event.PacketID.EventType == CFE_EVS_EventType_ERROR);
    CHECK(strcmp(event.Message, "validation of FIRST.TABLE refused 0xfffffff9") == 0);
    CHECK_STATUS(CFE_TBL_GetStatus(handle), CFE_SUCCESS);
    CHECK(number_of(handle, CFE_SUCCESS) == 6);
    CHECK_STATUS(fsw_stage_table(good_file(7)), CFE_SUCCESS);
    expect_event(events, CFE_TBL_FILE_LOADED_INF_EID);
    CHECK_STATUS(CFE_TBL_Manage(handle), CFE_SUCCESS);
    expect_event(events, CFE_TBL_VALIDATION_INF_EID);
    expect_event(events, CFE_TBL_UPDATE_SUCCESS_INF_EID);
    CHECK_STATUS(load(handle, 10), -7);
    expect_event(events, CFE_TBL_VALIDATION_ERR_EID);
    CHECK_STATUS(CFE_TBL_Load(handle, from_file, path_of("none")), CFE_TBL_ERR_ACCESS);
    expect_event(events, CFE_TBL_FILE_ACCESS_ERR_EID);
    write_file("cFE1", 8, "FIRST.TABLE", 0, &table, 15, 16);
    CHECK_STATUS(CFE_TBL_Load(handle, from_file, path_of("table.tbl")),
                 CFE_TBL_ERR_LOAD_INCOMPLETE);
    expect_event(events, CFE_TBL_FILE_INCOMPLETE_ERR_EID);
    CHECK_STATUS(load(77, 1), CFE_TBL_ERR_INVALID_HANDLE);
    expect_event(events, CFE_TBL_HANDLE_ACCESS_ERR_EID);
    expect_event(events, 0);
    CHECK_STATUS(CFE_SB_DeletePipe(events), CFE_SUCCESS);
}

/* ---- Tasks that end ---- */

static CFE_TBL_Handle_t fragile;
static atomic_int ended;

static int32 end_task(void *at)
{
    (void)at;
    atomic_fetch_add(&ended, 1);
    CFE_ES_ExitChildTask();
    return CFE_SUCCESS;
}

static void load_and_end(void)
{
    CFE_TBL_Load(fragile, from_address, "abcd");
    CHECK(false);
}

/* A task that ends within a validation function leaves no load behind. */
static void check_fragile_load(void)
{
    CFE_ES_TaskId_t task;
    CFE_Status_t status;
    atomic_store(&ended, 0);
    CHECK_STATUS(CFE_TBL_Register(&fragile, "FRAGILE", 4, CFE_TBL_OPT_DEFAULT, end_task),
                 CFE_SUCCESS);
    CHECK_STATUS(CFE_ES_CreateChildTask(&task, "C", load_and_end, NULL, 0, 0, 0), CFE_SUCCESS);
    while (atomic_load(&ended) < 1)
        OS_TaskDelay(1);
    /* The main task isn't ended by CFE_ES_ExitChildTask. */
    while ((status = CFE_TBL_Load(fragile, from_address, "abcd")) == CFE_TBL_ERR_LOAD_IN_PROGRESS)
        OS_TaskDelay(1);
    CHECK_STATUS(status, CFE_SUCCESS);
    CHECK_STATUS(CFE_TBL_Unregister(fragile), CFE_SUCCESS);
}

/* ---- Two applications ---- */

static void check_two_tables(CFE_TBL_Handle_t handle)
{
    CFE_TBL_Handle_t twice = table_of("TWICE", CFE_TBL_OPT_DBL_BUFFER, NULL), pair[2];
    void *first, *second, **places[2] = {&first, &second};
    CHECK_STATUS(load(twice, 1), CFE_SUCCESS);
    pair[0] = handle;
    pair[1] = twice;
    CHECK_STATUS(CFE_TBL_GetAddresses(places, 2, pair), CFE_TBL_INFO_UPDATED);
    CHECK(((table_t *)first)->number == 7 && ((table_t *)second)->number == 1);
    /* The present version is held; the next has the other buffer, and there is no third. */
    CHECK_STATUS(load(twice, 2), CFE_SUCCESS);
    CHECK_STATUS(load(twice, 3), CFE_TBL_ERR_NO_BUFFER_AVAIL);
    CHECK(((table_t *)second)->number == 1);
    CHECK_STATUS(CFE_TBL_ReleaseAddresses(2, pair), CFE_TBL_INFO_UPDATED);
    CHECK(number_of(twice, CFE_SUCCESS) == 2);
}

static void test_tables(void)
{
    CHECK_STATUS(CFE_EVS_Register(NULL, 0, CFE_EVS_EventFilter_BINARY), CFE_SUCCESS);
    check_registers();
    CFE_TBL_Handle_t handle = table_of("TABLE", CFE_TBL_OPT_DEFAULT, validate);
    check_loads(handle);
    check_held_loads(handle);
    check_mended_loads(handle);
    check_files(handle);
    check_short_files(CFE_TBL_OPT_DEFAULT);
    check_short_files(CFE_TBL_OPT_DBL_BUFFER);
    check_stages(handle);
    check_events(handle);
    check_fragile_load();
    check_two_tables(handle);
    reach(1);
    wait_for(2);
    CHECK_STATUS(CFE_TBL_Unregister(handle), CFE_SUCCESS);
    reach(3);
    wait_for(4);
}

/* Another application shares the table, and loads it. */
static void share_tables(void)
{
    CFE_TBL_Handle_t handle, own;
    void *at;
    wait_for(1);
    CHECK_STATUS(CFE_TBL_Share(&handle, "FIRST.NONE"), CFE_TBL_ERR_INVALID_NAME);
    CHECK_STATUS(CFE_TBL_Share(NULL, "FIRST.TABLE"), CFE_TBL_BAD_ARGUMENT);
    handle = share_of("FIRST.TABLE");
    CHECK(number_of(handle, CFE_SUCCESS) == 7);
    CHECK_STATUS(load(handle, 8), CFE_SUCCESS);
    CHECK(number_of(handle, CFE_TBL_INFO_UPDATED) == 8);
    CHECK(info_of("FIRST.TABLE").NumUsers == 2);
    CHECK_STATUS(CFE_TBL_GetAddress(&at, 0), CFE_TBL_ERR_NO_ACCESS);
    /* A table of the same short name is another table. */
    CHECK_STATUS(CFE_TBL_Register(&own, "TABLE", 4, CFE_TBL_OPT_DEFAULT, NULL), CFE_SUCCESS);
    CHECK_STATUS(CFE_TBL_GetAddress(&at, handle), CFE_SUCCESS);
    reach(2);
    wait_for(3);
    CHECK(((table_t *)at)->number == 8);
    CHECK_STATUS(CFE_TBL_ReleaseAddress(handle), CFE_SUCCESS);
    CHECK_STATUS(CFE_TBL_GetAddress(&at, handle), CFE_TBL_ERR_UNREGISTERED);
    CHECK(!at);
    CHECK_STATUS(CFE_TBL_Unregister(handle), CFE_SUCCESS);
    reach(4);
}

/* ---- Ground commands ---- */

static CFE_SB_PipeId_t replies, packets;

/* Sends a command with a payload, to be answered by this event; 0: by none. */
static void command(CFE_MSG_FcnCode_t code, const void *payload, size_t size, uint16 event)
{
    send_command(CFE_TBL_CMD_MID, code, payload, size);
    expect_event(replies, event);
    expect_event(replies, 0);
}

static void command_load(const char *path, uint16 event)
{
    CFE_TBL_LoadCmd_Payload_t payload = {{0}};
    memcpy(payload.LoadFilename, path, strlen(path));
    command(CFE_TBL_LOAD_CC, &payload, sizeof payload, event);
}

static void command_table(CFE_MSG_FcnCode_t code, const char *table, uint16 event)
{
    CFE_TBL_ActivateCmd_Payload_t payload = {{0}};
    memcpy(payload.TableName, table, strlen(table));
    command(code, &payload, sizeof payload, event);
}

static void command_validation(const char *table, uint16 buffer, uint16 event)
{
    CFE_TBL_ValidateCmd_Payload_t payload = {buffer, {0}};
    memcpy(payload.TableName, table, strlen(table));
    command(CFE_TBL_VALIDATE_CC, &payload, sizeof payload, event);
}

static CFE_TBL_HousekeepingTlm_Payload_t housekeeping(void)
{
    CFE_SB_Buffer_t *buffer;
    CFE_MSG_CommandHeader_t request;
    CFE_TBL_HousekeepingTlm_t packet;
    CFE_MSG_Size_t size = 0;
    CHECK_STATUS(CFE_MSG_Init(CFE_MSG_PTR(request), CFE_TBL_SEND_HK_MID, sizeof request),
                 CFE_SUCCESS);
    CHECK_STATUS(CFE_SB_TransmitMsg(CFE_MSG_PTR(request), false), CFE_SUCCESS);
    CHECK_STATUS(CFE_SB_ReceiveBuffer(&buffer, packets, CFE_SB_POLL), CFE_SUCCESS);
    CHECK_STATUS(CFE_MSG_GetSize(&buffer->Msg, &size), CFE_SUCCESS);
    CHECK(size == sizeof packet);
    memcpy(&packet, buffer, sizeof packet);
    return packet.Payload;
}

static const uint16 inactive = CFE_TBL_BufferSelect_INACTIVE, active = CFE_TBL_BufferSelect_ACTIVE;

/* The owner's part of a validation, with the event of its verdict. */
static void manage_validation(CFE_TBL_Handle_t handle, uint16 event)
{
    CHECK_STATUS(CFE_TBL_GetStatus(handle), CFE_TBL_INFO_VALIDATION_PENDING);
    CHECK_STATUS(CFE_TBL_Manage(handle), CFE_SUCCESS);
    expect_event(replies, event);
    CHECK_STATUS(CFE_TBL_GetStatus(handle), CFE_SUCCESS);
}

/* A table is loaded in flight: its owner calls CFE_TBL_Manage alone. */
static void check_commanded_load(CFE_TBL_Handle_t handle)
{
    command_table(CFE_TBL_ACTIVATE_CC, "FIRST.TABLE", CFE_TBL_ACTIVATE_ERR_EID);
    command_table(CFE_TBL_ABORT_LOAD_CC, "FIRST.TABLE", CFE_TBL_LOAD_ABORT_ERR_EID);
    command_validation("FIRST.TABLE", inactive, CFE_TBL_NO_INACTIVE_BUFFER_ERR_EID);
    command_load(good_file(11), CFE_TBL_FILE_LOADED_INF_EID);
    CHECK_STATUS(CFE_TBL_Manage(handle), CFE_SUCCESS);
    CHECK_STATUS(load(handle, 2), CFE_TBL_ERR_LOAD_IN_PROGRESS);
    expect_event(replies, CFE_TBL_LOAD_IN_PROGRESS_ERR_EID);
    command_table(CFE_TBL_ACTIVATE_CC, "FIRST.TABLE", CFE_TBL_UNVALIDATED_ERR_EID);
    command_validation("FIRST.TABLE", inactive, CFE_TBL_VAL_REQ_MADE_INF_EID);
    manage_validation(handle, CFE_TBL_VALIDATION_ERR_EID);
    command_table(CFE_TBL_ACTIVATE_CC, "FIRST.TABLE", CFE_TBL_UNVALIDATED_ERR_EID);
    /* A part is loaded over what is staged. */
    command_load(write_file("cFE1", 8, "FIRST.TABLE", 0, "\3", 1, 1), CFE_TBL_FILE_LOADED_INF_EID);
    command_validation("FIRST.TABLE", inactive, CFE_TBL_VAL_REQ_MADE_INF_EID);
    manage_validation(handle, CFE_TBL_VALIDATION_INF_EID);
    CHECK(number_of(handle, CFE_TBL_INFO_UPDATED) == 1);
    CHECK(housekeeping().NumLoadPending == 0 && housekeeping().NumFreeSharedBufs == 3);
    command_table(CFE_TBL_ACTIVATE_CC, "FIRST.TABLE", CFE_TBL_LOAD_PEND_REQ_INF_EID);
    command_load(good_file(4), CFE_TBL_LOAD_IN_PROGRESS_ERR_EID);
    CHECK(housekeeping().NumLoadPending == 1);
    CHECK_STATUS(CFE_TBL_Manage(handle), CFE_SUCCESS);
    expect_event(replies, CFE_TBL_UPDATE_SUCCESS_INF_EID);
    const table_t *table = address_of(handle, CFE_TBL_INFO_UPDATED);
    CHECK(table->number == 3 && table->bytes[0] == 1 && table->bytes[11] == 0xee);
    CHECK_STATUS(CFE_TBL_ReleaseAddress(handle), CFE_SUCCESS);
    command_load(good_file(5), CFE_TBL_FILE_LOADED_INF_EID);
    command_table(CFE_TBL_ABORT_LOAD_CC, "FIRST.TABLE", CFE_TBL_LOAD_ABORT_INF_EID);
    CHECK_STATUS(load(handle, 1), CFE_SUCCESS);
    CHECK(number_of(handle, CFE_TBL_INFO_UPDATED) == 1);
}

static void check_refused_commands(void)
{
    char name[CFE_TBL_MAX_FULL_NAME_LEN + 1], path[CFE_MISSION_MAX_PATH_LEN + 1];
    static const uint8 longer[192];
    memset(name, 'n', sizeof name);
    memset(path, 'p', sizeof path);
    name[sizeof name - 1] = path[sizeof path - 1] = '\0';
    command_load(path, CFE_TBL_LOAD_FILENAME_LONG_ERR_EID);
    command_load(path_of("none"), CFE_TBL_FILE_ACCESS_ERR_EID);
    command_load("/dev/stdin", CFE_TBL_FILE_ACCESS_ERR_EID);
    command_load(file_for("NO.TABLE", 1), CFE_TBL_NO_SUCH_TABLE_ERR_EID);
    command_load(file_for("FIRST.DUMP", 1), CFE_TBL_LOADING_A_DUMP_ONLY_ERR_EID);
    command_load(write_file("cFE1", 8, "FIRST.TABLE", 1, "0123456789abcdef", 16, 16),
                 CFE_TBL_LOAD_EXCEEDS_SIZE_ERR_EID);
    command_load(write_file("cFE1", 8, "FIRST.NEW", 1, "0123", 4, 4), CFE_TBL_PARTIAL_LOAD_ERR_EID);
    command_load(write_file("cFE1", 8, "FIRST.NEW", 0, "0123", 3, 4),
                 CFE_TBL_FILE_INCOMPLETE_ERR_EID);
    command_table(CFE_TBL_ACTIVATE_CC, name, CFE_TBL_NO_SUCH_TABLE_ERR_EID);
    command_table(CFE_TBL_ABORT_LOAD_CC, "FIRST.", CFE_TBL_NO_SUCH_TABLE_ERR_EID);
    command_table(CFE_TBL_ACTIVATE_CC, "FIRST.DUMP", CFE_TBL_ACTIVATE_DUMP_ONLY_ERR_EID);
    command_validation("", inactive, CFE_TBL_NO_SUCH_TABLE_ERR_EID);
    command_validation("FIRST.TABLE", 2, CFE_TBL_ILLEGAL_BUFF_PARAM_ERR_EID);
    command_validation("FIRST.DUMP", inactive, CFE_TBL_NO_INACTIVE_BUFFER_ERR_EID);
    command(CFE_TBL_NOOP_CC, name, 1, CFE_TBL_LEN_ERR_EID);
    command(CFE_TBL_LOAD_CC, path, 65, CFE_TBL_LEN_ERR_EID);
    command(CFE_TBL_LOAD_CC, longer, sizeof longer, CFE_TBL_LEN_ERR_EID);
    command(3, path, 0, CFE_TBL_CC1_ERR_EID);
    command(127, path, 0, CFE_TBL_CC1_ERR_EID);
}

/* A table as it is is validated too, also a dump-only one; one without a function is valid. */
static void check_commanded_validations(CFE_TBL_Handle_t handle)
{
    CFE_TBL_Handle_t dump = table_of("DUMP", CFE_TBL_OPT_DUMP_ONLY, validate),
                     plain = table_of("NEW", CFE_TBL_OPT_DBL_BUFFER, NULL);
    check_refused_commands();
    command_validation("FIRST.TABLE", active, CFE_TBL_VAL_REQ_MADE_INF_EID);
    manage_validation(handle, CFE_TBL_VALIDATION_INF_EID);
    CHECK(housekeeping().ActiveBuffer && housekeeping().LastValStatus == CFE_SUCCESS);
    address_of(dump, CFE_SUCCESS)->number = 20;
    command_validation("FIRST.DUMP", active, CFE_TBL_VAL_REQ_MADE_INF_EID);
    manage_validation(dump, CFE_TBL_VALIDATION_ERR_EID);
    CFE_TBL_HousekeepingTlm_Payload_t hk = housekeeping();
    CHECK(hk.LastValStatus == -7 && strcmp(hk.LastValTableName, "FIRST.DUMP") == 0);
    command_load(write_file("cFE1", 8, "FIRST.NEW", 0, "\7\0", 2, 2), CFE_TBL_FILE_LOADED_INF_EID);
    command_validation("FIRST.NEW", inactive, CFE_TBL_ASSUMED_VALID_INF_EID);
    command_table(CFE_TBL_ACTIVATE_CC, "FIRST.NEW", CFE_TBL_LOAD_PEND_REQ_INF_EID);
    CHECK_STATUS(CFE_TBL_Manage(plain), CFE_SUCCESS);
    CHECK(number_of(plain, CFE_TBL_INFO_UPDATED) == 7);
    const table_t *table = address_of(plain, CFE_SUCCESS);
    CHECK(info_of("FIRST.NEW").Crc == CFE_ES_CalculateCRC(table, sizeof *table, 0, 2));
    expect_event(replies, CFE_TBL_UPDATE_SUCCESS_INF_EID);
}

static void obey_ground(void)
{
    replies = open_events("REPLIES");
    CHECK_STATUS(CFE_SB_CreatePipe(&packets, 4, "PACKETS"), CFE_SUCCESS);
    CHECK_STATUS(CFE_SB_Subscribe(CFE_TBL_HK_TLM_MID, packets), CFE_SUCCESS);
    CFE_TBL_Handle_t handle = table_of("TABLE", CFE_TBL_OPT_DEFAULT, validate);
    CHECK_STATUS(load(handle, 1), CFE_SUCCESS);
    CFE_TBL_HousekeepingTlm_Payload_t hk = housekeeping();
    CHECK(hk.CommandCounter == 0 && hk.CommandErrorCounter == 0 && hk.NumTables == 1);
    CHECK(hk.NumFreeSharedBufs == 4 && strcmp(hk.LastUpdatedTable, "FIRST.TABLE") == 0);
    command(CFE_TBL_NOOP_CC, NULL, 0, CFE_TBL_NOOP_INF_EID);
    check_commanded_load(handle);
    hk = housekeeping();
    CHECK(hk.CommandCounter == 8 && hk.CommandErrorCounter == 6);
    CHECK(hk.ValidationCounter == 2 && hk.SuccessValCtr == 1 && hk.FailedValCtr == 1);
    CHECK(hk.NumValRequests == 2 && hk.LastValCrc && !hk.ActiveBuffer);
    CHECK(strcmp(hk.LastTableLoaded, "FIRST.TABLE") == 0);
    CHECK(strcmp(hk.LastFileLoaded, path_of("table.tbl")) == 0);
    check_commanded_validations(handle);
    CHECK(housekeeping().CommandErrorCounter == 6 + 19 && housekeeping().NumTables == 3);
    command(CFE_TBL_RESET_COUNTERS_CC, NULL, 0, CFE_TBL_RESET_INF_EID);
    hk = housekeeping();
    CHECK(hk.CommandCounter == 0 && hk.CommandErrorCounter == 0 && hk.ValidationCounter == 0);
    CHECK(hk.SuccessValCtr == 0 && hk.FailedValCtr == 0 && hk.NumValRequests == 0);
}

/* ---- Where files lie ---- */

/* What isn't a regular file is refused at once. */
static void load_no_files(void)
{
    CFE_TBL_Handle_t handle = table_of("TABLE", CFE_TBL_OPT_DEFAULT, NULL);
    unlink(path_of("pipe"));
    CHECK(mkfifo(path_of("pipe"), 0600) == 0);
    CHECK_STATUS(CFE_TBL_Load(handle, from_file, path_of("pipe")), CFE_TBL_ERR_ACCESS);
    CHECK_STATUS(fsw_stage_table(path_of("pipe")), CFE_TBL_ERR_ACCESS);
    CHECK_STATUS(CFE_TBL_Load(handle, from_file, "/dev/stdin"), CFE_TBL_ERR_ACCESS);
    CHECK_STATUS(CFE_TBL_Load(handle, from_file, "/dev/zero"), CFE_TBL_ERR_ACCESS);
    CHECK_STATUS(CFE_TBL_Load(handle, from_file, folder), CFE_TBL_ERR_ACCESS);
    CHECK_STATUS(load(handle, 1), CFE_SUCCESS);
    unlink(path_of("pipe"));
}

/* The file's name, as cFE's applications have it, begins at the root of the configuration. */
static void load_from_root(void)
{
    static const char *const refused[] = {"/none.tbl",    "/",         "/../table.tbl",
                                          "/cf/../../x",  "..",        "/inner",
                                          "/outer/x.tbl", "/link.tbl", "/cf/table.tbl/",
                                          "/cf/up/x.tbl"};
    CFE_TBL_Handle_t handle = table_of("TABLE", CFE_TBL_OPT_DEFAULT, NULL);
    CHECK_STATUS(CFE_TBL_Load(handle, from_file, "/cf/table.tbl"), CFE_SUCCESS);
    CHECK(number_of(handle, CFE_TBL_INFO_UPDATED) == 9);
    CHECK(strcmp(info_of("FIRST.TABLE").LastFileLoaded, "/cf/table.tbl") == 0);
    CHECK_STATUS(CFE_TBL_Load(handle, from_file, "cf//./table.tbl"), CFE_SUCCESS);
    for (size_t i = 0; i < sizeof refused / sizeof refused[0]; i++)
        CHECK_STATUS(CFE_TBL_Load(handle, from_file, refused[i]), CFE_TBL_ERR_ACCESS);
    CHECK_STATUS(fsw_stage_table("/../x.tbl"), CFE_TBL_ERR_ACCESS);
}

/* Makes a file system's part: a table in root/cf and one outside, with ways that lead there. */
static void check_file_root(void)
{
    char root[OS_MAX_PATH_LEN], outside[OS_MAX_PATH_LEN], inside[OS_MAX_PATH_LEN];
    const struct fsw_config rooted = {.file_root = root}, plain = {.file_root = NULL};
    strcpy(outside, path_of("x.tbl"));
    strcpy(root, path_of("root"));
    strcpy(inside, path_of("root/cf/table.tbl"));
    CHECK(rename(good_file(1), outside) == 0);
    CHECK(mkdir(root, 0700) == 0 && mkdir(path_of("root/cf"), 0700) == 0);
    CHECK(rename(good_file(9), inside) == 0);
    CHECK(symlink("../x.tbl", path_of("root/link.tbl")) == 0);
    CHECK(symlink("cf/table.tbl", path_of("root/inner")) == 0);
    CHECK(symlink("..", path_of("root/outer")) == 0 &&
          symlink("../..", path_of("root/cf/up")) == 0);
    fsw_configure(&rooted);
    run(load_from_root, NULL);
    fsw_configure(&plain);
    unlink(path_of("root/cf/up"));
    unlink(inside);
    unlink(path_of("root/link.tbl"));
    unlink(path_of("root/inner"));
    unlink(path_of("root/outer"));
    CHECK(rmdir(path_of("root/cf")) == 0 && rmdir(root) == 0 && unlink(outside) == 0);
}

/* ---- Memory of the configuration ---- */

/* Room for two tables that are loaded, whose memory begins at the first multiple of 16. */
static _Alignas(16) uint8 memory[8 + 2 * 2 * sizeof(table_t) + 8];

static bool is_in_memory(const void *at)
{
    return (const uint8 *)at >= memory && (const uint8 *)at < memory + sizeof memory;
}

static void fill_memory(void)
{
    CFE_TBL_Handle_t first = table_of("A", CFE_TBL_OPT_DEFAULT, NULL), third,
                     second = table_of("B", CFE_TBL_OPT_DUMP_ONLY, NULL);
    CHECK(is_in_memory(address_of(first, CFE_TBL_ERR_NEVER_LOADED)));
    CHECK(is_in_memory(address_of(second, CFE_SUCCESS)));
    CHECK_STATUS(CFE_TBL_Register(&third, "C", sizeof(table_t), CFE_TBL_OPT_DEFAULT, NULL),
                 CFE_TBL_ERR_NO_BUFFER_AVAIL);
    CHECK(third == CFE_TBL_BAD_TABLE_HANDLE);
    third = table_of("C", CFE_TBL_OPT_DUMP_ONLY, NULL);
    address_of(third, CFE_SUCCESS)->number = 3;
    address_of(second, CFE_SUCCESS)->number = 2;
    CHECK_STATUS(CFE_TBL_Unregister(first), CFE_SUCCESS);
    /* The first gap is used again. */
    first = table_of("A", CFE_TBL_OPT_DEFAULT, NULL);
    CHECK_STATUS(load(first, 1), CFE_SUCCESS);
    CHECK(number_of(first, CFE_TBL_INFO_UPDATED) == 1);
    CHECK_STATUS(CFE_TBL_Load(first, from_file, file_for("FIRST.A", 4)), CFE_SUCCESS);
    CHECK(number_of(first, CFE_TBL_INFO_UPDATED) == 4);
    CHECK(number_of(second, CFE_SUCCESS) == 2 && number_of(third, CFE_SUCCESS) == 3);
    CHECK_STATUS(CFE_TBL_Unregister(second), CFE_SUCCESS);
    CHECK_STATUS(CFE_TBL_Register(&second, "D", sizeof(table_t), CFE_TBL_OPT_DEFAULT, NULL),
                 CFE_TBL_ERR_NO_BUFFER_AVAIL);
    CHECK_STATUS(CFE_TBL_Unregister(third), CFE_SUCCESS);
    table_of("D", CFE_TBL_OPT_DEFAULT, NULL);
}

static void check_memory(void)
{
    const struct fsw_config given = {.table_memory = memory + 8,
                                     .table_memory_size = sizeof memory - 8},
                            plain = {.table_memory = NULL};
    fsw_configure(&given);
    run(fill_memory, NULL);
    /* All of it is free again. */
    run(fill_memory, NULL);
    fsw_configure(&plain);
}

int main(int argc, char **argv)
{
    const struct fsw_config telling = {.sends_events = true};
    if (argc > 1)
        folder = argv[1];
    fsw_configure(&telling);
    run(write_dump_only, read_dump_only);
    run(change_single, see_changes);
    run(change_double, see_changes);
    run(change_beside_load, NULL);
    run(test_tables, share_tables);
    run(obey_ground, NULL);
    run(load_no_files, NULL);
    check_file_root();
    check_memory();
    unlink(path_of("table.tbl"));
    printf("tables_test passed\n");
    return 0;
}
