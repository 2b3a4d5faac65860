/*
 * tbl_file.c: table files. Nothing but a regular file is read, none that lies outside the folder of
 * the configuration, and no more of it than a table has. The faults come in cFE's order.
 */
#include "layer_tbl.h"

#include <errno.h>
#include <fcntl.h>
#include <stdio.h>
#include <string.h>
#include <sys/stat.h>
#include <unistd.h>

/* cFE's header of a file, and the table's; all numbers have four bytes, the highest first. */
enum {
    FILE_HEADER = 64,
    TABLE_HEADER = 52,
    SUBTYPE_AT = 4,
    SUBTYPE_OF_TABLES = 8,
    SECONDS_AT = 24,
    SUBSECONDS_AT = 28,
    OFFSET_AT = 68,
    LENGTH_AT = 72,
    NAME_AT = 76
};
_Static_assert(NAME_AT + CFE_TBL_MAX_FULL_NAME_LEN == FILE_HEADER + TABLE_HEADER,
               "the table's name ends the headers");

/* A file that isn't regular doesn't block, and becomes no terminal; a link isn't followed. */
enum { FOR_READING = O_RDONLY | O_NONBLOCK | O_NOCTTY | O_CLOEXEC, FOLDER = O_DIRECTORY };

/* ---- Opening ---- */

/* One step of a path that begins here; its length, 0 if it is none. */
static size_t take_step(const char *path, char step[CFE_MISSION_MAX_PATH_LEN])
{
    size_t length = strcspn(path, "/");
    if (length >= CFE_MISSION_MAX_PATH_LEN)
        return 0;
    memcpy(step, path, length);
    step[length] = '\0';
    return strcmp(step, "..") == 0 ? 0 : length;
}

/* Opens what a path names below the file root, step by step, without following a link. */
static int open_below(const char *root, const char *path)
{
    char step[CFE_MISSION_MAX_PATH_LEN];
    bool is_last = false;
    int place = open(root, FOR_READING | FOLDER);
    while (place >= 0 && !is_last) {
        path += strspn(path, "/");
        size_t length = take_step(path, step);
        path += length;
        is_last = *path == '\0';
        int next = length == 0
                       ? -1
                       : openat(place, step, FOR_READING | O_NOFOLLOW | (is_last ? 0 : FOLDER));
        close(place);
        place = next;
    }
    return place;
}

/* Opens a regular file; -1 if there is none. */
static int open_regular(const char *path)
{
    struct stat kind;
    const char *root = fsw_layer.config.file_root;
    int descriptor = root ? open_below(root, path) : open(path, FOR_READING);
    if (descriptor < 0)
        return -1;
    if (fstat(descriptor, &kind) == 0 && S_ISREG(kind.st_mode))
        return descriptor;
    close(descriptor);
    return -1;
}

/* ---- Reading ---- */

/* How many bytes of so many were there; after a fault, those before it. */
static size_t read_bytes(int descriptor, uint8_t *into, size_t most)
{
    size_t there = 0;
    ssize_t part = 1;
    while (there < most && (part > 0 || (part < 0 && errno == EINTR))) {
        part = read(descriptor, into + there, most - there);
        there += part > 0 ? (size_t)part : 0;
    }
    return there;
}

static uint32_t number_at(const uint8_t *at)
{
    return (uint32_t)at[0] << 24 | (uint32_t)at[1] << 16 | (uint32_t)at[2] << 8 | at[3];
}

static uint32_t read_headers(struct table_file *file)
{
    uint8_t header[FILE_HEADER + TABLE_HEADER];
    if (read_bytes(file->descriptor, header, FILE_HEADER) < FILE_HEADER)
        return FSW_TBL_ERR_NO_STD_HEADER;
    if (memcmp(header, "cFE1", 4) != 0)
        return FSW_TBL_ERR_BAD_CONTENT_ID;
    if (number_at(header + SUBTYPE_AT) != SUBTYPE_OF_TABLES)
        return (uint32_t)CFE_TBL_ERR_BAD_SUBTYPE_ID;
    if (read_bytes(file->descriptor, header + FILE_HEADER, TABLE_HEADER) < TABLE_HEADER)
        return FSW_TBL_ERR_NO_TBL_HEADER;
    file->source.seconds = number_at(header + SECONDS_AT);
    file->source.subseconds = number_at(header + SUBSECONDS_AT);
    file->offset = number_at(header + OFFSET_AT);
    file->length = number_at(header + LENGTH_AT);
    memcpy(file->table, header + NAME_AT, sizeof file->table);
    file->table[sizeof file->table - 1] = '\0';
    return FSW_SUCCESS;
}

uint32_t fsw_open_table_file(const char *path, struct table_file *file)
{
    *file = (struct table_file){.descriptor = -1};
    if (strlen(path) >= CFE_MISSION_MAX_PATH_LEN)
        return (uint32_t)CFE_TBL_ERR_FILENAME_TOO_LONG;
    snprintf(file->source.name, sizeof file->source.name, "%s", path);
    file->descriptor = open_regular(path);
    if (file->descriptor < 0)
        return (uint32_t)CFE_TBL_ERR_ACCESS;
    uint32_t status = read_headers(file);
    if (status != FSW_SUCCESS)
        fsw_close_table_file(file);
    return status;
}

void fsw_close_table_file(const struct table_file *file)
{
    close(file->descriptor);
}

uint32_t fsw_read_table_file(const struct table_file *file, uint8_t *table)
{
    uint8_t more;
    uint32_t status = FSW_SUCCESS;
    if (read_bytes(file->descriptor, table + file->offset, file->length) < file->length)
        status = (uint32_t)CFE_TBL_ERR_LOAD_INCOMPLETE;
    else if (read_bytes(file->descriptor, &more, 1) > 0)
        status = FSW_TBL_ERR_FILE_TOO_LARGE;
    fsw_close_table_file(file);
    return status;
}
