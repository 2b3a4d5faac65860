/*
 * layer_tbl.h: what the files of Table Services share. The caller of each function has the mutex,
 * where nothing else is said.
 */
#ifndef LAYER_TBL_H
#define LAYER_TBL_H

#include "layer.h"

/* A load on its way. The handle may be given back meanwhile; the core refuses its number then. */
struct load {
    struct app *app;
    struct table *table;
    uint32_t number;
};

/* What a validation function found, and the CRC of the bytes. */
struct verdict {
    uint32_t status;
    uint32_t crc;
};

/* What an event says of a call at its end. */
struct report {
    const char *call;
    uint16 done;   /* the event of success; 0: none */
    uint16 failed; /* the event of a refusal that has none of its own */
    uint32_t status;
    char table[CFE_TBL_MAX_FULL_NAME_LEN];
    char file[CFE_MISSION_MAX_PATH_LEN]; /* or empty */
};

/* A table file whose headers were read. */
struct table_file {
    int descriptor;
    uint32_t offset; /* where in the table its bytes go */
    uint32_t length; /* how many there are */
    char table[CFE_TBL_MAX_FULL_NAME_LEN];
    struct source source;
};

/* ---- tbl.c: names and handles ---- */

struct table *fsw_table_named(const char *name);

/* A handle of an application; one that is none has the number 0, which the core refuses. */
struct handle *fsw_handle_at(CFE_TBL_Handle_t handle);

/* A handle in the core, of any application's table. */
uint32_t fsw_share_table(const struct app *app, const struct table *table, uint32_t *number);

/* A table without handles goes, but not under its loader's hands. */
void fsw_drop_unused(struct table *table);

/* ---- tbl_memory.c ---- */

/* Memory for a table's image and copy, all zero. */
bool fsw_take_table_memory(struct table *table);
void fsw_give_table_memory(struct table *table);

/* ---- tbl_file.c: without the mutex ---- */

/* Opens a table file and reads its headers. If it is refused, nothing is open. */
uint32_t fsw_open_table_file(const char *path, struct table_file *file);
void fsw_close_table_file(const struct table_file *file);

/* Reads the bytes to their place in a table that has that place, and closes the file. */
uint32_t fsw_read_table_file(const struct table_file *file, uint8_t *table);

/* ---- tbl_load.c ---- */

/*
 * Stages these bytes from an offset on, in place of what was staged. If it is refused, nothing is
 * staged.
 */
uint32_t fsw_stage_bytes(struct load load, uint32_t offset, const uint8_t *bytes, uint32_t length);

/* What is staged becomes the table's; it waits if a handle holds the table. */
uint32_t fsw_update_table(const struct app *app, struct table *table, uint32_t number);

/* Drops what is staged. */
void fsw_drop_load(struct load load);

/*
 * Stages a table file for the table that it names, without the mutex. The report gets the table's
 * name.
 */
uint32_t fsw_stage_file(struct app *app, const char *path, bool is_commanded,
                        struct report *report);

/* ---- tbl_ground.c: what the housekeeping packet says ---- */

void fsw_note_validation(const struct table *table, bool is_active, struct verdict verdict);
void fsw_note_update(const struct table *table);

/* ---- tbl_report.c ---- */

/* Sends what an event says of a call's end; without the mutex. */
void fsw_send_report(const struct report *report);

#endif
