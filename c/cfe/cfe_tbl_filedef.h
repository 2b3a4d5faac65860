/*
 * cfe_tbl_filedef.h: a table in a source file of its own, as for cFE. Compiled with `gcc -c`, it
 * becomes a table file by `table_file.py object`.
 */
#ifndef CFE_TBL_FILEDEF_H
#define CFE_TBL_FILEDEF_H

#include "cfe_mission_cfg.h"
#include "common_types.h"

#define CFE_FS_HDR_DESC_MAX_LEN  32
#define CFE_MISSION_MAX_FILE_LEN 20

typedef struct CFE_TBL_FileDef {
    char ObjectName[64]; /* the variable that has the table's bytes */
    char TableName[CFE_MISSION_TBL_MAX_FULL_NAME_LEN];
    char Description[CFE_FS_HDR_DESC_MAX_LEN];
    char TgtFilename[CFE_MISSION_MAX_FILE_LEN];
    uint32 ObjectSize;
} CFE_TBL_FileDef_t;

#define CFE_TBL_FILEDEF(ObjName, TblName, Desc, Filename)                                       \
    __attribute__((used)) static const CFE_TBL_FileDef_t CFE_TBL_FileDef = {#ObjName, #TblName, \
                                                                            #Desc, #Filename,   \
                                                                            sizeof(ObjName)};

#endif
