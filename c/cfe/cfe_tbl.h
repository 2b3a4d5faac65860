/* cfe_tbl.h: Table Services. A table's full name is its application's name, a point, and its own.
 */
#ifndef CFE_TBL_H
#define CFE_TBL_H

#include "cfe_error.h"
#include "cfe_mission_cfg.h"
#include "cfe_time.h"

#ifdef __cplusplus
extern "C" {
#endif

#define CFE_TBL_OPT_BUFFER_MSK   0x0001
#define CFE_TBL_OPT_SNGL_BUFFER  0x0000
#define CFE_TBL_OPT_DBL_BUFFER   0x0001
#define CFE_TBL_OPT_LD_DMP_MSK   0x0002
#define CFE_TBL_OPT_LOAD_DUMP    0x0000
#define CFE_TBL_OPT_DUMP_ONLY    0x0002
#define CFE_TBL_OPT_USR_DEF_MSK  0x0004
#define CFE_TBL_OPT_NOT_USR_DEF  0x0000
#define CFE_TBL_OPT_USR_DEF_ADDR 0x0006 /* refused here: CFE_TBL_ERR_INVALID_OPTIONS */
#define CFE_TBL_OPT_CRITICAL_MSK 0x0008
#define CFE_TBL_OPT_NOT_CRITICAL 0x0000
#define CFE_TBL_OPT_CRITICAL     0x0008 /* refused here: CFE_TBL_ERR_INVALID_OPTIONS */
#define CFE_TBL_OPT_DEFAULT      (CFE_TBL_OPT_SNGL_BUFFER | CFE_TBL_OPT_LOAD_DUMP)

typedef int16 CFE_TBL_Handle_t;
#define CFE_TBL_BAD_TABLE_HANDLE  ((CFE_TBL_Handle_t)(-1))
#define CFE_TBL_MAX_FULL_NAME_LEN CFE_MISSION_TBL_MAX_FULL_NAME_LEN

/* Validates a value before it becomes the table's: CFE_SUCCESS, or a negative status. */
typedef int32 (*CFE_TBL_CallbackFuncPtr_t)(void *TblPtr);

typedef enum CFE_TBL_SrcEnum { CFE_TBL_SRC_FILE = 0, CFE_TBL_SRC_ADDRESS = 1 } CFE_TBL_SrcEnum_t;

typedef struct CFE_TBL_Info {
    size_t Size;
    uint32 NumUsers; /* handles */
    uint32 FileCreateTimeSecs;
    uint32 FileCreateTimeSubSecs;
    uint32 Crc;
    CFE_TIME_SysTime_t TimeOfLastUpdate;
    bool TableLoadedOnce;
    bool DumpOnly;
    bool DoubleBuffered;
    bool UserDefAddr;
    bool Critical;
    char LastFileLoaded[CFE_MISSION_MAX_PATH_LEN];
} CFE_TBL_Info_t;

CFE_Status_t CFE_TBL_Register(CFE_TBL_Handle_t *TblHandlePtr, const char *Name, size_t Size,
                              uint16 TblOptionFlags,
                              CFE_TBL_CallbackFuncPtr_t TblValidationFuncPtr);
CFE_Status_t CFE_TBL_Share(CFE_TBL_Handle_t *TblHandlePtr, const char *TblName);
CFE_Status_t CFE_TBL_Unregister(CFE_TBL_Handle_t TblHandle);

/*
 * Loads the whole table from an address, or what a table file has: validated and updated at once.
 * If a handle holds the table, CFE_TBL_INFO_TABLE_LOCKED: the update waits for CFE_TBL_Manage.
 */
CFE_Status_t CFE_TBL_Load(CFE_TBL_Handle_t TblHandle, CFE_TBL_SrcEnum_t SrcType,
                          const void *SrcDataPtr);

/*
 * What a ground command or fsw_stage_table loaded is validated, then becomes the table's. Manage
 * does what is pending. An event says what a validation found.
 */
CFE_Status_t CFE_TBL_Validate(CFE_TBL_Handle_t TblHandle);
CFE_Status_t CFE_TBL_Update(CFE_TBL_Handle_t TblHandle);
CFE_Status_t CFE_TBL_Manage(CFE_TBL_Handle_t TblHandle);
CFE_Status_t CFE_TBL_GetStatus(CFE_TBL_Handle_t TblHandle);

/* Answers as CFE_TBL_GetStatus: there is no dump to a file, so none is pending. */
CFE_Status_t CFE_TBL_DumpToBuffer(CFE_TBL_Handle_t TblHandle);

/*
 * The bytes may be read until they are released. The table's owner may also write there: other
 * applications see that at once in a dump-only table, and after CFE_TBL_Modified in another.
 */
CFE_Status_t CFE_TBL_GetAddress(void **TblPtr, CFE_TBL_Handle_t TblHandle);
CFE_Status_t CFE_TBL_ReleaseAddress(CFE_TBL_Handle_t TblHandle);

/*
 * The owner wrote the table's bytes: they are its next version, without a validation. If another
 * handle holds the table, CFE_TBL_INFO_TABLE_LOCKED: that waits for CFE_TBL_Manage.
 */
CFE_Status_t CFE_TBL_Modified(CFE_TBL_Handle_t TblHandle);

CFE_Status_t CFE_TBL_GetAddresses(void **TblPtrs[], uint16 NumTables,
                                  const CFE_TBL_Handle_t TblHandles[]);
CFE_Status_t CFE_TBL_ReleaseAddresses(uint16 NumTables, const CFE_TBL_Handle_t TblHandles[]);

CFE_Status_t CFE_TBL_GetInfo(CFE_TBL_Info_t *TblInfoPtr, const char *TblName);

#ifdef __cplusplus
}
#endif

#endif
