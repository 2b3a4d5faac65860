/* cfe_mission_cfg.h: cFE's usual sizes that applications use. */
#ifndef CFE_MISSION_CFG_H
#define CFE_MISSION_CFG_H

#include "cfe_platform_cfg.h"

#define CFE_MISSION_MAX_API_LEN            20 /* bytes of a name, with its zero byte */
#define CFE_MISSION_MAX_PATH_LEN           64
#define CFE_MISSION_EVS_MAX_MESSAGE_LENGTH 122
#define CFE_MISSION_TBL_MAX_NAME_LENGTH    16
#define CFE_MISSION_TBL_MAX_FULL_NAME_LEN  40
#define CFE_MISSION_SB_MAX_PIPES           64
#define CFE_MISSION_SB_MAX_SB_MSG_SIZE     32768
#define CFE_MISSION_ES_MAX_APPLICATIONS    16
#define CFE_MISSION_ES_POOL_MAX_BUCKETS    17
#define CFE_MISSION_ES_CRC_16              2
#define CFE_MISSION_ES_DEFAULT_CRC         CFE_MISSION_ES_CRC_16

#endif
