/* cfe_time.h: the time that messages and events carry. */
#ifndef CFE_TIME_H
#define CFE_TIME_H

#include "common_types.h"

#ifdef __cplusplus
extern "C" {
#endif

typedef struct CFE_TIME_SysTime {
    uint32 Seconds;
    uint32 Subseconds; /* of 2^-32 s */
} CFE_TIME_SysTime_t;

/* The time since fsw_run began. */
CFE_TIME_SysTime_t CFE_TIME_GetTime(void);

/* Arithmetic; a difference of over 2^31 s counts as the other sign, since seconds wrap. */
typedef enum CFE_TIME_Compare {
    CFE_TIME_A_LT_B = -1,
    CFE_TIME_EQUAL = 0,
    CFE_TIME_A_GT_B = 1
} CFE_TIME_Compare_t;

CFE_TIME_SysTime_t CFE_TIME_Add(CFE_TIME_SysTime_t Time1, CFE_TIME_SysTime_t Time2);
CFE_TIME_SysTime_t CFE_TIME_Subtract(CFE_TIME_SysTime_t Time1, CFE_TIME_SysTime_t Time2);
CFE_TIME_Compare_t CFE_TIME_Compare(CFE_TIME_SysTime_t TimeA, CFE_TIME_SysTime_t TimeB);
uint32 CFE_TIME_Sub2MicroSecs(uint32 SubSeconds);
uint32 CFE_TIME_Micro2SubSecs(uint32 MicroSeconds);

#ifdef __cplusplus
}
#endif

#endif
