/* time.c: arithmetic of times in cFE's names, with cFE's wrap past 2^32 seconds. */
#include "cfe_time.h"

static uint64_t count_of(CFE_TIME_SysTime_t time)
{
    return (uint64_t)time.Seconds << 32 | time.Subseconds;
}

static CFE_TIME_SysTime_t time_of(uint64_t count)
{
    return (CFE_TIME_SysTime_t){(uint32)(count >> 32), (uint32)count};
}

CFE_TIME_SysTime_t CFE_TIME_Add(CFE_TIME_SysTime_t Time1, CFE_TIME_SysTime_t Time2)
{
    return time_of(count_of(Time1) + count_of(Time2));
}

CFE_TIME_SysTime_t CFE_TIME_Subtract(CFE_TIME_SysTime_t Time1, CFE_TIME_SysTime_t Time2)
{
    return time_of(count_of(Time1) - count_of(Time2));
}

CFE_TIME_Compare_t CFE_TIME_Compare(CFE_TIME_SysTime_t TimeA, CFE_TIME_SysTime_t TimeB)
{
    uint64_t difference = count_of(TimeA) - count_of(TimeB);
    if (difference == 0)
        return CFE_TIME_EQUAL;
    return difference >> 63 ? CFE_TIME_A_LT_B : CFE_TIME_A_GT_B;
}

uint32 CFE_TIME_Sub2MicroSecs(uint32 SubSeconds)
{
    return (uint32)((uint64_t)SubSeconds * 1000000 >> 32);
}

uint32 CFE_TIME_Micro2SubSecs(uint32 MicroSeconds)
{
    return MicroSeconds < 1000000 ? (uint32)(((uint64_t)MicroSeconds << 32) / 1000000) : UINT32_MAX;
}
