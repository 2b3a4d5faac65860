/* common_types.h: of another OS layer: the names that cFE's gives to C's types. */
#ifndef OTHER_COMMON_TYPES_H
#define OTHER_COMMON_TYPES_H

#include <stdbool.h>
#include <stddef.h>
#include <stdint.h>

typedef int8_t int8;
typedef int16_t int16;
typedef int32_t int32;
typedef int64_t int64;
typedef uint8_t uint8;
typedef uint16_t uint16;
typedef uint32_t uint32;
typedef uint64_t uint64;
typedef uintptr_t cpuaddr;

/* Ids are no numbers here. */
typedef struct osal_id {
    const void *object;
} osal_id_t;

#define OS_PRINTF(text, first) __attribute__((format(printf, text, first)))

#define CompileTimeAssert(condition, name) typedef char name[(condition) ? 1 : -1]

#endif
