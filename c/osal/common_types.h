/* common_types.h: the names that cFE's OS layer gives to C's types. */
#ifndef COMMON_TYPES_H
#define COMMON_TYPES_H

#include <stdbool.h>
#include <stddef.h>
#include <stdint.h>

typedef int8_t int8;
typedef int16_t int16;
typedef int32_t int32;
typedef int64_t int64;
typedef uint8_t uint8;
typedef uint16_t uint16;
typedef uint32_t uint32;
typedef uint64_t uint64;
typedef intptr_t intptr;
typedef uintptr_t cpuaddr;
typedef size_t cpusize;
typedef ptrdiff_t cpudiff;

typedef uint32 osal_id_t;
typedef size_t osal_blockcount_t;
typedef uint32 osal_index_t;

#ifdef __GNUC__
#define OS_PRINTF(text, first) __attribute__((format(printf, text, first)))
#else
#define OS_PRINTF(text, first)
#endif

#define CompileTimeAssert(condition, name) typedef char name[(condition) ? 1 : -1]

#endif
