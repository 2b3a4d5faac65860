/*
 * calls_server.c: makes the calls that come on standard input, for random_calls.py on another
 * processor. All numbers are of this processor's order, which is the lowest byte first.
 *
 *     C NAME WORDS WORD..   fsw_raw_NAME on the server's core: 24 bytes of the name, one of how
 * many words follow, each N and a number of 64 bits, or B, a length of 64 bits, and the bytes that
 * the call's pointer shall point to. Answered by the status, 32 bits, and by the bytes of each B as
 * the call left them. R ADDRESS LENGTH      answered by these bytes of the server's memory W
 * ADDRESS LENGTH ..   writes these bytes there
 */
#include "fsw.h"

#include <stdio.h>
#include <stdlib.h>
#include <string.h>

enum { NAME_BYTES = 24, MOST_WORDS = 8, ALIGN = 16, AREA_BYTES = 131072 };

/* A word of a call: a number, or the length of the bytes that `at` points to. */
struct word {
    uint64_t number;
    uint8_t *at;
};

static struct fsw_core core;
static _Alignas(ALIGN) uint8_t area[AREA_BYTES];

#define AT(place)   ((void *)words[place].at)
#define FLAG(place) (words[place].number != 0)
#define U8(place)   ((uint8_t)words[place].number)
#define U16(place)  ((uint16_t)words[place].number)
#define U32(place)  ((uint32_t)words[place].number)
#define U64(place)  (words[place].number)

/* Each call with its words. */
#define CALLS(CALL)                                                                   \
    CALL(open, AT(0))                                                                 \
    CALL(end, U32(0))                                                                 \
    CALL(create_pipe, U32(0), U32(1), AT(2), U64(3), AT(4))                           \
    CALL(delete_pipe, U32(0), U32(1))                                                 \
    CALL(set_options, U32(0), U32(1), U8(2))                                          \
    CALL(get_options, U32(0), AT(1))                                                  \
    CALL(find_pipe, AT(0), U64(1), AT(2))                                             \
    CALL(pipe_name, U32(0), AT(1), U64(2), AT(3))                                     \
    CALL(waiting, U32(0), AT(1))                                                      \
    CALL(subscribe, U32(0), U16(1), U32(2), U32(3), U32(4))                           \
    CALL(unsubscribe, U32(0), U16(1), U32(2))                                         \
    CALL(transmit, U32(0), AT(1), U64(2), FLAG(3), AT(4))                             \
    CALL(receive, U32(0), U32(1), AT(2))                                              \
    CALL(pend, U32(0), U32(1), AT(2))                                                 \
    CALL(look, U32(0), AT(1))                                                         \
    CALL(allocate_buffer, U32(0), U32(1), AT(2))                                      \
    CALL(transmit_buffer, U32(0), AT(1), FLAG(2), AT(3))                              \
    CALL(release_buffer, U32(0), AT(1))                                               \
    CALL(pool_create, U32(0), U32(1), AT(2))                                          \
    CALL(pool_get, U32(0), U32(1), U32(2), AT(3))                                     \
    CALL(pool_put, U32(0), U32(1), U64(2))                                            \
    CALL(pool_stats, U32(0), AT(1))                                                   \
    CALL(pool_class, U32(0), U32(1), AT(2))                                           \
    CALL(pool_block, U32(0), U64(1), AT(2))                                           \
    CALL(register, U32(0), AT(1), U64(2))                                             \
    CALL(send_event, U32(0), U16(1), U32(2), AT(3), U64(4), AT(5))                    \
    CALL(reset_filter, U32(0), U16(1))                                                \
    CALL(set_log_mode, U32(0), U8(1))                                                 \
    CALL(clear_log, U32(0))                                                           \
    CALL(log_line, U32(0), AT(1))                                                     \
    CALL(event_counts, AT(0))                                                         \
    CALL(send_housekeeping, U32(0), AT(1))                                            \
    CALL(counters, AT(0))                                                             \
    CALL(use, AT(0), AT(1))                                                           \
    CALL(table_register, U32(0), AT(1), U64(2), U32(3), U32(4), AT(5), U64(6), AT(7)) \
    CALL(table_share, U32(0), AT(1), U64(2), AT(3))                                   \
    CALL(table_unregister, U32(0), U32(1))                                            \
    CALL(table_stage, U32(0), U32(1), U32(2), AT(3), U64(4))                          \
    CALL(table_staged, U32(0), U32(1), AT(2))                                         \
    CALL(table_validate, U32(0), U32(1))                                              \
    CALL(table_update, U32(0), U32(1))                                                \
    CALL(table_abort, U32(0), U32(1))                                                 \
    CALL(table_load, U32(0), U32(1), U32(2), AT(3), U64(4))                           \
    CALL(table_get_address, U32(0), U32(1), AT(2))                                    \
    CALL(table_release_address, U32(0), U32(1))                                       \
    CALL(table_status, U32(0), U32(1), AT(2))                                         \
    CALL(table_use, AT(0))

#define DEFINED(name, ...)                                \
    static uint32_t call_##name(const struct word *words) \
    {                                                     \
        return fsw_raw_##name(&core, __VA_ARGS__);        \
    }
CALLS(DEFINED)

static uint32_t call_close(const struct word *words)
{
    (void)words;
    return fsw_raw_close(&core);
}

#define NAMED(name, ...) {#name, call_##name},
static const struct {
    const char *name;
    uint32_t (*call)(const struct word *words);
} calls[] = {CALLS(NAMED){"close", call_close}};

static void get(void *into, size_t length)
{
    if (length > 0 && fread(into, length, 1, stdin) != 1)
        exit(1);
}

static void put(const void *from, size_t length)
{
    if (length > 0 && fwrite(from, length, 1, stdout) != 1)
        exit(1);
}

static uint64_t get_number(void)
{
    uint64_t number;
    get(&number, sizeof number);
    return number;
}

/* Reads a word; its bytes lie in the area from `used` on. Answers how much of the area is used. */
static size_t get_word(struct word *word, size_t used)
{
    int kind = getchar();
    *word = (struct word){get_number(), NULL};
    if (kind != 'B')
        return used;
    if (word->number > AREA_BYTES - used)
        exit(2);
    word->at = area + used;
    get(word->at, word->number);
    size_t end = used + word->number;
    return end + (ALIGN - end % ALIGN) % ALIGN;
}

static uint32_t called(const char *name, const struct word *words)
{
    for (size_t i = 0; i < sizeof calls / sizeof *calls; i++)
        if (strcmp(calls[i].name, name) == 0)
            return calls[i].call(words);
    exit(3);
}

static void make_call(void)
{
    char name[NAME_BYTES];
    struct word words[MOST_WORDS];
    size_t used = 0;
    get(name, sizeof name);
    int count = getchar();
    if (name[NAME_BYTES - 1] || count < 0 || count > MOST_WORDS)
        exit(2);
    for (int i = 0; i < count; i++)
        used = get_word(&words[i], used);
    uint32_t status = called(name, words);
    put(&status, sizeof status);
    for (int i = 0; i < count; i++)
        if (words[i].at)
            put(words[i].at, words[i].number);
}

int main(void)
{
    int what;
    while ((what = getchar()) != EOF) {
        if (what == 'C') {
            make_call();
        } else {
            uint8_t *at = (uint8_t *)(uintptr_t)get_number();
            size_t length = get_number();
            if (what == 'R')
                put(at, length);
            else
                get(at, length);
        }
        fflush(stdout);
    }
    return 0;
}
