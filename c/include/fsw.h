/*
 * fsw.h: the message core for programs in C: the Software Bus with its events and counters, memory
 * pools, and Table Services.
 *
 * A program holds one `struct fsw_core`, which is all zero while it is closed:
 *
 *     static struct fsw_core core;
 *     struct fsw_limits limits = FSW_USUAL_LIMITS;
 *     uint32_t status = fsw_open(&core, &limits);
 *
 * CALLS. Each call names the application that makes it, 1 to limits.apps. Each answers a status of
 * 32 bits: FSW_SUCCESS, which is 0, a status of cFE with cFE's number, or one of this library's own
 * (FSW_..., below). A call that is refused writes to none of its pointers, and changes nothing but
 * the counters that say so. One exception: fsw_receive and fsw_pend let the pipe's last message go,
 * also if no message follows.
 *
 * REFUSALS OF EVERY CALL, in this order, before any that stands beside the call: a null pointer
 * (the service's status for a bad argument; FSW_CLOSED of fsw_close and fsw_end, FSW_BAD_LIMITS of
 * fsw_open); FSW_CLOSED; and of a call by an application FSW_NO_APPLICATION, FSW_TOO_LONG,
 * FSW_NOT_ACTIVE, FSW_NO_NUMBERS. A pointer and a length go together: a null pointer is accepted
 * with length 0, but by fsw_table_stage, fsw_table_load and the calls on packets and files.
 *
 * THREADS. A handle is called by one thread at a time: a program with threads has a mutex round its
 * calls. What a message or an address points to is read without the mutex, as long as each says.
 *
 * MEMORY. fsw_open takes all of it, by rattle_alloc, which the program links: over malloc (heap.c)
 * or static memory (arena.c). No other call takes or gives back memory, but for fsw_close.
 * fsw_bytes_needed says how much it is, in the usual limits some 5 MiB.
 *
 * NUMBERS. Pipes, handles, messages and grants are numbered 1, 2, 3 and so on in order of creation,
 * and no number is used again.
 */
#ifndef FSW_H
#define FSW_H

#include <stdbool.h>
#include <stddef.h>
#include <stdint.h>

#ifdef __cplusplus
extern "C" {
#endif

/*
 * The version of this header. It goes up by one if a program has to be changed or compiled anew;
 * CHANGELOG.md says what to change.
 */
#define FSW_VERSION 2u

/* ----------------------------------------------------------------------------------------------
 * Statuses. Those of cFE have cFE's numbers; this library's own lie where cFE has no service
 * (service number 0).
 */
#define FSW_SUCCESS        0u          /* CFE_SUCCESS */
#define FSW_PENDING        0x40000001u /* fsw_pend, fsw_look: no message yet; it waits */
#define FSW_CLOSED         0xc0000001u /* the handle isn't open */
#define FSW_ALREADY_OPEN   0xc0000002u /* fsw_open: the handle is open */
#define FSW_BAD_LIMITS     0xc0000003u /* fsw_open: a limit isn't in its range */
#define FSW_NO_MEMORY      0xc0000004u /* fsw_open: there isn't as much memory */
#define FSW_NO_APPLICATION 0xc0000005u /* an application's number isn't 1 to limits.apps */
#define FSW_TOO_LONG       0xc0000006u /* more bytes, filters or rules than the call takes */
#define FSW_NOT_ACTIVE     0xc0000007u /* it has ended, or it waits (fsw_pend) and asks the bus */
#define FSW_NO_NUMBERS     0xc0000008u /* no number is left for a pipe, a subscription, a handle */
#define FSW_NO_ROOM        0xc0000009u /* fsw_allocate_buffer: it has limits.buffers out */
#define FSW_BUFFER_OUT \
    0xc000000au /* fsw_end: it has a buffer out; fsw_allocate_buffer: so has the struct */
#define FSW_OTHER_VERSION 0xc000000bu /* fsw_open: the library is of another FSW_VERSION */
#define FSW_RULE_FAILED(rule) \
    (0xc0000100u + (uint32_t)(rule)) /* a staged value fails this rule, 1 to 8 */

#define FSW_SB_TIME_OUT       0xca000001u
#define FSW_SB_NO_MESSAGE     0xca000002u
#define FSW_SB_BAD_ARGUMENT   0xca000003u
#define FSW_SB_MAX_PIPES_MET  0xca000004u
#define FSW_SB_PIPE_CR_ERR    0xca000005u
#define FSW_SB_MSG_TOO_BIG    0xca000007u
#define FSW_SB_BUF_ALOC_ERR   0xca000008u
#define FSW_SB_MAX_MSGS_MET   0xca000009u
#define FSW_SB_MAX_DESTS_MET  0xca00000au
#define FSW_SB_WRONG_MSG_TYPE 0xca00000du
#define FSW_SB_BUFFER_INVALID 0xca00000eu

#define FSW_EVS_APP_NOT_REGISTERED 0xc2000002u
#define FSW_EVS_EVT_NOT_REGISTERED 0xc2000006u
#define FSW_EVS_INVALID_PARAMETER  0xc2000008u

#define FSW_ES_NO_SUCH_POOL       0xc4000001u /* CFE_ES_ERR_RESOURCEID_NOT_VALID */
#define FSW_ES_ERR_MEM_BLOCK_SIZE 0xc4000008u
#define FSW_ES_BAD_ARGUMENT       0xc400000au
#define FSW_ES_BUFFER_NOT_IN_POOL 0xc4000025u
#define FSW_ES_POOL_BLOCK_INVALID 0xc400002cu

#define FSW_TBL_ERR_INVALID_HANDLE      0xcc000001u
#define FSW_TBL_ERR_INVALID_NAME        0xcc000002u
#define FSW_TBL_ERR_INVALID_SIZE        0xcc000003u
#define FSW_TBL_ERR_NEVER_LOADED        0xcc000005u /* fsw_table_get_address gives one */
#define FSW_TBL_ERR_REGISTRY_FULL       0xcc000006u
#define FSW_TBL_WARN_DUPLICATE          0x4c000007u /* fsw_table_register gives the handle */
#define FSW_TBL_ERR_NO_ACCESS           0xcc000008u
#define FSW_TBL_ERR_UNREGISTERED        0xcc000009u
#define FSW_TBL_ERR_HANDLES_FULL        0xcc00000bu
#define FSW_TBL_ERR_DUPLICATE_DIFF_SIZE 0xcc00000cu
#define FSW_TBL_ERR_DUPLICATE_NOT_OWNED 0xcc00000du
#define FSW_TBL_INFO_UPDATED            0x4c00000eu /* fsw_table_get_address gives one */
#define FSW_TBL_ERR_NO_BUFFER_AVAIL     0xcc00000fu
#define FSW_TBL_ERR_DUMP_ONLY           0xcc000010u
#define FSW_TBL_ERR_LOAD_IN_PROGRESS    0xcc000012u
#define FSW_TBL_ERR_FILE_TOO_LARGE      0xcc000014u
#define FSW_TBL_ERR_BAD_CONTENT_ID      0xcc000016u
#define FSW_TBL_INFO_NO_UPDATE_PENDING  0x4c000017u
#define FSW_TBL_INFO_TABLE_LOCKED       0x4c000018u
#define FSW_TBL_INFO_NOT_VALIDATED      0x4c000019u /* CFE_TBL_INFO_VALIDATION_PENDING */
#define FSW_TBL_INFO_NO_LOAD            0x4c00001au /* CFE_TBL_INFO_NO_VALIDATION_PENDING */
#define FSW_TBL_ERR_FILE_SIZE           0xcc00001cu /* CFE_TBL_ERR_FILE_SIZE_INCONSISTENT */
#define FSW_TBL_ERR_NO_STD_HEADER       0xcc00001du
#define FSW_TBL_ERR_NO_TBL_HEADER       0xcc00001eu
#define FSW_TBL_ERR_PARTIAL_LOAD        0xcc000023u
#define FSW_TBL_ERR_INVALID_OPTIONS     0xcc000025u
#define FSW_TBL_BAD_ARGUMENT            0xcc00002du

/* ----------------------------------------------------------------------------------------------
 * Types.
 */

/*
 * What C holds of the core: all zero while it is closed. C reads and writes no field of it, and
 * makes no copy of it.
 */
struct fsw_core {
    void *at;
    uint64_t is_open; /* 1 while it is open */
};

/* The limits of a core. */
struct fsw_limits {
    uint32_t apps;      /* applications, 1 to 16 */
    uint32_t buffers;   /* room for unsent buffers of an application, 0 to 65535 */
    uint32_t msgids;    /* message ids that may have a route, 1 to 1024 */
    uint32_t pipes;     /* live pipes, 1 to 256 */
    uint32_t dests;     /* subscriptions of a message id, 1 to 64 */
    uint32_t depth;     /* the greatest depth of a pipe, 1 to 1024 messages */
    uint32_t msgmax;    /* the largest message, 7 to 65542 bytes */
    uint32_t pool;      /* the bus's memory pool, 24 to 16777216 bytes */
    uint32_t apppool;   /* the largest memory pool of an application, 24 to 1048576 bytes */
    uint32_t tables;    /* tables that have a handle, registered or not, 1 to 256 */
    uint32_t handles;   /* live table handles, 1 to 1024 */
    uint32_t tablemax;  /* the largest table, 1 to 65536 bytes */
    uint32_t tablepool; /* the memory pool of the tables, 24 to 16777216 bytes */
    uint32_t version;   /* 1, or 2: then pipes have option FSW_PIPE_DROPS_OLDEST */
    uint32_t blockmin;  /* the smallest block of each pool, 0 to 80000 bytes */
};

/* The usual limits, for sixteen applications. */
#define FSW_USUAL_LIMITS                                                              \
    {                                                                                 \
        16, 16, 256, 64, 16, 256, 32768, 524288, 65536, 128, 256, 16384, 524288, 1, 0 \
    }

/* Bytes that are read where they lie. */
struct fsw_bytes {
    const uint8_t *at;
    size_t len;
};

/* What an accepted send was answered. */
struct fsw_sent {
    uint64_t number;  /* the message's number; 0 if nobody subscribes to its id */
    uint32_t reached; /* how many pipes it reached */
};

/* A message that was received. All its receivers read the same bytes. */
struct fsw_message {
    const uint8_t *at; /* its first byte, at a multiple of 8 */
    size_t len;        /* how many there are, 7 to 65542 */
    uint64_t number;   /* its number */
};

/*
 * A buffer of the bus that C has, to write a message where it lies: all zero while it is empty. C
 * writes the bytes that `at` points to, and no field; it makes no copy of the struct.
 */
struct fsw_buffer {
    uint8_t *at;     /* its first byte, at a multiple of 8 */
    size_t len;      /* how many there are: the whole block, at least as many as were asked for */
    uint64_t number; /* the number that its message will have */
    uint64_t is_out; /* 1 while there is one */
};

/* The figures of a memory pool. Counts stop at 4294967295. */
struct fsw_pool_stats {
    uint32_t size;     /* its bytes */
    uint32_t requests; /* blocks drawn */
    uint32_t errors;   /* returns refused */
    uint32_t free;     /* bytes never cut */
};

/* The figures of one block size of a memory pool. */
struct fsw_class_stats {
    uint32_t size; /* the block size, in bytes */
    uint32_t made; /* blocks cut */
    uint32_t free; /* of these, free now */
};

/* Where the block of a grant lies in its memory pool. */
struct fsw_pool_block {
    uint32_t offset; /* bytes from the pool's first one on: a multiple of 8, 16 or more */
    uint32_t size;   /* its bytes */
};

/* A filter: an event of this id passes if count AND mask is 0. */
struct fsw_filter {
    uint16_t id;
    uint16_t mask;
};

/* The kinds of events. */
enum {
    FSW_EVENT_DEBUG = 1,
    FSW_EVENT_INFORMATION = 2,
    FSW_EVENT_ERROR = 3,
    FSW_EVENT_CRITICAL = 4
};

/* A line of the event log. */
struct fsw_log_line {
    uint32_t app;        /* the application, or 0 for the bus */
    uint32_t id;         /* the event's id */
    uint32_t kind;       /* FSW_EVENT_... */
    const uint8_t *text; /* its text: read before the next call on the handle */
    size_t text_len;     /* 0 to 122 bytes, with no zero byte behind them */
};

/* What became of events. Counts stop at 4294967295. */
struct fsw_event_counts {
    uint32_t sent;     /* events that passed, the bus's among them */
    uint32_t filtered; /* held back by a filter */
    uint32_t cut;      /* passed, with a text over 122 bytes */
    uint32_t refused;  /* refused calls */
    uint32_t lost;     /* passed, and found the log full */
    uint32_t logged;   /* lines that the log has now, at most 20 */
    uint32_t mode;     /* what a full log drops: 0 its oldest line, 1 the new one */
};

/*
 * The counters of the bus; each stops at 4294967295. They are, in cFE's housekeeping packet:
 * NoSubscribersCounter, MsgSendErrorCounter, MsgReceiveErrorCounter, CreatePipeErrorCounter,
 * SubscribeErrorCounter, PipeOptsErrorCounter, GetPipeIdByNameErrorCounter,
 * DuplicateSubscriptionsCounter, MsgLimitErrorCounter, PipeOverflowErrorCounter; cFE hasn't the
 * last.
 */
struct fsw_counters {
    uint32_t nosub;    /* messages that nobody subscribes to */
    uint32_t send;     /* refused sends */
    uint32_t recv;     /* refused receives */
    uint32_t create;   /* refused creations and deletions of a pipe */
    uint32_t sub;      /* refused subscriptions, and refused ends of one */
    uint32_t opts;     /* refused settings and readings of options */
    uint32_t find;     /* pipes not found by name, and names not found by pipe */
    uint32_t dup;      /* subscriptions that stood already */
    uint32_t limit;    /* messages that a subscription's limit kept from a pipe */
    uint32_t overflow; /* messages that a full pipe missed */
    uint32_t oldest;   /* messages that a full pipe dropped for a new one */
};

/* What of the bus is in use now, or was at the most since it was opened. */
struct fsw_use {
    uint32_t msgids;  /* message ids that have a route */
    uint32_t pipes;   /* live pipes */
    uint32_t subs;    /* subscriptions */
    uint32_t buffers; /* blocks of messages */
    uint32_t bytes;   /* the bytes of these blocks */
};

/* A rule for one byte of a table. */
struct fsw_rule {
    uint32_t offset; /* which byte */
    uint8_t low;     /* its least value */
    uint8_t high;    /* and its greatest */
};

/* Options of a table. */
enum { FSW_TABLE_SINGLE = 0, FSW_TABLE_DOUBLE = 1, FSW_TABLE_DUMP_ONLY = 2 };

/* A table's bytes, as a handle holds them. */
struct fsw_address {
    const uint8_t *at; /* the first byte, at a multiple of 8 */
    size_t len;        /* the table's size */
    uint64_t version;  /* how often the table was updated */
};

/* The figures of a table. */
struct fsw_table_status {
    uint64_t version; /* how often it was updated */
    uint32_t staged;  /* 0: nothing; 1: a value; 2: one that was validated */
    uint32_t holds;   /* handles, of whichever applications, that hold a version of it */
    bool loaded;      /* whether it was ever updated */
};

/* What of the tables is in use. */
struct fsw_table_use {
    uint32_t tables;  /* tables that have a handle */
    uint32_t handles; /* live handles */
    uint32_t bytes;   /* the bytes of the tables' blocks */
};

/* The primary header of a packet (CCSDS 133.0-B, section 4.1). */
struct fsw_header {
    uint32_t size;  /* the whole packet, 7 to 65542 bytes */
    uint16_t id;    /* version, type, secondary header flag and APID: the first 16 bits */
    uint16_t count; /* the sequence count, 0 to 16383 */
    uint8_t flags;  /* the sequence flags, 0 to 3 */
};

/* A table image file, in the form of cFE's. What it points to lies in the bytes that were read. */
struct fsw_image {
    struct fsw_bytes description; /* 32 bytes for people */
    struct fsw_bytes name;        /* the table's name, 1 to 39 visible characters */
    struct fsw_bytes bytes;       /* what is loaded, 1 byte or more */
    uint32_t offset;              /* where in the table */
};

/*
 * Options of a pipe, added up: it misses what its owner sends; if it is full, it drops its oldest
 * message for the new one (version 2 alone).
 */
enum { FSW_PIPE_IGNORES_OWN = 0x01, FSW_PIPE_DROPS_OLDEST = 0x02 };

enum { FSW_LOCAL = 0, FSW_GLOBAL = 1 };

/* ----------------------------------------------------------------------------------------------
 * What the library exports. No pointer may be null here: call the functions below, which test that.
 */
uint32_t fsw_raw_open(struct fsw_core *core, const struct fsw_limits *limits);
uint32_t fsw_raw_close(struct fsw_core *core);
uint32_t fsw_raw_end(struct fsw_core *core, uint32_t app);

uint32_t fsw_raw_create_pipe(struct fsw_core *core, uint32_t app, uint32_t depth,
                             const uint8_t *name, size_t name_len, uint32_t *pipe);
uint32_t fsw_raw_delete_pipe(struct fsw_core *core, uint32_t app, uint32_t pipe);
uint32_t fsw_raw_set_options(struct fsw_core *core, uint32_t app, uint32_t pipe, uint8_t bits);
uint32_t fsw_raw_get_options(struct fsw_core *core, uint32_t pipe, uint8_t *bits);
uint32_t fsw_raw_find_pipe(struct fsw_core *core, const uint8_t *name, size_t name_len,
                           uint32_t *pipe);
uint32_t fsw_raw_pipe_name(struct fsw_core *core, uint32_t pipe, uint8_t *into, size_t into_len,
                           uint32_t *name_len);
uint32_t fsw_raw_waiting(struct fsw_core *core, uint32_t pipe, uint32_t *count);

uint32_t fsw_raw_subscribe(struct fsw_core *core, uint32_t app, uint16_t id, uint32_t pipe,
                           uint32_t limit, uint32_t scope);
uint32_t fsw_raw_unsubscribe(struct fsw_core *core, uint32_t app, uint16_t id, uint32_t pipe);
uint32_t fsw_raw_transmit(struct fsw_core *core, uint32_t app, const uint8_t *bytes,
                          size_t bytes_len, bool counts, struct fsw_sent *sent);
uint32_t fsw_raw_receive(struct fsw_core *core, uint32_t app, uint32_t pipe,
                         struct fsw_message *message);
uint32_t fsw_raw_pend(struct fsw_core *core, uint32_t app, uint32_t pipe,
                      struct fsw_message *message);
uint32_t fsw_raw_look(struct fsw_core *core, uint32_t app, struct fsw_message *message);

uint32_t fsw_raw_allocate_buffer(struct fsw_core *core, uint32_t app, uint32_t size,
                                 struct fsw_buffer *buffer);
uint32_t fsw_raw_transmit_buffer(struct fsw_core *core, uint32_t app, struct fsw_buffer *buffer,
                                 bool counts, struct fsw_sent *sent);
uint32_t fsw_raw_release_buffer(struct fsw_core *core, uint32_t app, struct fsw_buffer *buffer);

uint32_t fsw_raw_pool_create(struct fsw_core *core, uint32_t app, uint32_t bytes, uint32_t *pool);
uint32_t fsw_raw_pool_get(struct fsw_core *core, uint32_t app, uint32_t pool, uint32_t size,
                          uint64_t *grant);
uint32_t fsw_raw_pool_put(struct fsw_core *core, uint32_t app, uint32_t pool, uint64_t grant);
uint32_t fsw_raw_pool_stats(struct fsw_core *core, uint32_t pool, struct fsw_pool_stats *stats);
uint32_t fsw_raw_pool_class(struct fsw_core *core, uint32_t pool, uint32_t place,
                            struct fsw_class_stats *stats);
uint32_t fsw_raw_pool_block(struct fsw_core *core, uint32_t pool, uint64_t grant,
                            struct fsw_pool_block *block);

uint32_t fsw_raw_register(struct fsw_core *core, uint32_t app, const struct fsw_filter *filters,
                          size_t filters_len);
uint32_t fsw_raw_send_event(struct fsw_core *core, uint32_t app, uint16_t id, uint32_t kind,
                            const uint8_t *text, size_t text_len, uint32_t *passed);
uint32_t fsw_raw_reset_filter(struct fsw_core *core, uint32_t app, uint16_t id);
uint32_t fsw_raw_set_log_mode(struct fsw_core *core, uint32_t app, uint8_t mode);
uint32_t fsw_raw_clear_log(struct fsw_core *core, uint32_t app);
uint32_t fsw_raw_log_line(struct fsw_core *core, uint32_t place, struct fsw_log_line *line);
uint32_t fsw_raw_event_counts(struct fsw_core *core, struct fsw_event_counts *counts);

uint32_t fsw_raw_send_housekeeping(struct fsw_core *core, uint32_t app, struct fsw_sent *sent);
uint32_t fsw_raw_counters(struct fsw_core *core, struct fsw_counters *counters);
uint32_t fsw_raw_use(struct fsw_core *core, struct fsw_use *now, struct fsw_use *peak);

uint32_t fsw_raw_table_register(struct fsw_core *core, uint32_t app, const uint8_t *name,
                                size_t name_len, uint32_t size, uint32_t option,
                                const struct fsw_rule *rules, size_t rules_len, uint32_t *handle);
uint32_t fsw_raw_table_share(struct fsw_core *core, uint32_t app, const uint8_t *name,
                             size_t name_len, uint32_t *handle);
uint32_t fsw_raw_table_unregister(struct fsw_core *core, uint32_t app, uint32_t handle);
uint32_t fsw_raw_table_stage(struct fsw_core *core, uint32_t app, uint32_t handle, uint32_t offset,
                             const uint8_t *bytes, size_t bytes_len);
uint32_t fsw_raw_table_staged(struct fsw_core *core, uint32_t app, uint32_t handle,
                              struct fsw_bytes *bytes);
uint32_t fsw_raw_table_validate(struct fsw_core *core, uint32_t app, uint32_t handle);
uint32_t fsw_raw_table_update(struct fsw_core *core, uint32_t app, uint32_t handle);
uint32_t fsw_raw_table_abort(struct fsw_core *core, uint32_t app, uint32_t handle);
uint32_t fsw_raw_table_load(struct fsw_core *core, uint32_t app, uint32_t handle, uint32_t offset,
                            const uint8_t *bytes, size_t bytes_len);
uint32_t fsw_raw_table_get_address(struct fsw_core *core, uint32_t app, uint32_t handle,
                                   struct fsw_address *address);
uint32_t fsw_raw_table_release_address(struct fsw_core *core, uint32_t app, uint32_t handle);
uint32_t fsw_raw_table_status(struct fsw_core *core, uint32_t app, uint32_t handle,
                              struct fsw_table_status *figures);
uint32_t fsw_raw_table_use(struct fsw_core *core, struct fsw_table_use *now);

uint32_t fsw_raw_read_header(const uint8_t *bytes, size_t bytes_len, struct fsw_header *header);
uint32_t fsw_raw_write_header(uint8_t *bytes, size_t bytes_len, uint16_t id, uint16_t count);
uint32_t fsw_raw_set_count(uint8_t *bytes, size_t bytes_len, uint16_t count);
uint32_t fsw_raw_function_code(const uint8_t *bytes, size_t bytes_len, uint8_t *code);
uint32_t fsw_raw_set_function_code(uint8_t *bytes, size_t bytes_len, uint8_t code);
uint32_t fsw_raw_read_image(const uint8_t *file, size_t file_len, struct fsw_image *image);

/* ----------------------------------------------------------------------------------------------
 * What the library has in plain C (fsw_text.c).
 */

/* The FSW_VERSION that the library was made with. */
uint32_t fsw_library_version(void);

/*
 * The name of a status as it stands above, such as "FSW_SB_BAD_ARGUMENT", or "FSW_RULE_FAILED(3)".
 * Of any other number "no status of fsw.h".
 */
const char *fsw_status_text(uint32_t status);

/* A pointer that isn't null, for a length of 0; aligned for each type of element. */
static inline const void *fsw_some(const void *pointer)
{
    static const uint64_t nothing = 0;
    return pointer ? pointer : &nothing;
}

/* Whether a pointer and a length don't go together. */
static inline bool fsw_is_bad(const void *pointer, size_t len)
{
    return !pointer && len > 0;
}

/* ----------------------------------------------------------------------------------------------
 * Opening and closing.
 */

/*
 * Opens a core of these limits, with each sequence count at 0. The handle is all zero, or was closed.
 * All memory is taken here.
 *
 * Each pool has those of the sizes 8, 16, 32, 48, 64, 96, 128, 160, 256, 512, 1024, 2048, 4096, 8192,
 * 16384, 32768 and 80000 that are limits.blockmin or more. A block takes 16 bytes beyond its size.
 * The larger the smallest block, the fewer blocks there may be, and the less memory they need.
 *
 * FSW_OTHER_VERSION if the program was compiled with another version's header than the library;
 * FSW_ALREADY_OPEN; FSW_BAD_LIMITS if a limit isn't in its range; FSW_NO_MEMORY, after which some
 * of the memory may stay taken.
 */
static inline uint32_t fsw_open(struct fsw_core *core, const struct fsw_limits *limits)
{
    if (!core || !limits)
        return FSW_BAD_LIMITS;
    if (fsw_library_version() != FSW_VERSION)
        return FSW_OTHER_VERSION;
    return fsw_raw_open(core, limits);
}

/*
 * Closes the core, also while its applications have messages or addresses: these may be read no
 * more. The memory of messages and tables stays taken; all other memory goes back.
 */
static inline uint32_t fsw_close(struct fsw_core *core)
{
    return core ? fsw_raw_close(core) : FSW_CLOSED;
}

/* The smallest block of limits in their ranges, in bytes. */
static inline uint32_t fsw_least_block(const struct fsw_limits *limits)
{
    static const uint32_t sizes[] = {8,   16,   32,   48,   64,   96,    128,  160,
                                     256, 512,  1024, 2048, 4096, 8192, 16384, 32768};
    for (size_t i = 0; i < sizeof sizes / sizeof *sizes; i++)
        if (limits->blockmin <= sizes[i])
            return sizes[i];
    return 80000;
}

/*
 * The bytes of memory that fsw_open takes at most for limits in their ranges, in blocks of whole
 * units of 16 bytes, as arena.c cuts them. This is counted off the library, and a test compares it.
 */
static inline uint64_t fsw_bytes_needed(const struct fsw_limits *limits)
{
    if (!limits)
        return 0;
    const uint64_t least = fsw_least_block(limits) + 16, blocks = limits->pool / least,
                   app_blocks = limits->apppool / least, table_blocks = limits->tablepool / least;
    const uint64_t of_apps = limits->apps * (24ull * limits->pipes + 32ull * limits->buffers +
                                             24ull * limits->handles + 256);
    const uint64_t of_pipes = limits->pipes * (24ull * limits->depth + 160) +
                              limits->msgids * (52ull * limits->dests + 20) + 96ull * limits->dests;
    const uint64_t of_tables =
        4ull * limits->tablemax + 280ull * limits->tables + 48ull * limits->handles;
    const uint64_t of_pools =
        limits->pool + 86 * blocks + 8 * (34 * app_blocks) + limits->tablepool + 34 * table_blocks;
    return 31000 + of_apps + of_pipes + of_tables + of_pools;
}

/*
 * The application's last call, of both services: its table handles go back, its pipes leave with
 * their messages and subscriptions, its grants go back, and its registration for events ends. Its
 * messages and addresses may be read no more. Also accepted while it waits.
 *
 * FSW_BUFFER_OUT if it has a buffer out: then nothing changes.
 */
static inline uint32_t fsw_end(struct fsw_core *core, uint32_t app)
{
    return core ? fsw_raw_end(core, app) : FSW_CLOSED;
}

/* ----------------------------------------------------------------------------------------------
 * Pipes.
 */

/*
 * Creates a pipe of the caller's that holds `depth` messages, 1 to limits.depth, with a name of 1
 * to 19 bytes.
 *
 * FSW_TOO_LONG for a name over 64 bytes. FSW_SB_BAD_ARGUMENT for a depth or a name out of its
 * range; FSW_SB_MAX_PIPES_MET if limits.pipes are live; FSW_SB_PIPE_CR_ERR if a live pipe has the
 * name.
 */
static inline uint32_t fsw_create_pipe(struct fsw_core *core, uint32_t app, uint32_t depth,
                                       const void *name, size_t name_len, uint32_t *pipe)
{
    if (!core || !pipe || fsw_is_bad(name, name_len))
        return FSW_SB_BAD_ARGUMENT;
    return fsw_raw_create_pipe(core, app, depth, (const uint8_t *)fsw_some(name), name_len, pipe);
}

/*
 * Deletes a pipe of the caller's with its subscriptions and messages. The message that it received
 * last on the pipe may be read no more.
 *
 * FSW_SB_BAD_ARGUMENT if the pipe isn't live, or isn't the caller's.
 */
static inline uint32_t fsw_delete_pipe(struct fsw_core *core, uint32_t app, uint32_t pipe)
{
    return core ? fsw_raw_delete_pipe(core, app, pipe) : FSW_SB_BAD_ARGUMENT;
}

/*
 * Sets the options of a pipe of the caller's, FSW_PIPE_..., added up.
 *
 * FSW_SB_BAD_ARGUMENT if the pipe isn't live or isn't the caller's, and for a bit that
 * limits.version doesn't have.
 */
static inline uint32_t fsw_set_options(struct fsw_core *core, uint32_t app, uint32_t pipe,
                                       uint8_t bits)
{
    return core ? fsw_raw_set_options(core, app, pipe, bits) : FSW_SB_BAD_ARGUMENT;
}

/* Gives the options of any application's pipe. FSW_SB_BAD_ARGUMENT if it isn't live. */
static inline uint32_t fsw_get_options(struct fsw_core *core, uint32_t pipe, uint8_t *bits)
{
    return core && bits ? fsw_raw_get_options(core, pipe, bits) : FSW_SB_BAD_ARGUMENT;
}

/*
 * Finds any application's live pipe by its name, of at most 64 bytes. FSW_TOO_LONG;
 * FSW_SB_BAD_ARGUMENT if none has it.
 */
static inline uint32_t fsw_find_pipe(struct fsw_core *core, const void *name, size_t name_len,
                                     uint32_t *pipe)
{
    if (!core || !pipe || fsw_is_bad(name, name_len))
        return FSW_SB_BAD_ARGUMENT;
    return fsw_raw_find_pipe(core, (const uint8_t *)fsw_some(name), name_len, pipe);
}

/*
 * Writes the name of any application's pipe, without a zero byte behind it, and how many bytes it
 * has, 1 to 19. There is room for 19 at least.
 *
 * FSW_SB_BAD_ARGUMENT for less room, and if the pipe isn't live.
 */
static inline uint32_t fsw_pipe_name(struct fsw_core *core, uint32_t pipe, void *into,
                                     size_t into_len, uint32_t *name_len)
{
    if (!core || !into || !name_len)
        return FSW_SB_BAD_ARGUMENT;
    return fsw_raw_pipe_name(core, pipe, (uint8_t *)into, into_len, name_len);
}

/*
 * Gives how many messages wait on any application's pipe. Nothing is counted. FSW_SB_BAD_ARGUMENT
 * if it isn't live.
 */
static inline uint32_t fsw_waiting(struct fsw_core *core, uint32_t pipe, uint32_t *count)
{
    return core && count ? fsw_raw_waiting(core, pipe, count) : FSW_SB_BAD_ARGUMENT;
}

/* ----------------------------------------------------------------------------------------------
 * Subscriptions and messages.
 */

/*
 * Has messages of this id, 1 to 0x1fff, queued on a pipe of the caller's, at most `limit` of them
 * at once; with 0 none. A second subscription of the same pair is accepted and counted, and changes
 * nothing. The scope is FSW_GLOBAL or FSW_LOCAL; it is kept, and has no effect.
 *
 * FSW_SB_BAD_ARGUMENT for an id or a scope that is none, and if the pipe isn't live or isn't the
 * caller's; FSW_SB_MAX_MSGS_MET if limits.msgids other ids have a route; FSW_SB_MAX_DESTS_MET if
 * the id has limits.dests subscriptions.
 */
static inline uint32_t fsw_subscribe(struct fsw_core *core, uint32_t app, uint16_t id,
                                     uint32_t pipe, uint32_t limit, uint32_t scope)
{
    return core ? fsw_raw_subscribe(core, app, id, pipe, limit, scope) : FSW_SB_BAD_ARGUMENT;
}

/*
 * Ends the subscription of this pair; messages that wait stay. If there is none, the call is
 * accepted and sends an event.
 *
 * FSW_SB_BAD_ARGUMENT for an id that is none, and if the pipe isn't live or isn't the caller's.
 */
static inline uint32_t fsw_unsubscribe(struct fsw_core *core, uint32_t app, uint16_t id,
                                       uint32_t pipe)
{
    return core ? fsw_raw_unsubscribe(core, app, id, pipe) : FSW_SB_BAD_ARGUMENT;
}

/*
 * Sends a copy of one whole packet of 7 to limits.msgmax bytes to every pipe that is subscribed to
 * its id, in order of subscription. A pipe that is full, or where the subscription's limit is
 * reached, misses it: an event and a counter say so, and the sender gets success. With
 * `counts` the message gets the id's next sequence count. `sent` may be null.
 *
 * FSW_TOO_LONG for more than 65542 bytes; FSW_SB_BAD_ARGUMENT for bytes that are no packet;
 * FSW_SB_MSG_TOO_BIG; FSW_SB_BUF_ALOC_ERR if somebody subscribes to the id, and the bus's pool has
 * no block.
 */
static inline uint32_t fsw_transmit(struct fsw_core *core, uint32_t app, const void *bytes,
                                    size_t bytes_len, bool counts, struct fsw_sent *sent)
{
    struct fsw_sent unread;
    if (!core || fsw_is_bad(bytes, bytes_len))
        return FSW_SB_BAD_ARGUMENT;
    return fsw_raw_transmit(core, app, (const uint8_t *)fsw_some(bytes), bytes_len, counts,
                            sent ? sent : &unread);
}

/*
 * Takes the oldest message from a pipe of the caller's. The caller may read it, without a lock,
 * until its next receive, pend, look or delete of this pipe, its end, or fsw_close. The pipe's last
 * message is let go, also if none follows (FSW_SB_NO_MESSAGE).
 *
 * FSW_SB_BAD_ARGUMENT if the pipe isn't live, or isn't the caller's; FSW_SB_NO_MESSAGE.
 */
static inline uint32_t fsw_receive(struct fsw_core *core, uint32_t app, uint32_t pipe,
                                   struct fsw_message *message)
{
    return core && message ? fsw_raw_receive(core, app, pipe, message) : FSW_SB_BAD_ARGUMENT;
}

/*
 * As fsw_receive, for a program without clocks: if no message waits, FSW_SB_TIME_OUT if every other
 * application has ended or waits on an empty pipe, else FSW_PENDING: then the caller waits, and of
 * the calls of the bus, events and pools may only look again (fsw_look) or end.
 *
 * FSW_SB_BAD_ARGUMENT if the pipe isn't live, or isn't the caller's.
 */
static inline uint32_t fsw_pend(struct fsw_core *core, uint32_t app, uint32_t pipe,
                                struct fsw_message *message)
{
    return core && message ? fsw_raw_pend(core, app, pipe, message) : FSW_SB_BAD_ARGUMENT;
}

/*
 * Looks again, for an application that waits, on the pipe that it waits on: FSW_SUCCESS with a
 * message, FSW_SB_TIME_OUT, or FSW_PENDING. Of any other application FSW_NOT_ACTIVE.
 */
static inline uint32_t fsw_look(struct fsw_core *core, uint32_t app, struct fsw_message *message)
{
    return core && message ? fsw_raw_look(core, app, message) : FSW_SB_BAD_ARGUMENT;
}

/*
 * Gives the caller a buffer for a message of `size` bytes, 7 to limits.msgmax: the first `size`
 * bytes at `buffer->at` are zeros. The caller writes them, without a lock, until it transmits or
 * releases the buffer. The block may be longer; what stands behind the first `size` bytes is never
 * sent. `buffer` is all zero.
 *
 * FSW_BUFFER_OUT if `buffer` has one already; FSW_NO_ROOM if the caller has limits.buffers out.
 * FSW_SB_BAD_ARGUMENT for fewer than 7 bytes; FSW_SB_MSG_TOO_BIG; FSW_SB_BUF_ALOC_ERR if the bus's
 * pool has no block.
 */
static inline uint32_t fsw_allocate_buffer(struct fsw_core *core, uint32_t app, uint32_t size,
                                           struct fsw_buffer *buffer)
{
    return core && buffer ? fsw_raw_allocate_buffer(core, app, size, buffer) : FSW_SB_BAD_ARGUMENT;
}

/*
 * Sends the packet that a buffer of the caller's begins with, as long as its header says, without a
 * copy; else as fsw_transmit. The message has the buffer's number. If nobody subscribes to the id,
 * the buffer is gone too. If the call is accepted, `buffer` is all zero, and nothing more is
 * written there. If it is refused, the caller keeps the buffer with the bytes that were asked for;
 * the block's other bytes may have changed. `sent` may be null.
 *
 * FSW_SB_BUFFER_INVALID if `buffer` is empty, or another application's; FSW_SB_BAD_ARGUMENT if its
 * first bytes, as many as were asked for, don't begin with a packet. Both are counted.
 */
static inline uint32_t fsw_transmit_buffer(struct fsw_core *core, uint32_t app,
                                           struct fsw_buffer *buffer, bool counts,
                                           struct fsw_sent *sent)
{
    struct fsw_sent unread;
    return core && buffer
               ? fsw_raw_transmit_buffer(core, app, buffer, counts, sent ? sent : &unread)
               : FSW_SB_BAD_ARGUMENT;
}

/*
 * Gives a buffer of the caller's back unsent. If the call is accepted, `buffer` is all zero; if it
 * is refused, the caller keeps the buffer.
 *
 * FSW_SB_BUFFER_INVALID if `buffer` is empty, or another application's; it is counted.
 */
static inline uint32_t fsw_release_buffer(struct fsw_core *core, uint32_t app,
                                          struct fsw_buffer *buffer)
{
    return core && buffer ? fsw_raw_release_buffer(core, app, buffer) : FSW_SB_BAD_ARGUMENT;
}

/* ----------------------------------------------------------------------------------------------
 * Memory pools of applications. The library keeps the account, and the caller has the memory: a
 * block begins `offset` bytes behind the pool's first byte. The 16 bytes before a block are the
 * caller's too. Blocks lie within the pool, and no two share a byte. Any application may use any
 * pool.
 */

/*
 * Creates a memory pool of `bytes` bytes, 24 to limits.apppool. At most 8 are created, and none is
 * deleted.
 *
 * FSW_ES_ERR_MEM_BLOCK_SIZE for a number out of range, and if 8 exist.
 */
static inline uint32_t fsw_pool_create(struct fsw_core *core, uint32_t app, uint32_t bytes,
                                       uint32_t *pool)
{
    return core && pool ? fsw_raw_pool_create(core, app, bytes, pool) : FSW_ES_BAD_ARGUMENT;
}

/*
 * Gives the caller a block of at least `size` bytes, until it is put back or the caller ends: the
 * number of its grant, by pool from 1 on.
 *
 * FSW_ES_NO_SUCH_POOL; FSW_ES_ERR_MEM_BLOCK_SIZE if no block size is large enough, or the pool has
 * no room.
 */
static inline uint32_t fsw_pool_get(struct fsw_core *core, uint32_t app, uint32_t pool,
                                    uint32_t size, uint64_t *grant)
{
    return core && grant ? fsw_raw_pool_get(core, app, pool, size, grant) : FSW_ES_BAD_ARGUMENT;
}

/*
 * Gives a block back, of any application.
 *
 * FSW_ES_NO_SUCH_POOL; FSW_ES_BUFFER_NOT_IN_POOL if the grant was never given;
 * FSW_ES_POOL_BLOCK_INVALID if it came back before. The pool counts the last two.
 */
static inline uint32_t fsw_pool_put(struct fsw_core *core, uint32_t app, uint32_t pool,
                                    uint64_t grant)
{
    return core ? fsw_raw_pool_put(core, app, pool, grant) : FSW_ES_BAD_ARGUMENT;
}

/* Gives the figures of a pool. FSW_ES_NO_SUCH_POOL. */
static inline uint32_t fsw_pool_stats(struct fsw_core *core, uint32_t pool,
                                      struct fsw_pool_stats *stats)
{
    return core && stats ? fsw_raw_pool_stats(core, pool, stats) : FSW_ES_BAD_ARGUMENT;
}

/*
 * Gives the figures of a pool's block size by its place, from 0. FSW_ES_NO_SUCH_POOL;
 * FSW_ES_BAD_ARGUMENT past the last.
 */
static inline uint32_t fsw_pool_class(struct fsw_core *core, uint32_t pool, uint32_t place,
                                      struct fsw_class_stats *stats)
{
    return core && stats ? fsw_raw_pool_class(core, pool, place, stats) : FSW_ES_BAD_ARGUMENT;
}

/*
 * Gives the place of a grant's block in its pool. It stays there until the grant is put back, and
 * no two blocks that are out overlap.
 *
 * FSW_ES_NO_SUCH_POOL; FSW_ES_BUFFER_NOT_IN_POOL and FSW_ES_POOL_BLOCK_INVALID as of fsw_pool_put,
 * and not counted.
 */
static inline uint32_t fsw_pool_block(struct fsw_core *core, uint32_t pool, uint64_t grant,
                                      struct fsw_pool_block *block)
{
    return core && block ? fsw_raw_pool_block(core, pool, grant, block) : FSW_ES_BAD_ARGUMENT;
}

/* ----------------------------------------------------------------------------------------------
 * Events.
 */

/*
 * Registers the caller for events with up to 8 filters, no id twice, in place of those that it had.
 * Each filter counts from 0.
 *
 * FSW_TOO_LONG for more than 8; FSW_EVS_INVALID_PARAMETER if an id is there twice.
 */
static inline uint32_t fsw_register(struct fsw_core *core, uint32_t app,
                                    const struct fsw_filter *filters, size_t filters_len)
{
    if (!core || fsw_is_bad(filters, filters_len))
        return FSW_EVS_INVALID_PARAMETER;
    return fsw_raw_register(core, app, (const struct fsw_filter *)fsw_some(filters), filters_len);
}

/*
 * Sends an event of a kind FSW_EVENT_..., with a text of at most 200 bytes. If it passes its
 * filter, it is logged with the first 122 bytes of the text. `passed` is 1 if it passed, else 0,
 * and may be null; once 4294967295 events were held back, it is always 1.
 *
 * FSW_TOO_LONG; FSW_EVS_INVALID_PARAMETER for a kind that is none; FSW_EVS_APP_NOT_REGISTERED.
 */
static inline uint32_t fsw_send_event(struct fsw_core *core, uint32_t app, uint16_t id,
                                      uint32_t kind, const void *text, size_t text_len,
                                      uint32_t *passed)
{
    uint32_t unread;
    if (!core || fsw_is_bad(text, text_len))
        return FSW_EVS_INVALID_PARAMETER;
    return fsw_raw_send_event(core, app, id, kind, (const uint8_t *)fsw_some(text), text_len,
                              passed ? passed : &unread);
}

/*
 * Has the caller's filter for an event id count from 0. FSW_EVS_APP_NOT_REGISTERED;
 * FSW_EVS_EVT_NOT_REGISTERED.
 */
static inline uint32_t fsw_reset_filter(struct fsw_core *core, uint32_t app, uint16_t id)
{
    return core ? fsw_raw_reset_filter(core, app, id) : FSW_EVS_INVALID_PARAMETER;
}

/*
 * Says what a full log drops: 0 its oldest line, 1 the new one. FSW_EVS_INVALID_PARAMETER for
 * another mode.
 */
static inline uint32_t fsw_set_log_mode(struct fsw_core *core, uint32_t app, uint8_t mode)
{
    return core ? fsw_raw_set_log_mode(core, app, mode) : FSW_EVS_INVALID_PARAMETER;
}

/* Empties the log. */
static inline uint32_t fsw_clear_log(struct fsw_core *core, uint32_t app)
{
    return core ? fsw_raw_clear_log(core, app) : FSW_EVS_INVALID_PARAMETER;
}

/* Gives a line of the log by its place, 0 the oldest. FSW_EVS_INVALID_PARAMETER past the last. */
static inline uint32_t fsw_log_line(struct fsw_core *core, uint32_t place,
                                    struct fsw_log_line *line)
{
    return core && line ? fsw_raw_log_line(core, place, line) : FSW_EVS_INVALID_PARAMETER;
}

/* Gives what became of events. */
static inline uint32_t fsw_event_counts(struct fsw_core *core, struct fsw_event_counts *counts)
{
    return core && counts ? fsw_raw_event_counts(core, counts) : FSW_EVS_INVALID_PARAMETER;
}

/* ----------------------------------------------------------------------------------------------
 * Counters.
 */

/*
 * Sends the housekeeping packet, id 0x0803, 64 bytes, with its id's next sequence count: ten
 * counters in the order of struct fsw_counters from byte 6 on, then msgids, pipes, subs and bytes
 * in use, each of 32 bits, the highest byte first, then two zeros. `sent` may be null.
 *
 * FSW_SB_MSG_TOO_BIG if limits.msgmax is under 64; FSW_SB_BUF_ALOC_ERR.
 */
static inline uint32_t fsw_send_housekeeping(struct fsw_core *core, uint32_t app,
                                             struct fsw_sent *sent)
{
    struct fsw_sent unread;
    return core ? fsw_raw_send_housekeeping(core, app, sent ? sent : &unread) : FSW_SB_BAD_ARGUMENT;
}

/* Gives the counters of the bus. */
static inline uint32_t fsw_counters(struct fsw_core *core, struct fsw_counters *counters)
{
    return core && counters ? fsw_raw_counters(core, counters) : FSW_SB_BAD_ARGUMENT;
}

/*
 * Gives what of the bus is in use now, and the most of each since it was opened. Either may be
 * null.
 */
static inline uint32_t fsw_use(struct fsw_core *core, struct fsw_use *now, struct fsw_use *peak)
{
    struct fsw_use unread[2];
    return core ? fsw_raw_use(core, now ? now : &unread[0], peak ? peak : &unread[1])
                : FSW_SB_BAD_ARGUMENT;
}

/* ----------------------------------------------------------------------------------------------
 * Tables.
 */

/*
 * Registers a table of the caller's: a name of 1 to 15 bytes, `size` bytes, 1 to limits.tablemax,
 * an option FSW_TABLE_..., and up to 8 rules that each load must keep. Its value is zeros. Gives
 * the owner's handle. If the caller registered it before, with this size, FSW_TBL_WARN_DUPLICATE
 * with the handle that it has.
 *
 * FSW_TOO_LONG for more than 8 rules. FSW_TBL_ERR_INVALID_NAME; FSW_TBL_ERR_INVALID_SIZE;
 * FSW_TBL_ERR_INVALID_OPTIONS for an option that is none, a rule past the table, or one whose low
 * is above its high; FSW_TBL_ERR_DUPLICATE_NOT_OWNED; FSW_TBL_ERR_DUPLICATE_DIFF_SIZE;
 * FSW_TBL_ERR_REGISTRY_FULL; FSW_TBL_ERR_HANDLES_FULL; FSW_ES_ERR_MEM_BLOCK_SIZE if the tables'
 * pool has not the blocks, two of a double-buffered table.
 */
static inline uint32_t fsw_table_register(struct fsw_core *core, uint32_t app, const void *name,
                                          size_t name_len, uint32_t size, uint32_t option,
                                          const struct fsw_rule *rules, size_t rules_len,
                                          uint32_t *handle)
{
    if (!core || !handle || fsw_is_bad(name, name_len) || fsw_is_bad(rules, rules_len))
        return FSW_TBL_BAD_ARGUMENT;
    return fsw_raw_table_register(core, app, (const uint8_t *)fsw_some(name), name_len, size,
                                  option, (const struct fsw_rule *)fsw_some(rules), rules_len,
                                  handle);
}

/*
 * Gives the caller a handle of the registered table of this name, of any application.
 *
 * FSW_TBL_ERR_INVALID_NAME if there is none; FSW_TBL_ERR_HANDLES_FULL.
 */
static inline uint32_t fsw_table_share(struct fsw_core *core, uint32_t app, const void *name,
                                       size_t name_len, uint32_t *handle)
{
    if (!core || !handle || fsw_is_bad(name, name_len))
        return FSW_TBL_BAD_ARGUMENT;
    return fsw_raw_table_share(core, app, (const uint8_t *)fsw_some(name), name_len, handle);
}

/*
 * HANDLE REFUSALS of the calls below: FSW_TBL_ERR_INVALID_HANDLE if it isn't live,
 * FSW_TBL_ERR_NO_ACCESS if it is another application's; and, but for unregister, release_address
 * and status, FSW_TBL_ERR_UNREGISTERED if the table's owner gave its handle back.
 */

/*
 * Gives a handle back, and its address. If it is the owner's, the table is registered no more: its
 * name is free, what is staged is dropped, and its other handles stay.
 */
static inline uint32_t fsw_table_unregister(struct fsw_core *core, uint32_t app, uint32_t handle)
{
    return core ? fsw_raw_table_unregister(core, app, handle) : FSW_TBL_BAD_ARGUMENT;
}

/*
 * Stages the table's value with the bytes from `offset` on replaced by these, 1 to 65536 from an
 * offset of at most 65536.
 *
 * FSW_TOO_LONG for a length or an offset out of its range. Then the handle refusals;
 * FSW_TBL_ERR_DUMP_ONLY; FSW_TBL_ERR_FILE_TOO_LARGE past the table; FSW_TBL_ERR_PARTIAL_LOAD for a
 * part of a table that was never loaded; FSW_TBL_ERR_LOAD_IN_PROGRESS if a value is staged;
 * FSW_TBL_INFO_TABLE_LOCKED if a handle holds the older version of a double-buffered table;
 * FSW_TBL_ERR_NO_BUFFER_AVAIL if four single-buffered tables have a staged value.
 */
static inline uint32_t fsw_table_stage(struct fsw_core *core, uint32_t app, uint32_t handle,
                                       uint32_t offset, const void *bytes, size_t bytes_len)
{
    if (!core || !bytes)
        return FSW_TBL_BAD_ARGUMENT;
    return fsw_raw_table_stage(core, app, handle, offset, (const uint8_t *)bytes, bytes_len);
}

/*
 * Gives the place of the staged value, which is read before the next call on the core.
 * FSW_TBL_INFO_NO_LOAD.
 */
static inline uint32_t fsw_table_staged(struct fsw_core *core, uint32_t app, uint32_t handle,
                                        struct fsw_bytes *bytes)
{
    return core && bytes ? fsw_raw_table_staged(core, app, handle, bytes) : FSW_TBL_BAD_ARGUMENT;
}

/*
 * Validates the staged value by the table's rules. FSW_TBL_INFO_NO_LOAD; FSW_RULE_FAILED(n): it
 * stays staged.
 */
static inline uint32_t fsw_table_validate(struct fsw_core *core, uint32_t app, uint32_t handle)
{
    return core ? fsw_raw_table_validate(core, app, handle) : FSW_TBL_BAD_ARGUMENT;
}

/*
 * Makes the staged value the table's.
 *
 * FSW_TBL_INFO_NO_UPDATE_PENDING if none is staged; FSW_TBL_INFO_NOT_VALIDATED;
 * FSW_TBL_INFO_TABLE_LOCKED if a handle holds a single-buffered table.
 */
static inline uint32_t fsw_table_update(struct fsw_core *core, uint32_t app, uint32_t handle)
{
    return core ? fsw_raw_table_update(core, app, handle) : FSW_TBL_BAD_ARGUMENT;
}

/* Drops the staged value. FSW_TBL_INFO_NO_LOAD. */
static inline uint32_t fsw_table_abort(struct fsw_core *core, uint32_t app, uint32_t handle)
{
    return core ? fsw_raw_table_abort(core, app, handle) : FSW_TBL_BAD_ARGUMENT;
}

/* Stages, validates and updates in one; refused as these are, and then nothing changed. */
static inline uint32_t fsw_table_load(struct fsw_core *core, uint32_t app, uint32_t handle,
                                      uint32_t offset, const void *bytes, size_t bytes_len)
{
    if (!core || !bytes)
        return FSW_TBL_BAD_ARGUMENT;
    return fsw_raw_table_load(core, app, handle, offset, (const uint8_t *)bytes, bytes_len);
}

/*
 * Gives the handle the present version, in place of one that it holds. The caller may read it,
 * without a lock, until it asks again or releases it, gives the handle back, or ends. The bytes
 * don't change meanwhile.
 *
 * FSW_SUCCESS; FSW_TBL_INFO_UPDATED the first time after an update; FSW_TBL_ERR_NEVER_LOADED if
 * there was none: the address is given with each of these.
 */
static inline uint32_t fsw_table_get_address(struct fsw_core *core, uint32_t app, uint32_t handle,
                                             struct fsw_address *address)
{
    return core && address ? fsw_raw_table_get_address(core, app, handle, address)
                           : FSW_TBL_BAD_ARGUMENT;
}

/* Releases what the handle holds; accepted if it holds nothing. */
static inline uint32_t fsw_table_release_address(struct fsw_core *core, uint32_t app,
                                                 uint32_t handle)
{
    return core ? fsw_raw_table_release_address(core, app, handle) : FSW_TBL_BAD_ARGUMENT;
}

/* Gives the figures of a handle's table. */
static inline uint32_t fsw_table_status(struct fsw_core *core, uint32_t app, uint32_t handle,
                                        struct fsw_table_status *figures)
{
    return core && figures ? fsw_raw_table_status(core, app, handle, figures)
                           : FSW_TBL_BAD_ARGUMENT;
}

/* Gives what of the tables is in use. */
static inline uint32_t fsw_table_use(struct fsw_core *core, struct fsw_table_use *now)
{
    return core && now ? fsw_raw_table_use(core, now) : FSW_TBL_BAD_ARGUMENT;
}

/* ----------------------------------------------------------------------------------------------
 * Packets and table files: calls on bytes, without a handle, which any thread may make at any time.
 */

/*
 * Reads the primary header that begins here. FSW_SB_BAD_ARGUMENT for fewer than 6 bytes. No field
 * is tested.
 */
static inline uint32_t fsw_read_header(const void *bytes, size_t bytes_len,
                                       struct fsw_header *header)
{
    return bytes && header ? fsw_raw_read_header((const uint8_t *)bytes, bytes_len, header)
                           : FSW_SB_BAD_ARGUMENT;
}

/*
 * Writes the primary header of a packet that is all these bytes, 7 to 65542, with this id and count
 * and sequence flags 3.
 *
 * FSW_SB_BAD_ARGUMENT for another length, an id that isn't 1 to 0x1fff, or a count over 16383.
 */
static inline uint32_t fsw_write_header(void *bytes, size_t bytes_len, uint16_t id, uint16_t count)
{
    return bytes ? fsw_raw_write_header((uint8_t *)bytes, bytes_len, id, count)
                 : FSW_SB_BAD_ARGUMENT;
}

/* Sets the sequence count. FSW_SB_BAD_ARGUMENT for fewer than 6 bytes, or a count over 16383. */
static inline uint32_t fsw_set_count(void *bytes, size_t bytes_len, uint16_t count)
{
    return bytes ? fsw_raw_set_count((uint8_t *)bytes, bytes_len, count) : FSW_SB_BAD_ARGUMENT;
}

/*
 * Gives the function code, 0 to 127, of a command with a secondary header.
 *
 * FSW_SB_BAD_ARGUMENT for fewer than 7 bytes; FSW_SB_WRONG_MSG_TYPE for any other packet.
 */
static inline uint32_t fsw_function_code(const void *bytes, size_t bytes_len, uint8_t *code)
{
    return bytes && code ? fsw_raw_function_code((const uint8_t *)bytes, bytes_len, code)
                         : FSW_SB_BAD_ARGUMENT;
}

/* Sets the function code. Refused as above, and with FSW_SB_BAD_ARGUMENT for a code over 127. */
static inline uint32_t fsw_set_function_code(void *bytes, size_t bytes_len, uint8_t code)
{
    return bytes ? fsw_raw_set_function_code((uint8_t *)bytes, bytes_len, code)
                 : FSW_SB_BAD_ARGUMENT;
}

/*
 * Reads a table image file, of under 4 GiB, which is all these bytes.
 *
 * FSW_TBL_ERR_NO_STD_HEADER for fewer than 116 bytes; FSW_TBL_ERR_BAD_CONTENT_ID if the first field
 * isn't cFE's; FSW_TBL_ERR_NO_TBL_HEADER for a name that is none; FSW_TBL_ERR_FILE_SIZE if the
 * header says no bytes, or another number than follows.
 */
static inline uint32_t fsw_read_image(const void *file, size_t file_len, struct fsw_image *image)
{
    return file && image ? fsw_raw_read_image((const uint8_t *)file, file_len, image)
                         : FSW_TBL_BAD_ARGUMENT;
}

#ifdef __cplusplus
}
#endif

#endif
