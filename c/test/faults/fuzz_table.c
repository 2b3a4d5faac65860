/*
 * fuzz_table.c: table files. An application loads each; if it is accepted, the table has the file's
 * bytes where the file says, and all others as they were.
 */
#define _GNU_SOURCE
#include "cfe.h"
#include "fsw_run.h"
#include "fuzz.h"

#include <fcntl.h>
#include <pthread.h>
#include <semaphore.h>
#include <string.h>
#include <unistd.h>

enum { TABLE = 64, HEADERS = 116, OFFSET = 68, BYTES = 72 };

static sem_t asked, answered;
static char folder[] = "/tmp/fuzz_table.XXXXXX", path[64];
static const uint8_t *bytes;
static size_t length;

static uint32 number_at(size_t at)
{
    return (uint32)bytes[at] << 24 | (uint32)bytes[at + 1] << 16 | (uint32)bytes[at + 2] << 8 |
           bytes[at + 3];
}

static void check_table(const uint8_t *before, const uint8_t *after, bool is_loaded)
{
    if (!is_loaded) {
        MUST(memcmp(before, after, TABLE) == 0);
        return;
    }
    MUST(length > HEADERS);
    size_t first = number_at(OFFSET), count = number_at(BYTES);
    MUST(count == length - HEADERS && first <= TABLE && count <= TABLE - first);
    for (size_t i = 0; i < TABLE; i++)
        MUST(after[i] == (i - first < count ? bytes[HEADERS + i - first] : before[i]));
}

static void load(CFE_TBL_Handle_t handle)
{
    uint8_t before[TABLE];
    void *at;
    MUST(CFE_TBL_GetAddress(&at, handle) >= 0);
    memcpy(before, at, TABLE);
    MUST(CFE_TBL_ReleaseAddress(handle) >= 0);
    CFE_Status_t status = CFE_TBL_Load(handle, CFE_TBL_SRC_FILE, "/fuzz.tbl");
    MUST(CFE_TBL_GetAddress(&at, handle) >= 0);
    check_table(before, at, status >= 0);
    MUST(CFE_TBL_ReleaseAddress(handle) >= 0);
}

static void app(void)
{
    static const uint8_t first[TABLE] = {1, 2, 3};
    CFE_TBL_Handle_t handle;
    MUST(CFE_TBL_Register(&handle, "Table", TABLE, CFE_TBL_OPT_DEFAULT, NULL) == CFE_SUCCESS);
    MUST(CFE_TBL_Load(handle, CFE_TBL_SRC_ADDRESS, first) == CFE_SUCCESS);
    for (;;) {
        MUST(sem_wait(&asked) == 0);
        load(handle);
        MUST(sem_post(&answered) == 0);
    }
}

static void *run(void *unused)
{
    static const struct fsw_app apps[] = {{.name = "APP", .entry = app}};
    fsw_run(NULL, apps, 1);
    return unused;
}

static void start(void)
{
    static struct fsw_config config;
    static bool is_started;
    pthread_t thread;
    if (is_started)
        return;
    is_started = true;
    MUST(mkdtemp(folder) && snprintf(path, sizeof path, "%s/fuzz.tbl", folder) > 0);
    config.file_root = folder;
    fsw_configure(&config);
    MUST(sem_init(&asked, 0, 0) == 0 && sem_init(&answered, 0, 0) == 0);
    MUST(pthread_create(&thread, NULL, run, NULL) == 0);
}

int LLVMFuzzerTestOneInput(const uint8_t *input, size_t size)
{
    start();
    int file = open(path, O_WRONLY | O_CREAT | O_TRUNC, 0600);
    MUST(file >= 0 && write(file, input, size) == (ssize_t)size);
    close(file);
    bytes = input;
    length = size;
    MUST(sem_post(&asked) == 0 && sem_wait(&answered) == 0);
    return 0;
}
