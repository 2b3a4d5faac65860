/* version_test.c: fsw_open is refused over a library of another version, and changes nothing. */
#include "check.h"
#include "fsw.h"

/* Stands for the library's. */
uint32_t fsw_library_version(void)
{
    return FSW_VERSION + 1;
}

int main(void)
{
    static struct fsw_core core;
    const struct fsw_limits limits = FSW_USUAL_LIMITS;
    CHECK_STATUS(fsw_open(NULL, &limits), FSW_BAD_LIMITS);
    CHECK_STATUS(fsw_open(&core, &limits), FSW_OTHER_VERSION);
    CHECK(!core.is_open && !core.at);
    CHECK_STATUS(fsw_close(&core), FSW_CLOSED);
    puts("version_test passed");
    return 0;
}
