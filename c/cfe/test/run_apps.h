/* run_apps.h: what the tests of a service share: one fsw_run of one or two applications, by phases.
 */
#ifndef RUN_APPS_H
#define RUN_APPS_H

#include "cfe.h"
#include "check.h"
#include "fsw_run.h"

#include <stdatomic.h>
#include <string.h>
#include <unistd.h>

static const char *folder = ".";
static atomic_int phase;

static inline void reach(int number)
{
    atomic_store(&phase, number);
}

static inline void wait_for(int number)
{
    while (atomic_load(&phase) < number)
        OS_TaskDelay(1);
}

/* A path in the test's folder. */
static inline const char *path_of(const char *name)
{
    static _Thread_local char path[OS_MAX_PATH_LEN];
    CHECK(snprintf(path, sizeof path, "%s/%s", folder, name) < (int)sizeof path);
    return path;
}

/* Runs one or two applications; second may be null. */
static inline void run_with(const struct fsw_limits *limits, void (*first)(void),
                            void (*second)(void))
{
    const struct fsw_app apps[2] = {{.name = "FIRST", .entry = first},
                                    {.name = "SECOND", .entry = second}};
    reach(0);
    CHECK(fsw_run(limits, apps, second ? 2 : 1) == 0);
}

static inline void run(void (*first)(void), void (*second)(void))
{
    run_with(NULL, first, second);
}

#endif
