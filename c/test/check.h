/* check.h: a test ends at the first condition that doesn't hold, and says where. */
#ifndef CHECK_H
#define CHECK_H

#include <stdio.h>
#include <stdlib.h>

#define CHECK(condition)                                                    \
    do {                                                                    \
        if (!(condition)) {                                                 \
            fprintf(stderr, "%s:%d: %s\n", __FILE__, __LINE__, #condition); \
            exit(1);                                                        \
        }                                                                   \
    } while (0)

/* Both sides are statuses, which are printed where they differ. */
#define CHECK_STATUS(call, expected)                                                             \
    do {                                                                                         \
        unsigned long is_ = (unsigned long)(uint32_t)(call),                                     \
                      want_ = (unsigned long)(uint32_t)(expected);                               \
        if (is_ != want_) {                                                                      \
            fprintf(stderr, "%s:%d: %s: 0x%08lx, not 0x%08lx\n", __FILE__, __LINE__, #call, is_, \
                    want_);                                                                      \
            exit(1);                                                                             \
        }                                                                                        \
    } while (0)

#endif
