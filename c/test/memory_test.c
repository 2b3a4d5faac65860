/*
 * memory_test.c: the arena gives blocks that don't share a byte, takes them back, and refuses what
 * it hasn't.
 */
#include "fsw_memory.h"
#include "check.h"

#include <string.h>

int main(void)
{
    struct rattle_tried first = rattle_alloc(100, 8), second = rattle_alloc(0, 1),
                        third = rattle_alloc(24, 8);
    CHECK(first.ok && second.ok && third.ok);
    CHECK((uintptr_t)first.at % 16 == 0 && (uintptr_t)second.at % 16 == 0 &&
          (uintptr_t)third.at % 16 == 0);
    CHECK(second.at >= first.at + 100 && third.at > second.at);
    memset(first.at, 1, 100);
    memset(third.at, 3, 24);
    struct rattle_tried grown =
        rattle_realloc(third.at, 24, 48, 8); /* the last block stays where it is */
    CHECK(grown.ok && grown.at == third.at && grown.at[23] == 3);
    struct rattle_tried moved = rattle_realloc(first.at, 100, 200, 8);
    CHECK(moved.ok && moved.at != first.at && moved.at[0] == 1 && moved.at[99] == 1);
    CHECK(!rattle_alloc((size_t)1 << 40, 8).ok && !rattle_alloc(SIZE_MAX, 8).ok);
    CHECK(!rattle_realloc(moved.at, 200, SIZE_MAX, 8).ok && moved.at[99] == 1);
    rattle_dealloc(moved.at);
    rattle_dealloc(grown.at);
    rattle_dealloc(second.at);
    struct rattle_tried again = rattle_alloc(8, 8);
    CHECK(again.ok && again.at == first.at); /* whole again */
    rattle_dealloc(again.at);
    puts("memory_test passed");
    return 0;
}
