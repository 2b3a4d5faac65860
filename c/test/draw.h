/* draw.h: numbers that look random, the same ones at each run. */
#ifndef DRAW_H
#define DRAW_H

#include <stdint.h>

static inline uint32_t draw(uint32_t least, uint32_t most)
{
    static uint32_t random = 1;
    random = random * 1103515245u + 12345u;
    return least + random / 4096 % (most - least + 1);
}

#endif
