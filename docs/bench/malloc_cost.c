/* What cost_pool does, with malloc and free of the C library: each turn frees the block of 64 turns before and takes one
 * of the next size. The argument is the number of turns. Build with cc -O2. */
#include <stdio.h>
#include <stdlib.h>

static const size_t SIZES[17] = {8,   16,   32,   48,   64,   96,   128,   160,  256,
                                 512, 1024, 2048, 4096, 8192, 16384, 32768, 80000};

int main(int argc, char **argv)
{
    unsigned long turns = argc > 1 ? strtoul(argv[1], NULL, 10) : 0;
    void *volatile out[64] = {0};
    unsigned long refused = 0;

    for (unsigned long turn = 0; turn < turns; turn++) {
        unsigned long place = turn % 64;
        free(out[place]);
        out[place] = malloc(SIZES[turn % 17]);
        if (out[place] == NULL)
            refused++;
    }
    printf("turns=%lu refused=%lu\n", turns, refused);
    return 0;
}
