/* What cost_buffer does, with malloc, memcpy and free of the C library: each turn takes a block, copies the message into it,
 * reads its first byte and gives it back. The arguments are the number of turns and the bytes. Build with cc -O2. */
#include <stdio.h>
#include <stdlib.h>
#include <string.h>

int main(int argc, char **argv)
{
    unsigned long turns = argc > 1 ? strtoul(argv[1], NULL, 10) : 0;
    size_t size = argc > 2 ? strtoul(argv[2], NULL, 10) : 1;
    char *message = malloc(size);
    unsigned long read = 0;

    memset(message, 1, size);
    for (unsigned long turn = 0; turn < turns; turn++) {
        char *volatile block = malloc(size);
        memcpy(block, message, size);
        if (((volatile char *)block)[0] == 1)
            read++;
        free(block);
    }
    printf("turns=%lu size=%zu read=%lu\n", turns, size, read);
    free(message);
    return 0;
}
