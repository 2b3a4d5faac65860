/* fuzz_datagram.c: datagrams to ground_link. What it accepts is one command, whole, of ground's. */
#include "fuzz.h"
#include "ground_link.h"

#include <string.h>

static const CFE_SB_MsgId_t ids[] = {0x1882, 0x1fff};

static void judge(const uint8_t *datagram, size_t size, bool tests_checksum)
{
    GROUND_LINK_Config.commands = ids;
    GROUND_LINK_Config.command_count = sizeof ids / sizeof ids[0];
    GROUND_LINK_Config.tests_checksum = tests_checksum;
    if (GROUND_LINK_FaultOf(datagram, size))
        return;
    MUST(size >= 7 && size == (size_t)(datagram[4] << 8 | datagram[5]) + 7);
    unsigned id = datagram[0] << 8 | datagram[1], sum = 0;
    MUST(id == 0x1882 || id == 0x1fff);
    for (size_t i = 0; i < size; i++)
        sum ^= datagram[i];
    MUST(!tests_checksum || sum == 0xff);
}

int LLVMFuzzerTestOneInput(const uint8_t *input, size_t size)
{
    /* A copy of its own size shows a read past its end. */
    uint8_t *datagram = malloc(size ? size : 1);
    MUST(datagram);
    memcpy(datagram, input, size);
    judge(datagram, size, false);
    judge(datagram, size, true);
    free(datagram);
    return 0;
}
