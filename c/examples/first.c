/* first.c: one message from an application to itself, on the calls of fsw.h. */
#include "fsw.h"

#include <stdio.h>

int main(void)
{
    static struct fsw_core core; /* all zero: closed */
    struct fsw_limits limits = FSW_USUAL_LIMITS;
    struct fsw_message message;
    uint8_t packet[8] = {0};
    uint32_t pipe;
    uint32_t status = fsw_open(&core, &limits);
    if (status == FSW_SUCCESS)
        status = fsw_create_pipe(&core, 1, 4, "ALPHA", 5, &pipe); /* application 1, depth 4 */
    if (status == FSW_SUCCESS)
        status = fsw_subscribe(&core, 1, 0x0801, pipe, 4, FSW_GLOBAL);
    fsw_write_header(packet, sizeof packet, 0x0801, 0);
    packet[7] = 42;
    if (status == FSW_SUCCESS)
        status = fsw_transmit(&core, 1, packet, sizeof packet, true, NULL);
    if (status == FSW_SUCCESS)
        status = fsw_receive(&core, 1, pipe, &message);
    if (status == FSW_SUCCESS)
        printf("message %u of %u bytes, the last is %u\n", (unsigned)message.number,
               (unsigned)message.len, message.at[7]);
    else
        printf("refused: %s\n", fsw_status_text(status));
    fsw_close(&core);
    return status == FSW_SUCCESS ? 0 : 1;
}
