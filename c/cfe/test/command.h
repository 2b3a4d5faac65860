/* command.h: ground's commands, for the tests of the layer and of the examples over it. */
#ifndef COMMAND_H
#define COMMAND_H

#include "cfe.h"
#include "check.h"

#include <string.h>

/* Sends a command with a payload of up to 192 bytes. */
static inline void send_command(CFE_SB_MsgId_t id, CFE_MSG_FcnCode_t code, const void *payload,
                                size_t size)
{
    union {
        CFE_MSG_Message_t message;
        uint8 bytes[200];
    } packet;
    const size_t header = sizeof(CFE_MSG_CommandHeader_t);
    CHECK(size <= sizeof packet - header);
    CHECK_STATUS(CFE_MSG_Init(&packet.message, id, header + size), CFE_SUCCESS);
    CHECK_STATUS(CFE_MSG_SetFcnCode(&packet.message, code), CFE_SUCCESS);
    if (size > 0)
        memcpy(packet.bytes + header, payload, size);
    CHECK_STATUS(CFE_SB_TransmitMsg(&packet.message, true), CFE_SUCCESS);
}

#endif
