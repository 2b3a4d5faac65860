/*
 * service.c: what the layer's services have in common: an application sends a command to one, as in
 * cFE, and it does the command on the application's task before the call ends. The files *_ground.c
 * have what each does.
 */
#include "cfe_msgids.h"
#include "layer.h"

#include <stdarg.h>
#include <stdio.h>

/* Each runs without the mutex. */
static const struct {
    CFE_SB_MsgId_t id;
    void (*serve)(const struct fsw_command *command);
} services[] = {{CFE_SB_CMD_MID, fsw_serve_bus},
                {CFE_SB_SEND_HK_MID, fsw_send_bus_housekeeping},
                {CFE_EVS_CMD_MID, fsw_serve_events},
                {CFE_EVS_SEND_HK_MID, fsw_send_event_housekeeping},
                {CFE_TBL_CMD_MID, fsw_serve_tables},
                {CFE_TBL_SEND_HK_MID, fsw_send_table_housekeeping}};

void fsw_serve(const struct fsw_command *command)
{
    CFE_SB_MsgId_t id = CFE_SB_INVALID_MSG_ID;
    CFE_MSG_GetMsgId(&command->message, &id);
    for (size_t i = 0; i < sizeof services / sizeof services[0]; i++)
        if (services[i].id == id)
            services[i].serve(command);
}

uint32_t fsw_code_of(const struct fsw_command *command)
{
    CFE_MSG_FcnCode_t code = 0;
    return CFE_MSG_GetFcnCode(&command->message, &code) == CFE_SUCCESS ? code : UINT8_MAX;
}

void fsw_reply(const char *service, uint16 id, uint16 type, const char *format, ...)
{
    char text[CFE_MISSION_EVS_MAX_MESSAGE_LENGTH];
    va_list arguments;
    va_start(arguments, format);
    int length = vsnprintf(text, sizeof text, format, arguments);
    va_end(arguments);
    fsw_send_service_event(service, id, type, length < 0 ? "" : text);
}
