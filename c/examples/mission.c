/*
 * mission.c: a program of two applications: sample_app, and ground_link for commands and telemetry.
 *
 *     mission [COMMAND_PORT TELEMETRY_PORT [checksum]]      until SIGTERM or SIGINT
 *
 * With checksum, commands without cFE's checksum are refused.
 */
#include "cfe_msgids.h"
#include "fsw_run.h"
#include "ground_link.h"
#include "sample_app.h"

#include <stdio.h>
#include <stdlib.h>
#include <string.h>

/* A port's number, or 0 if the text is none. */
static uint16 port_of(const char *text)
{
    char *end;
    unsigned long number = strtoul(text, &end, 10);
    return number <= UINT16_MAX && end != text && *end == '\0' ? (uint16)number : 0;
}

int main(int argc, char **argv)
{
    static const struct fsw_app apps[] = {{.name = "SAMPLE_APP", .entry = SAMPLE_APP_Main},
                                          {.name = "GROUND_LINK", .entry = GROUND_LINK_Main}};
    static const CFE_SB_MsgId_t commands[] = {SAMPLE_APP_CMD_MID, SAMPLE_APP_SEND_HK_MID,
                                              GROUND_LINK_SEND_HK_MID};
    static const CFE_SB_MsgId_t telemetry[] = {SAMPLE_APP_HK_TLM_MID, GROUND_LINK_HK_TLM_MID,
                                               CFE_EVS_LONG_EVENT_MSG_MID};
    const struct fsw_config config = {.sends_events = true,
                                      .prints_events = true,
                                      .spacecraft = 0x42,
                                      .processor = 1};
    GROUND_LINK_Config.commands = commands;
    GROUND_LINK_Config.command_count = sizeof commands / sizeof commands[0];
    GROUND_LINK_Config.tests_checksum = argc == 4 && strcmp(argv[3], "checksum") == 0;
    GROUND_LINK_Config.telemetry = telemetry;
    GROUND_LINK_Config.telemetry_count = sizeof telemetry / sizeof telemetry[0];
    if (argc == 3 || GROUND_LINK_Config.tests_checksum) {
        GROUND_LINK_Config.command_port = port_of(argv[1]);
        GROUND_LINK_Config.telemetry_port = port_of(argv[2]);
    }
    if (!GROUND_LINK_Config.command_port || !GROUND_LINK_Config.telemetry_port) {
        fprintf(stderr, "usage: mission [COMMAND_PORT TELEMETRY_PORT [checksum]]\n");
        return 2;
    }
    if (!fsw_stop_at_signals())
        return 1;
    fsw_configure(&config);
    return fsw_run(NULL, apps, sizeof apps / sizeof apps[0]) == 0 ? 0 : 1;
}
