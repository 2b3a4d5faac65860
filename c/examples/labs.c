/*
 * labs.c: a program of five applications in the shape of NASA's labs.
 *
 *     labs FOLDER [COMMAND_PORT TELEMETRY_PORT]      until SIGTERM or SIGINT
 *
 * The names of table files, as /cf/sch_lab.tbl, begin at FOLDER.
 */
#include "labs.h"
#include "fsw_run.h"

#include <stdio.h>
#include <stdlib.h>

/* A port's number, or 0 if the text is none. */
static uint16 port_of(const char *text)
{
    char *end;
    unsigned long number = strtoul(text, &end, 10);
    return number <= UINT16_MAX && end != text && *end == '\0' ? (uint16)number : 0;
}

int main(int argc, char **argv)
{
    static const struct fsw_app apps[] = {
        {.name = "SCH_LAB_APP", .entry = SCH_LAB_AppMain},
        {.name = "CI_LAB_APP", .entry = CI_LAB_AppMain},
        {.name = "TO_LAB_APP", .entry = TO_LAB_AppMain},
        {.name = "HK_APP", .entry = HK_AppMain},
        {.name = "LC", .entry = LC_AppMain},
    };
    static _Alignas(8) uint8 table_memory[4096];
    const struct fsw_config config = {.sends_events = true,
                                      .prints_events = true,
                                      .spacecraft = 0x42,
                                      .processor = 1,
                                      .file_root = argc > 1 ? argv[1] : NULL,
                                      .table_memory = table_memory,
                                      .table_memory_size = sizeof table_memory};
    if (argc == 4) {
        CI_LAB_Port = port_of(argv[2]);
        TO_LAB_Port = port_of(argv[3]);
    }
    if ((argc != 2 && argc != 4) || !CI_LAB_Port || !TO_LAB_Port) {
        fprintf(stderr, "usage: labs FOLDER [COMMAND_PORT TELEMETRY_PORT]\n");
        return 2;
    }
    if (!fsw_stop_at_signals())
        return 1;
    fsw_configure(&config);
    return fsw_run(NULL, apps, sizeof apps / sizeof apps[0]) == 0 ? 0 : 1;
}
