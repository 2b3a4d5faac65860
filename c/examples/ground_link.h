/*
 * ground_link.h: commands in and telemetry out by UDP, as cFS's labs have them: each datagram is
 * one CCSDS packet. docs/LINKS.md says what it refuses, and what stands before it in a mission.
 */
#ifndef GROUND_LINK_H
#define GROUND_LINK_H

#include "cfe.h"

#define GROUND_LINK_COMMAND_PORT   1234
#define GROUND_LINK_TELEMETRY_PORT 1235

#define GROUND_LINK_SEND_HK_MID 0x1885
#define GROUND_LINK_HK_TLM_MID  0x0885

/* What main may set before fsw_run. */
struct ground_link_config {
    uint16 command_port;   /* where commands are received */
    uint16 telemetry_port; /* where telemetry is sent to */
    const char *listens;   /* our address, "127.0.0.1" */
    const char *ground;    /* ground's: telemetry goes there, and commands come from there alone */
    bool tests_checksum;   /* each command has cFE's checksum in its secondary header */
    const CFE_SB_MsgId_t *commands; /* the ids that ground may send */
    size_t command_count;
    const CFE_SB_MsgId_t *telemetry; /* the ids that are sent down */
    size_t telemetry_count;
};
extern struct ground_link_config GROUND_LINK_Config;

typedef struct {
    CFE_MSG_TelemetryHeader_t TelemetryHeader;
    uint32 Commands;   /* that were sent on */
    uint32 NoCommands; /* datagrams that are no command, whole, of ground's ids */
    uint32 Checksums;  /* commands with a wrong checksum */
    uint32 Strangers;  /* datagrams from another address */
    uint32 Full;       /* commands that the bus had no room for */
    uint32 Sent;       /* packets that went down */
} GROUND_LINK_HkTlm_t;

/* What is wrong with a datagram; null: it is a command that ground may send. */
const char *GROUND_LINK_FaultOf(const void *Datagram, size_t Length);

void GROUND_LINK_Main(void);

#endif
