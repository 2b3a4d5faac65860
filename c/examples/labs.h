/*
 * labs.h: the messages and tables of five applications in the shape of NASA's labs: a scheduler,
 * command ingest, telemetry output, a combiner of housekeeping, a limit checker. Each but the
 * scheduler has the commands NOOP (0) and RESET_COUNTERS (1), and answers SEND_HK.
 */
#ifndef LABS_H
#define LABS_H

#include "cfe.h"

#define NOOP_CC           0
#define RESET_COUNTERS_CC 1

typedef struct {
    CFE_MSG_TelemetryHeader_t TelemetryHeader;
    uint8 CommandErrorCounter;
    uint8 CommandCounter;
    uint16 Spare;
    uint32 Count; /* packets ingested, packets sent down, packets combined, or limits passed */
} LAB_HkTlm_t;

/* ---- SCH_LAB sends what its table says, every so many ticks ---- */

#define SCH_LAB_TABLE_FILE "/cf/sch_lab.tbl"

typedef struct {
    uint32 MessageID; /* 0: none */
    uint32 PacketRate;
    uint16 FcnCode;
    uint16 Spare;
} SCH_LAB_ScheduleTableEntry_t;

typedef struct {
    uint32 TickRate; /* the milliseconds of a tick */
    SCH_LAB_ScheduleTableEntry_t Config[8];
} SCH_LAB_ScheduleTable_t;

void SCH_LAB_AppMain(void);

/* ---- CI_LAB sends on what commands come by UDP ---- */

#define CI_LAB_CMD_MID     0x1884
#define CI_LAB_SEND_HK_MID 0x1885
#define CI_LAB_HK_TLM_MID  0x0884

extern uint16 CI_LAB_Port;
void CI_LAB_AppMain(void);

/* ---- TO_LAB sends down what its table subscribes to, after OUTPUT_ENABLE ---- */

#define TO_LAB_CMD_MID          0x1880
#define TO_LAB_SEND_HK_MID      0x1881
#define TO_LAB_HK_TLM_MID       0x0880
#define TO_LAB_OUTPUT_ENABLE_CC 6

#define TO_LAB_TABLE_FILE "/cf/to_lab_sub.tbl"

typedef struct {
    CFE_MSG_CommandHeader_t CommandHeader;
    char dest_IP[16];
} TO_LAB_EnableOutputCmd_t;

typedef struct {
    uint32 Stream[16]; /* message ids; 0: none */
} TO_LAB_Subs_t;

extern uint16 TO_LAB_Port;
void TO_LAB_AppMain(void);

/* ---- HK copies parts of packets into one, which SEND_COMBINED_PKT has sent ---- */

#define HK_CMD_MID               0x189a
#define HK_SEND_HK_MID           0x189b
#define HK_SEND_COMBINED_PKT_MID 0x189c
#define HK_HK_TLM_MID            0x089b

#define HK_COPY_TABLE_FILE "/cf/hk_cpy_tbl.tbl"
#define HK_TABLE_ENTRIES   8
#define HK_COMBINED_BYTES  64 /* behind the header */

typedef struct {
    uint32 InputMid; /* 0: none */
    uint16 InputOffset;
    uint16 OutputOffset;
    uint32 NumBytes;
} HK_CopyTableEntry_t;

typedef struct {
    uint32 OutputMid;
    HK_CopyTableEntry_t Entry[HK_TABLE_ENTRIES];
} HK_CopyTable_t;

/* Dump only: how often each entry was copied. */
typedef struct {
    uint32 Copies[HK_TABLE_ENTRIES];
} HK_RuntimeTable_t;

void HK_AppMain(void);

/* ---- LC says by an event that a number in a packet passed its limit ---- */

#define LC_CMD_MID     0x18a4
#define LC_SEND_HK_MID 0x18a5
#define LC_HK_TLM_MID  0x08a7

#define LC_WATCHPOINTS 8

typedef struct {
    uint32 MessageID; /* 0: none */
    uint32 Offset;    /* of four bytes, in the processor's order */
    uint32 Limit;
} LC_WDTEntry_t;

/* The definitions, which ground loads. */
typedef struct {
    LC_WDTEntry_t Entry[LC_WATCHPOINTS];
} LC_WDT_t;

/* Dump only: what became of each. */
typedef struct {
    uint32 Evaluations;
    uint32 Passed;
} LC_WRTEntry_t;

typedef struct {
    LC_WRTEntry_t Entry[LC_WATCHPOINTS];
} LC_WRT_t;

void LC_AppMain(void);

#endif
