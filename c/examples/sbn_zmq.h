/*
 * sbn_zmq.h: joins the buses of several processes by ZeroMQ. Each process sends messages of chosen
 * ids to the others that may receive them, and these send them on their own buses. What came from
 * another process isn't sent to others.
 *
 * Every link is authenticated and encrypted by ZeroMQ's CURVE, unless the configuration says that
 * links are plain. docs/LINKS.md says what is defended, and how keys are made and changed.
 */
#ifndef SBN_ZMQ_H
#define SBN_ZMQ_H

#include "cfe.h"
#include "sbn_config.h"

#define SBN_SEND_HK_MID 0x1891
#define SBN_HK_TLM_MID  0x0891

/* Events. */
#define SBN_STARTUP_INF_EID 1
#define SBN_PEER_INF_EID    2 /* a peer is there, also again */
#define SBN_PEER_LOST_EID   3
#define SBN_COUNT_ERR_EID   4 /* messages of a peer were refused or lost; at most one a second */
#define SBN_SOCKET_ERR_EID  5
#define SBN_STRANGER_EID                                                    \
    6 /* strangers were refused, or connections ended; at most one a second \
       */

/* What went wrong on a link. */
typedef struct {
    uint32 Refused;  /* frames that weren't sent on here: no packet, an id that isn't allowed, or no
                        room; and hellos by another name */
    uint32 Stale;    /* frames that are older than the configured age */
    uint32 Replayed; /* frames with a number that was there already */
    uint32 Missed;   /* messages that were sent and didn't come, by their numbers */
    uint32 Doubled;  /* hellos by another connection with its key or, without keys, its name */
    uint32 Failed;   /* handshakes with its address that failed: it has another key there */
    uint32 Ended;    /* connections to its address that ended: by it, by the network, or since a
                        frame was too large */
} SBN_Faults_t;

/* The counts of a link, in housekeeping. They stand in the order of the file, without ourselves. */
typedef struct {
    char Name[SBN_MOST_NAME];
    uint32 IsThere;
    uint32 Found;    /* how often it came */
    uint32 Lost;     /* how often it went */
    uint32 Received; /* messages that were sent on here */
    uint32 Sent;     /* messages that ZeroMQ took for it */
    uint32 Unsent;   /* messages that ZeroMQ didn't: it isn't there, or its queue is full */
    SBN_Faults_t Faults;
} SBN_Link_t;

typedef struct {
    CFE_MSG_TelemetryHeader_t TelemetryHeader;
    uint32 Strangers; /* handshakes here that failed: no key of the file, no CURVE, no ZeroMQ */
    uint32 Ended;     /* connections here that ended, those of strangers too */
    uint32 Links;
    SBN_Link_t Link[SBN_MOST_PEERS - 1];
} SBN_HkTlm_t;

/* What main reads by SBN_ReadConfig before fsw_run. */
extern SBN_Config_t SBN_Config;

void SBN_Main(void);

#endif
