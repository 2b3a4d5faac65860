/*
 * cfe_sb_events.h: the ids of the events that the bus itself sends, as application CFE_SB: cFE's
 * numbers, from memory of cFE 7.
 */
#ifndef CFE_SB_EVENTS_H
#define CFE_SB_EVENTS_H

/* What became of a message or a subscription. */
#define CFE_SB_DUP_SUBSCRIP_EID  7  /* the subscription stood already */
#define CFE_SB_UNSUB_NO_SUBS_EID 12 /* there was no subscription to end */
#define CFE_SB_SEND_NO_SUBS_EID  14 /* nobody subscribes to the message */
#define CFE_SB_MSGID_LIM_ERR_EID 17 /* the subscription's limit kept the message from a pipe */
#define CFE_SB_Q_FULL_ERR_EID    25 /* a full pipe missed the message */

/* What became of a command to the bus. */
#define CFE_SB_CMD0_RCVD_EID    28 /* no operation */
#define CFE_SB_CMD1_RCVD_EID    29 /* the counters were reset */
#define CFE_SB_SND_STATS_EID    32 /* the statistics packet was sent; a DEBUG event in cFE */
#define CFE_SB_BAD_CMD_CODE_EID 42
#define CFE_SB_LEN_ERR_EID      62

/* Not cFE's: a full pipe dropped its oldest message for the new one (limits.version 2). */
#define FSW_SB_OLDEST_INF_EID 100

/*
 * A refused call: one id for a status and call. cFE tells some causes apart by further ids: a pipe
 * that isn't there or isn't the caller's, an invalid message id, a name that is taken.
 */
#define CFE_SB_CR_PIPE_BAD_ARG_EID 2
#define CFE_SB_MAX_PIPES_MET_EID   3
#define CFE_SB_CR_PIPE_ERR_EID     4
#define CFE_SB_SUB_ARG_ERR_EID     6
#define CFE_SB_MAX_MSGS_MET_EID    8
#define CFE_SB_MAX_DESTS_MET_EID   9
#define CFE_SB_UNSUB_ARG_ERR_EID   11
#define CFE_SB_SEND_BAD_ARG_EID    13
#define CFE_SB_MSG_TOO_BIG_EID     15
#define CFE_SB_GET_BUF_ERR_EID     16
#define CFE_SB_BAD_PIPEID_EID      19

#endif
