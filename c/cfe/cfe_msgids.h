/* cfe_msgids.h: the message ids of cFE's services, cFE's usual ones, from memory of cFE 7. */
#ifndef CFE_MSGIDS_H
#define CFE_MSGIDS_H

/* Commands that the layer does: an application sends them, ground's or its own. */
#define CFE_EVS_CMD_MID     0x1801
#define CFE_SB_CMD_MID      0x1803
#define CFE_TBL_CMD_MID     0x1804
#define CFE_EVS_SEND_HK_MID 0x1809
#define CFE_SB_SEND_HK_MID  0x180b
#define CFE_TBL_SEND_HK_MID 0x180c

/* Telemetry that the layer sends. */
#define CFE_EVS_HK_TLM_MID         0x0801
#define CFE_SB_HK_TLM_MID          0x0803
#define CFE_TBL_HK_TLM_MID         0x0804
#define CFE_EVS_LONG_EVENT_MSG_MID 0x0808
#define CFE_SB_STATS_TLM_MID       0x080a

/* Ids that applications name, and that the layer neither does nor sends. */
#define CFE_TEST_CMD_MID            0x1802
#define CFE_TIME_CMD_MID            0x1805
#define CFE_ES_CMD_MID              0x1806
#define CFE_ES_SEND_HK_MID          0x1808
#define CFE_TIME_SEND_HK_MID        0x180d
#define CFE_SB_SUB_RPT_CTRL_MID     0x180e
#define CFE_TIME_TONE_CMD_MID       0x1810
#define CFE_TIME_1HZ_CMD_MID        0x1811
#define CFE_TIME_DATA_CMD_MID       0x1860
#define CFE_TIME_SEND_CMD_MID       0x1862
#define CFE_ES_HK_TLM_MID           0x0800
#define CFE_TEST_HK_TLM_MID         0x0802
#define CFE_TIME_HK_TLM_MID         0x0805
#define CFE_TIME_DIAG_TLM_MID       0x0806
#define CFE_EVS_SHORT_EVENT_MSG_MID 0x0809
#define CFE_ES_APP_TLM_MID          0x080b
#define CFE_TBL_REG_TLM_MID         0x080c
#define CFE_SB_ALLSUBS_TLM_MID      0x080d
#define CFE_SB_ONESUB_TLM_MID       0x080e
#define CFE_ES_MEMSTATS_TLM_MID     0x0810

#endif
