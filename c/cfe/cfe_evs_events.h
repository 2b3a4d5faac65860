/* cfe_evs_events.h: the ids of Event Services' own events: cFE's numbers, from memory of cFE 7. */
#ifndef CFE_EVS_EVENTS_H
#define CFE_EVS_EVENTS_H

#define CFE_EVS_NOOP_EID                0
#define CFE_EVS_ERR_EVTIDNOREGS_EID     6
#define CFE_EVS_ERR_APPNOREGS_EID       7
#define CFE_EVS_ERR_NOAPPIDFOUND_EID    9
#define CFE_EVS_ERR_MAXREGSFILTER_EID   11
#define CFE_EVS_ERR_CC_EID              15
#define CFE_EVS_RSTCNT_EID              16
#define CFE_EVS_SETFILTERMSK_EID        17
#define CFE_EVS_ENAPORT_EID             18
#define CFE_EVS_DISPORT_EID             19
#define CFE_EVS_ENAEVTTYPE_EID          20
#define CFE_EVS_DISEVTTYPE_EID          21
#define CFE_EVS_ENAAPPEVTTYPE_EID       23
#define CFE_EVS_DISAPPENTTYPE_EID       24
#define CFE_EVS_ENAAPPEVT_EID           25
#define CFE_EVS_DISAPPEVT_EID           26
#define CFE_EVS_RSTEVTCNT_EID           27
#define CFE_EVS_RSTFILTER_EID           28
#define CFE_EVS_RSTALLFILTER_EID        29
#define CFE_EVS_ADDFILTER_EID           30
#define CFE_EVS_DELFILTER_EID           31
#define CFE_EVS_EVT_FILTERED_EID        37
#define CFE_EVS_ERR_INVALID_BITMASK_EID 40
#define CFE_EVS_FILTER_MAX_EID          42
#define CFE_EVS_LEN_ERR_EID             43

#endif
