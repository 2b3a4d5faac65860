/*
 * cfe.h: what an application written for cFE 7 ("Caelum") includes. Its calls are a layer in plain
 * C, tested and not proved, over the proved calls of fsw.h. docs/CFE.md says call by call what
 * differs from cFE.
 */
#ifndef CFE_H
#define CFE_H

#include "cfe_error.h"
#include "cfe_es.h"
#include "cfe_evs.h"
#include "cfe_mission_cfg.h"
#include "cfe_msg.h"
#include "cfe_sb.h"
#include "cfe_tbl.h"
#include "cfe_time.h"
#include "osapi.h"

#endif
