/* cfe_sb_extern_typedefs.h: the bus's types that stand in messages. */
#ifndef CFE_SB_EXTERN_TYPEDEFS_H
#define CFE_SB_EXTERN_TYPEDEFS_H

#include "cfe_mission_cfg.h"
#include "common_types.h"

typedef uint32 CFE_SB_MsgId_Atom_t;
typedef CFE_SB_MsgId_Atom_t CFE_SB_MsgId_t;
typedef uint32 CFE_SB_PipeId_t;
typedef uint8 CFE_SB_QosPriority_Enum_t;
typedef uint8 CFE_SB_QosReliability_Enum_t;

#define CFE_SB_SUBSCRIPTION   0
#define CFE_SB_UNSUBSCRIPTION 1

enum CFE_SB_QosPriority { CFE_SB_QosPriority_LOW = 0, CFE_SB_QosPriority_HIGH = 1 };
enum CFE_SB_QosReliability { CFE_SB_QosReliability_LOW = 0, CFE_SB_QosReliability_HIGH = 1 };

typedef struct CFE_SB_Qos {
    CFE_SB_QosPriority_Enum_t Priority;
    CFE_SB_QosReliability_Enum_t Reliability;
} CFE_SB_Qos_t;

#endif
