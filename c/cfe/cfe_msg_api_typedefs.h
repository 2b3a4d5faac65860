/* cfe_msg_api_typedefs.h: the types of messages' headers. */
#ifndef CFE_MSG_API_TYPEDEFS_H
#define CFE_MSG_API_TYPEDEFS_H

#include "common_types.h"

typedef size_t CFE_MSG_Size_t;
typedef uint16 CFE_MSG_ApId_t;
typedef uint16 CFE_MSG_FcnCode_t;
typedef uint16 CFE_MSG_SequenceCount_t;
typedef uint16 CFE_MSG_HeaderVersion_t;

typedef enum CFE_MSG_Type {
    CFE_MSG_Type_Invalid,
    CFE_MSG_Type_Cmd,
    CFE_MSG_Type_Tlm
} CFE_MSG_Type_t;

typedef enum CFE_MSG_SegmentationFlag {
    CFE_MSG_SegFlag_Invalid,
    CFE_MSG_SegFlag_Continue,
    CFE_MSG_SegFlag_First,
    CFE_MSG_SegFlag_Last,
    CFE_MSG_SegFlag_Unsegmented
} CFE_MSG_SegmentationFlag_t;

typedef struct CCSDS_PrimaryHeader {
    uint8 StreamId[2];
    uint8 Sequence[2];
    uint8 Length[2];
} CCSDS_PrimaryHeader_t;

typedef struct CCSDS_SpacePacket {
    CCSDS_PrimaryHeader_t Pri;
} CCSDS_SpacePacket_t;

/* Aligned by its first byte alone, since messages may stand anywhere. */
typedef union CFE_MSG_Message {
    CCSDS_SpacePacket_t CCSDS;
    uint8 Byte[sizeof(CCSDS_SpacePacket_t)];
} CFE_MSG_Message_t;

typedef struct CFE_MSG_CommandSecondaryHeader {
    uint8 FunctionCode; /* 0 to 127 */
    uint8 Checksum;
} CFE_MSG_CommandSecondaryHeader_t;

typedef struct CFE_MSG_TelemetrySecondaryHeader {
    uint8 Time[6]; /* four bytes of seconds, two of 2^-16 s, the highest first */
} CFE_MSG_TelemetrySecondaryHeader_t;

typedef struct CFE_MSG_CommandHeader {
    CFE_MSG_Message_t Msg;
    CFE_MSG_CommandSecondaryHeader_t Sec;
} CFE_MSG_CommandHeader_t;

typedef struct CFE_MSG_TelemetryHeader {
    CFE_MSG_Message_t Msg;
    CFE_MSG_TelemetrySecondaryHeader_t Sec;
    uint8 Spare[4];
} CFE_MSG_TelemetryHeader_t;

#endif
