/*
 * msg.c: headers of messages in cFE's names. What fsw.h has calls for is its; what it hasn't is
 * single fields here: section 4.1.3 of CCSDS 133.0-B, and cFE's secondary headers.
 */
#include "cfe_sb.h"
#include "fsw.h"

#include <string.h>

enum {
    HEADER = 6,
    LEAST_SIZE = 7,
    MOST_SIZE = 65542,
    TYPE_BIT = 0x10,
    SECONDARY_BIT = 0x08,
    APID_BITS = 0x7ff,
    MOST_VERSION = 7,
    VERSION_REST = 0x1f /* the bits of the first byte that aren't the version's */
};

static bool is_command(const CFE_MSG_Message_t *message)
{
    return message->Byte[0] & TYPE_BIT;
}

static bool has_secondary(const CFE_MSG_Message_t *message)
{
    return message->Byte[0] & SECONDARY_BIT;
}

static void set_bit(uint8 *byte, uint8 bit, bool is_set)
{
    *byte = (uint8)(is_set ? *byte | bit : *byte & ~bit);
}

static size_t size_of(const CFE_MSG_Message_t *message)
{
    return ((size_t)message->Byte[4] << 8 | message->Byte[5]) + LEAST_SIZE;
}

CFE_Status_t CFE_MSG_Init(CFE_MSG_Message_t *MsgPtr, CFE_SB_MsgId_t MsgId, CFE_MSG_Size_t Size)
{
    if (!MsgPtr || !CFE_SB_IsValidMsgId(MsgId) || Size < LEAST_SIZE || Size > MOST_SIZE)
        return CFE_MSG_BAD_ARGUMENT;
    memset(MsgPtr->Byte, 0, Size);
    return (CFE_Status_t)fsw_write_header(MsgPtr->Byte, Size, (uint16_t)MsgId, 0);
}

CFE_Status_t CFE_MSG_GetSize(const CFE_MSG_Message_t *MsgPtr, CFE_MSG_Size_t *Size)
{
    if (!MsgPtr || !Size)
        return CFE_MSG_BAD_ARGUMENT;
    *Size = size_of(MsgPtr);
    return CFE_SUCCESS;
}

CFE_Status_t CFE_MSG_SetSize(CFE_MSG_Message_t *MsgPtr, CFE_MSG_Size_t Size)
{
    if (!MsgPtr || Size < LEAST_SIZE || Size > MOST_SIZE)
        return CFE_MSG_BAD_ARGUMENT;
    MsgPtr->Byte[4] = (uint8)((Size - LEAST_SIZE) >> 8);
    MsgPtr->Byte[5] = (uint8)(Size - LEAST_SIZE);
    return CFE_SUCCESS;
}

CFE_Status_t CFE_MSG_GetMsgId(const CFE_MSG_Message_t *MsgPtr, CFE_SB_MsgId_t *MsgId)
{
    if (!MsgPtr || !MsgId)
        return CFE_MSG_BAD_ARGUMENT;
    *MsgId = (CFE_SB_MsgId_t)(MsgPtr->Byte[0] << 8 | MsgPtr->Byte[1]);
    return CFE_SUCCESS;
}

CFE_Status_t CFE_MSG_SetMsgId(CFE_MSG_Message_t *MsgPtr, CFE_SB_MsgId_t MsgId)
{
    if (!MsgPtr || !CFE_SB_IsValidMsgId(MsgId))
        return CFE_MSG_BAD_ARGUMENT;
    MsgPtr->Byte[0] = (uint8)(MsgId >> 8);
    MsgPtr->Byte[1] = (uint8)MsgId;
    return CFE_SUCCESS;
}

CFE_Status_t CFE_MSG_GetType(const CFE_MSG_Message_t *MsgPtr, CFE_MSG_Type_t *Type)
{
    if (!MsgPtr || !Type)
        return CFE_MSG_BAD_ARGUMENT;
    *Type = is_command(MsgPtr) ? CFE_MSG_Type_Cmd : CFE_MSG_Type_Tlm;
    return CFE_SUCCESS;
}

CFE_Status_t CFE_MSG_SetType(CFE_MSG_Message_t *MsgPtr, CFE_MSG_Type_t Type)
{
    if (!MsgPtr || (Type != CFE_MSG_Type_Cmd && Type != CFE_MSG_Type_Tlm))
        return CFE_MSG_BAD_ARGUMENT;
    set_bit(&MsgPtr->Byte[0], TYPE_BIT, Type == CFE_MSG_Type_Cmd);
    return CFE_SUCCESS;
}

CFE_Status_t CFE_MSG_GetTypeFromMsgId(CFE_SB_MsgId_t MsgId, CFE_MSG_Type_t *Type)
{
    CFE_MSG_Message_t message = {.Byte = {0}};
    CFE_Status_t status = CFE_MSG_SetMsgId(&message, MsgId);
    return status == CFE_SUCCESS ? CFE_MSG_GetType(&message, Type) : status;
}

CFE_Status_t CFE_MSG_GetHeaderVersion(const CFE_MSG_Message_t *MsgPtr,
                                      CFE_MSG_HeaderVersion_t *Version)
{
    if (!MsgPtr || !Version)
        return CFE_MSG_BAD_ARGUMENT;
    *Version = MsgPtr->Byte[0] >> 5;
    return CFE_SUCCESS;
}

CFE_Status_t CFE_MSG_SetHeaderVersion(CFE_MSG_Message_t *MsgPtr, CFE_MSG_HeaderVersion_t Version)
{
    if (!MsgPtr || Version > MOST_VERSION)
        return CFE_MSG_BAD_ARGUMENT;
    MsgPtr->Byte[0] = (uint8)((MsgPtr->Byte[0] & VERSION_REST) | Version << 5);
    return CFE_SUCCESS;
}

CFE_Status_t CFE_MSG_GetHasSecondaryHeader(const CFE_MSG_Message_t *MsgPtr, bool *HasSecondary)
{
    if (!MsgPtr || !HasSecondary)
        return CFE_MSG_BAD_ARGUMENT;
    *HasSecondary = has_secondary(MsgPtr);
    return CFE_SUCCESS;
}

CFE_Status_t CFE_MSG_SetHasSecondaryHeader(CFE_MSG_Message_t *MsgPtr, bool HasSecondary)
{
    if (!MsgPtr)
        return CFE_MSG_BAD_ARGUMENT;
    set_bit(&MsgPtr->Byte[0], SECONDARY_BIT, HasSecondary);
    return CFE_SUCCESS;
}

CFE_Status_t CFE_MSG_GetApId(const CFE_MSG_Message_t *MsgPtr, CFE_MSG_ApId_t *ApId)
{
    if (!MsgPtr || !ApId)
        return CFE_MSG_BAD_ARGUMENT;
    *ApId = (CFE_MSG_ApId_t)((MsgPtr->Byte[0] << 8 | MsgPtr->Byte[1]) & APID_BITS);
    return CFE_SUCCESS;
}

CFE_Status_t CFE_MSG_SetApId(CFE_MSG_Message_t *MsgPtr, CFE_MSG_ApId_t ApId)
{
    if (!MsgPtr || ApId > APID_BITS)
        return CFE_MSG_BAD_ARGUMENT;
    MsgPtr->Byte[0] = (uint8)((MsgPtr->Byte[0] & ~(APID_BITS >> 8)) | ApId >> 8);
    MsgPtr->Byte[1] = (uint8)ApId;
    return CFE_SUCCESS;
}

/* The two bits of the flags are 0 to 3 in the order of the enum, behind Invalid. */
CFE_Status_t CFE_MSG_GetSegmentationFlag(const CFE_MSG_Message_t *MsgPtr,
                                         CFE_MSG_SegmentationFlag_t *SegFlag)
{
    if (!MsgPtr || !SegFlag)
        return CFE_MSG_BAD_ARGUMENT;
    *SegFlag = (CFE_MSG_SegmentationFlag_t)((MsgPtr->Byte[2] >> 6) + CFE_MSG_SegFlag_Continue);
    return CFE_SUCCESS;
}

CFE_Status_t CFE_MSG_SetSegmentationFlag(CFE_MSG_Message_t *MsgPtr,
                                         CFE_MSG_SegmentationFlag_t SegFlag)
{
    if (!MsgPtr || SegFlag < CFE_MSG_SegFlag_Continue || SegFlag > CFE_MSG_SegFlag_Unsegmented)
        return CFE_MSG_BAD_ARGUMENT;
    MsgPtr->Byte[2] = (uint8)((MsgPtr->Byte[2] & 0x3f) | (SegFlag - CFE_MSG_SegFlag_Continue) << 6);
    return CFE_SUCCESS;
}

CFE_Status_t CFE_MSG_GetSequenceCount(const CFE_MSG_Message_t *MsgPtr,
                                      CFE_MSG_SequenceCount_t *SeqCnt)
{
    struct fsw_header header;
    if (!MsgPtr || !SeqCnt)
        return CFE_MSG_BAD_ARGUMENT;
    fsw_read_header(MsgPtr->Byte, HEADER, &header);
    *SeqCnt = header.count;
    return CFE_SUCCESS;
}

CFE_Status_t CFE_MSG_SetSequenceCount(CFE_MSG_Message_t *MsgPtr, CFE_MSG_SequenceCount_t SeqCnt)
{
    return MsgPtr ? (CFE_Status_t)fsw_set_count(MsgPtr->Byte, HEADER, SeqCnt)
                  : CFE_MSG_BAD_ARGUMENT;
}

CFE_MSG_SequenceCount_t CFE_MSG_GetNextSequenceCount(CFE_MSG_SequenceCount_t SeqCnt)
{
    return (CFE_MSG_SequenceCount_t)((SeqCnt + 1) & 0x3fff);
}

/* ---- Secondary headers ---- */

CFE_Status_t CFE_MSG_GetFcnCode(const CFE_MSG_Message_t *MsgPtr, CFE_MSG_FcnCode_t *FcnCode)
{
    uint8_t code = 0;
    if (!MsgPtr || !FcnCode)
        return CFE_MSG_BAD_ARGUMENT;
    /* cFE answers 0 with a refusal. */
    uint32_t status = fsw_function_code(MsgPtr->Byte, size_of(MsgPtr), &code);
    *FcnCode = code;
    return (CFE_Status_t)status;
}

CFE_Status_t CFE_MSG_SetFcnCode(CFE_MSG_Message_t *MsgPtr, CFE_MSG_FcnCode_t FcnCode)
{
    if (!MsgPtr || FcnCode > UINT8_MAX)
        return CFE_MSG_BAD_ARGUMENT;
    return (CFE_Status_t)fsw_set_function_code(MsgPtr->Byte, size_of(MsgPtr), (uint8_t)FcnCode);
}

/* All bytes of a command, and 0xff, give 0 by exclusive or. */
static uint8 checksum_of(const CFE_MSG_Message_t *message)
{
    const uint8 *byte = message->Byte;
    uint8 sum = 0xff;
    for (size_t i = 0; i < size_of(message); i++)
        sum ^= byte[i];
    return sum;
}

static CFE_Status_t no_checksum(const CFE_MSG_Message_t *message)
{
    if (!message)
        return CFE_MSG_BAD_ARGUMENT;
    if (!is_command(message) || !has_secondary(message) ||
        size_of(message) < sizeof(CFE_MSG_CommandHeader_t))
        return CFE_MSG_WRONG_MSG_TYPE;
    return CFE_SUCCESS;
}

CFE_Status_t CFE_MSG_GenerateChecksum(CFE_MSG_Message_t *MsgPtr)
{
    CFE_Status_t status = no_checksum(MsgPtr);
    if (status == CFE_SUCCESS) {
        CFE_MSG_CommandHeader_t *header = (CFE_MSG_CommandHeader_t *)MsgPtr;
        header->Sec.Checksum = 0;
        header->Sec.Checksum = checksum_of(MsgPtr);
    }
    return status;
}

CFE_Status_t CFE_MSG_ValidateChecksum(const CFE_MSG_Message_t *MsgPtr, bool *IsValid)
{
    if (!IsValid)
        return CFE_MSG_BAD_ARGUMENT;
    CFE_Status_t status = no_checksum(MsgPtr);
    if (status == CFE_SUCCESS)
        *IsValid = checksum_of(MsgPtr) == 0;
    return status;
}

static CFE_Status_t no_time(const CFE_MSG_Message_t *message)
{
    if (is_command(message) || !has_secondary(message) ||
        size_of(message) < HEADER + sizeof(CFE_MSG_TelemetrySecondaryHeader_t))
        return CFE_MSG_WRONG_MSG_TYPE;
    return CFE_SUCCESS;
}

CFE_Status_t CFE_MSG_GetMsgTime(const CFE_MSG_Message_t *MsgPtr, CFE_TIME_SysTime_t *Time)
{
    if (!MsgPtr || !Time)
        return CFE_MSG_BAD_ARGUMENT;
    CFE_Status_t status = no_time(MsgPtr);
    const uint8 *at = ((const CFE_MSG_TelemetryHeader_t *)MsgPtr)->Sec.Time;
    if (status == CFE_SUCCESS)
        *Time = (CFE_TIME_SysTime_t){(uint32)at[0] << 24 | (uint32)at[1] << 16 |
                                         (uint32)at[2] << 8 | at[3],
                                     (uint32)at[4] << 24 | (uint32)at[5] << 16};
    return status;
}

CFE_Status_t CFE_MSG_SetMsgTime(CFE_MSG_Message_t *MsgPtr, CFE_TIME_SysTime_t Time)
{
    if (!MsgPtr)
        return CFE_MSG_BAD_ARGUMENT;
    CFE_Status_t status = no_time(MsgPtr);
    uint8 *at = ((CFE_MSG_TelemetryHeader_t *)MsgPtr)->Sec.Time;
    for (int i = 0; status == CFE_SUCCESS && i < 4; i++)
        at[i] = (uint8)(Time.Seconds >> (24 - 8 * i));
    for (int i = 0; status == CFE_SUCCESS && i < 2; i++)
        at[4 + i] = (uint8)(Time.Subseconds >> (24 - 8 * i));
    return status;
}

void CFE_SB_TimeStampMsg(CFE_MSG_Message_t *MsgPtr)
{
    CFE_MSG_SetMsgTime(MsgPtr, CFE_TIME_GetTime());
}

/* The bytes of all headers of a message, as cFE's structs have them. */
static size_t headers_of(const CFE_MSG_Message_t *message)
{
    if (!has_secondary(message))
        return HEADER;
    return is_command(message) ? sizeof(CFE_MSG_CommandHeader_t)
                               : sizeof(CFE_MSG_TelemetryHeader_t);
}

void *CFE_SB_GetUserData(CFE_MSG_Message_t *MsgPtr)
{
    return MsgPtr ? (uint8 *)MsgPtr + headers_of(MsgPtr) : NULL;
}

size_t CFE_SB_GetUserDataLength(const CFE_MSG_Message_t *MsgPtr)
{
    if (!MsgPtr || size_of(MsgPtr) < headers_of(MsgPtr))
        return 0;
    return size_of(MsgPtr) - headers_of(MsgPtr);
}

void CFE_SB_SetUserDataLength(CFE_MSG_Message_t *MsgPtr, size_t DataLength)
{
    if (!MsgPtr || DataLength > CFE_MISSION_SB_MAX_SB_MSG_SIZE)
        return;
    size_t size = headers_of(MsgPtr) + DataLength;
    if (size <= CFE_MISSION_SB_MAX_SB_MSG_SIZE)
        CFE_MSG_SetSize(MsgPtr, size);
}

int32 CFE_SB_MessageStringGet(char *DestStringPtr, const char *SourceStringPtr,
                              const char *DefaultString, size_t DestMaxSize, size_t SourceMaxSize)
{
    if (!DestStringPtr || DestMaxSize == 0)
        return CFE_SB_BAD_ARGUMENT;
    size_t length = SourceStringPtr ? strnlen(SourceStringPtr, SourceMaxSize) : 0;
    if (length == 0 && DefaultString) {
        SourceStringPtr = DefaultString;
        length = strlen(DefaultString);
    }
    if (length >= DestMaxSize)
        length = DestMaxSize - 1;
    if (length > 0)
        memcpy(DestStringPtr, SourceStringPtr, length);
    DestStringPtr[length] = '\0';
    return (int32)length;
}

int32 CFE_SB_MessageStringSet(char *DestStringPtr, const char *SourceStringPtr, size_t DestMaxSize,
                              size_t SourceMaxSize)
{
    if (!DestStringPtr || !SourceStringPtr || DestMaxSize == 0)
        return CFE_SB_BAD_ARGUMENT;
    size_t length =
        strnlen(SourceStringPtr, SourceMaxSize < DestMaxSize ? SourceMaxSize : DestMaxSize);
    memcpy(DestStringPtr, SourceStringPtr, length);
    memset(DestStringPtr + length, 0, DestMaxSize - length);
    return (int32)length;
}
