/* cfe_sb.h: the Software Bus. */
#ifndef CFE_SB_H
#define CFE_SB_H

#include "cfe_mission_cfg.h"
#include "cfe_msg.h"
#include "cfe_sb_extern_typedefs.h"

#ifdef __cplusplus
extern "C" {
#endif

#define CFE_SB_POLL                0
#define CFE_SB_PEND_FOREVER        (-1)
#define CFE_SB_PIPEOPTS_IGNOREMINE 0x01 /* the pipe misses what its owner sends */

#define CFE_SB_INVALID_PIPE            ((CFE_SB_PipeId_t)0)
#define CFE_SB_PIPEID_C(val)           ((CFE_SB_PipeId_t)(val))
#define CFE_SB_MSGID_C(val)            ((CFE_SB_MsgId_t)(val))
#define CFE_SB_INVALID_MSG_ID          CFE_SB_MSGID_C(-1)
#define CFE_SB_MSGID_RESERVED          CFE_SB_MSGID_C(0) /* no message has it */
#define CFE_SB_MSGID_WRAP_VALUE(val)   ((CFE_SB_MsgId_t)(val))
#define CFE_SB_MSGID_UNWRAP_VALUE(mid) ((CFE_SB_MsgId_Atom_t)(mid))

/* A message as it is received, or written in place. It is aligned to 8 bytes. */
typedef union CFE_SB_Msg {
    CFE_MSG_Message_t Msg;
    long long int LongInt;
    double Double;
} CFE_SB_Buffer_t;

/* Accepted, and without an effect, as in cFE. */
#define CFE_SB_DEFAULT_QOS ((CFE_SB_Qos_t){0, 0})

static inline bool CFE_SB_MsgId_Equal(CFE_SB_MsgId_t MsgId1, CFE_SB_MsgId_t MsgId2)
{
    return MsgId1 == MsgId2;
}

static inline CFE_SB_MsgId_Atom_t CFE_SB_MsgIdToValue(CFE_SB_MsgId_t MsgId)
{
    return MsgId;
}

static inline CFE_SB_MsgId_t CFE_SB_ValueToMsgId(CFE_SB_MsgId_Atom_t MsgIdValue)
{
    return MsgIdValue;
}

/* Ids are 1 to CFE_PLATFORM_SB_HIGHEST_VALID_MSGID. */
static inline bool CFE_SB_IsValidMsgId(CFE_SB_MsgId_t MsgId)
{
    return 1 <= MsgId && MsgId <= CFE_PLATFORM_SB_HIGHEST_VALID_MSGID;
}

/* Pipes. */
CFE_Status_t CFE_SB_CreatePipe(CFE_SB_PipeId_t *PipeIdPtr, uint16 Depth, const char *PipeName);
CFE_Status_t CFE_SB_DeletePipe(CFE_SB_PipeId_t PipeId);
CFE_Status_t CFE_SB_SetPipeOpts(CFE_SB_PipeId_t PipeId, uint8 Opts);
CFE_Status_t CFE_SB_GetPipeOpts(CFE_SB_PipeId_t PipeId, uint8 *OptsPtr);
CFE_Status_t CFE_SB_GetPipeName(char *PipeNameBuf, size_t PipeNameSize, CFE_SB_PipeId_t PipeId);
CFE_Status_t CFE_SB_GetPipeIdByName(CFE_SB_PipeId_t *PipeIdPtr, const char *PipeName);

/* A place for a table by pipes: below limits.pipes, unless tasks wait on pipes just deleted. */
CFE_Status_t CFE_SB_PipeId_ToIndex(CFE_SB_PipeId_t PipeID, uint32 *Idx);

/* Subscriptions. Without a limit at most CFE_PLATFORM_SB_DEFAULT_MSG_LIMIT messages wait. */
CFE_Status_t CFE_SB_Subscribe(CFE_SB_MsgId_t MsgId, CFE_SB_PipeId_t PipeId);
CFE_Status_t CFE_SB_SubscribeEx(CFE_SB_MsgId_t MsgId, CFE_SB_PipeId_t PipeId, CFE_SB_Qos_t Quality,
                                uint16 MsgLim);
CFE_Status_t CFE_SB_SubscribeLocal(CFE_SB_MsgId_t MsgId, CFE_SB_PipeId_t PipeId, uint16 MsgLim);
CFE_Status_t CFE_SB_Unsubscribe(CFE_SB_MsgId_t MsgId, CFE_SB_PipeId_t PipeId);
CFE_Status_t CFE_SB_UnsubscribeLocal(CFE_SB_MsgId_t MsgId, CFE_SB_PipeId_t PipeId);

/* Sends a copy of the message. Its sequence count is set if it is telemetry and the caller asks. */
CFE_Status_t CFE_SB_TransmitMsg(const CFE_MSG_Message_t *MsgPtr, bool IncrementSequenceCount);

/*
 * Gives the pipe's oldest message, or waits for one: TimeOut is CFE_SB_POLL, CFE_SB_PEND_FOREVER or
 * milliseconds. The message may be read until the next ReceiveBuffer on this pipe; refused, *BufPtr
 * is null.
 */
CFE_Status_t CFE_SB_ReceiveBuffer(CFE_SB_Buffer_t **BufPtr, CFE_SB_PipeId_t PipeId, int32 TimeOut);

/*
 * A buffer that the caller writes in place, or null. It is sent without a copy, and is the bus's
 * from then on; or it is given back unsent.
 */
CFE_SB_Buffer_t *CFE_SB_AllocateMessageBuffer(size_t MsgSize);
CFE_Status_t CFE_SB_TransmitBuffer(CFE_SB_Buffer_t *BufPtr, bool IncrementSequenceCount);
CFE_Status_t CFE_SB_ReleaseMessageBuffer(CFE_SB_Buffer_t *BufPtr);

/* Telemetry gets the present time; any other message stays as it is. */
void CFE_SB_TimeStampMsg(CFE_MSG_Message_t *MsgPtr);
void *CFE_SB_GetUserData(CFE_MSG_Message_t *MsgPtr);
size_t CFE_SB_GetUserDataLength(const CFE_MSG_Message_t *MsgPtr);

/* Has no effect if the message would be longer than CFE_MISSION_SB_MAX_SB_MSG_SIZE. */
void CFE_SB_SetUserDataLength(CFE_MSG_Message_t *MsgPtr, size_t DataLength);

/*
 * Copies the text of a message's field, which may have no zero byte, into a string that has one;
 * or, if the field is empty, the default, which may be null. Set writes a field: the text, cut to
 * the field, and zeros behind it. Both answer how many characters they copied;
 * CFE_SB_BAD_ARGUMENT for a null destination, one without room, and a null source of Set.
 */
int32 CFE_SB_MessageStringGet(char *DestStringPtr, const char *SourceStringPtr,
                              const char *DefaultString, size_t DestMaxSize, size_t SourceMaxSize);
int32 CFE_SB_MessageStringSet(char *DestStringPtr, const char *SourceStringPtr, size_t DestMaxSize,
                              size_t SourceMaxSize);

#ifdef __cplusplus
}
#endif

#endif
