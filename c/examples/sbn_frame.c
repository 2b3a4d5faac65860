/* sbn_frame.c: headers, and what a receiver makes of them. */
#include "sbn_frame.h"

#include <endian.h>
#include <string.h>

static const SBN_Stream_t New; /* of which nothing was received */

void SBN_WriteHeader(uint8_t *Frame, const SBN_Header_t *Header)
{
    uint64_t Field[3] = {htobe64(Header->Number), htobe64(Header->Start), htobe64(Header->Sent)};
    _Static_assert(sizeof(Field) == SBN_HEADER_BYTES, "a header is three numbers");
    memcpy(Frame, Field, sizeof(Field));
}

static SBN_Header_t ReadHeader(const uint8_t *Frame)
{
    uint64_t Field[3];
    memcpy(Field, Frame, sizeof(Field));
    return (SBN_Header_t){be64toh(Field[0]), be64toh(Field[1]), be64toh(Field[2])};
}

/* Whether a packet's own length is the length that came. */
static bool IsPacket(const uint8_t *Packet, size_t Length)
{
    CFE_MSG_Size_t Size = 0;
    if (Length <= sizeof(CFE_MSG_Message_t))
        return false;
    return CFE_MSG_GetSize((const CFE_MSG_Message_t *)Packet, &Size) == CFE_SUCCESS &&
           Size == Length;
}

/* A start later than the sending is no start; it would lock out all later ones. */
static bool IsStale(const SBN_Header_t *Header, uint64_t Now, uint32_t Age)
{
    uint64_t Apart = Header->Sent > Now ? Header->Sent - Now : Now - Header->Sent;
    return Header->Start > Header->Sent || (Age > 0 && Apart > Age);
}

/* The sender's first packets may have gone to nobody: none is missed before the first frame. */
static SBN_Stream_t Before(const SBN_Stream_t *Stream, const SBN_Header_t *Header, bool IsLife)
{
    if (Stream->Start == New.Start)
        return (SBN_Stream_t){Header->Start, Header->Number - !IsLife};
    if (Header->Start > Stream->Start)
        return (SBN_Stream_t){Header->Start, 0};
    return *Stream;
}

SBN_Kind_t SBN_Judge(SBN_Stream_t *Stream, const uint8_t *Frame, size_t Length, uint64_t Now,
                     uint32_t Age, uint64_t *Missed)
{
    *Missed = 0;
    if (Length < SBN_HEADER_BYTES)
        return SBN_FRAME_BAD;
    bool IsLife = Length == SBN_HEADER_BYTES;
    SBN_Header_t Header = ReadHeader(Frame);
    if (Header.Start == New.Start)
        return SBN_FRAME_BAD;
    if (IsStale(&Header, Now, Age))
        return SBN_FRAME_STALE;
    SBN_Stream_t Last = Before(Stream, &Header, IsLife);
    if (Header.Start < Last.Start || Header.Number < Last.Last ||
        (!IsLife && Header.Number == Last.Last))
        return SBN_FRAME_REPLAYED;
    *Missed = Header.Number - Last.Last - !IsLife;
    *Stream = (SBN_Stream_t){Header.Start, Header.Number};
    if (IsLife)
        return SBN_FRAME_LIFE;
    return IsPacket(Frame + SBN_HEADER_BYTES, Length - SBN_HEADER_BYTES) ? SBN_FRAME_PACKET
                                                                         : SBN_FRAME_BAD;
}
