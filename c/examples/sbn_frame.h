/*
 * sbn_frame.h: what travels over a link of sbn_zmq. Each frame begins with a header, and a packet
 * may follow; a frame without one is a sign of life.
 */
#ifndef SBN_FRAME_H
#define SBN_FRAME_H

#include "cfe.h"

#define SBN_HEADER_BYTES   24
#define SBN_LARGEST_PACKET 65542
#define SBN_LARGEST_FRAME  (SBN_HEADER_BYTES + SBN_LARGEST_PACKET)

/* In a frame these are three numbers of eight bytes, the highest first. */
typedef struct {
    uint64_t Number; /* of the sender's packets to this receiver, from 1; of the last one in a sign
                        of life */
    uint64_t Start;  /* when the sender started, in ms since 1970 */
    uint64_t Sent;   /* when it sent the frame, in ms since 1970 */
} SBN_Header_t;

/* What a receiver keeps of a sender: all zero at first. */
typedef struct {
    uint64_t Start, Last;
} SBN_Stream_t;

typedef enum {
    SBN_FRAME_LIFE,    /* a sign of life */
    SBN_FRAME_PACKET,  /* a packet, whole */
    SBN_FRAME_BAD,     /* neither */
    SBN_FRAME_STALE,   /* it took longer than Age, or comes from the future */
    SBN_FRAME_REPLAYED /* its number was there before, or the sender has started anew since */
} SBN_Kind_t;

void SBN_WriteHeader(uint8_t *Frame, const SBN_Header_t *Header);

/*
 * Judges a frame that came at Now. Its number is kept, unless it is stale or replayed, or no frame
 * at all. *Missed is how many packets are missing before it.
 */
SBN_Kind_t SBN_Judge(SBN_Stream_t *Stream, const uint8_t *Frame, size_t Length, uint64_t Now,
                     uint32_t Age, uint64_t *Missed);

#endif
