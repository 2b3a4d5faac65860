/*
 * fuzz_frame.c: frames of a link of sbn_zmq, one after another. The input is a list of them: two
 * bytes of length, a byte by which the clock goes on, the frame.
 */
#include "fuzz.h"
#include "sbn_frame.h"

#include <string.h>

/* The clock begins behind the input's numbers, so that frames of all ages come. */
static const uint64_t BEGIN = 0x10000;
static const uint32_t AGE = 5000;

static uint64_t number_at(const uint8_t *frame, size_t at)
{
    uint64_t number = 0;
    for (size_t i = 0; i < 8; i++)
        number = number << 8 | frame[at + i];
    return number;
}

/* What is accepted is newer than all before it, and no older than the age. */
static void check(const SBN_Stream_t *before, const SBN_Stream_t *after, SBN_Kind_t kind,
                  const uint8_t *frame, size_t size, uint64_t now)
{
    bool is_new = after->Start > before->Start ||
                  (after->Start == before->Start && after->Last > before->Last);
    if (kind == SBN_FRAME_PACKET) {
        MUST(is_new && size >= SBN_HEADER_BYTES + 7);
        uint64_t sent = number_at(frame, 16);
        MUST(after->Last == number_at(frame, 0) && after->Start == number_at(frame, 8));
        MUST(sent <= now + AGE && sent + AGE >= now && after->Start <= sent);
        MUST(size - SBN_HEADER_BYTES - 7 == (size_t)(frame[28] << 8 | frame[29]));
    }
    if (kind == SBN_FRAME_LIFE)
        MUST(size == SBN_HEADER_BYTES && after->Start >= before->Start);
    if (kind == SBN_FRAME_STALE || kind == SBN_FRAME_REPLAYED)
        MUST(memcmp(before, after, sizeof *before) == 0);
}

/* Judges a frame in memory of its own size; the missed ones lie between the numbers. */
static void judge(SBN_Stream_t *stream, const uint8_t *bytes, size_t size, uint64_t now)
{
    uint64_t missed;
    SBN_Stream_t before = *stream;
    uint8_t *frame = malloc(size ? size : 1);
    MUST(frame);
    memcpy(frame, bytes, size);
    SBN_Kind_t kind = SBN_Judge(stream, frame, size, now, AGE, &missed);
    check(&before, stream, kind, frame, size, now);
    MUST(missed <= stream->Last);
    if (before.Start == 0)
        MUST(missed == 0);
    free(frame);
}

int LLVMFuzzerTestOneInput(const uint8_t *input, size_t size)
{
    SBN_Stream_t stream = {0};
    uint64_t now = BEGIN;
    for (size_t at = 0; size - at >= 3;) {
        size_t length = (size_t)(input[at] << 8 | input[at + 1]);
        now += input[at + 2];
        at += 3;
        length = length < size - at ? length : size - at;
        judge(&stream, input + at, length, now);
        at += length;
    }
    return 0;
}
