/* Frames of one length, well formed or with one fault, and the table of their places. */
#ifndef FRAMES_H
#define FRAMES_H

#include "bodies.h"

#define MOST_FRAMES (1 + MOST_PAIRS + MOST_KEYS)
#define LONGEST_FRAME 5

static struct frames {
    uint8_t bytes[(32 + LONGEST_FRAME) * MOST_FRAMES + 8];
    size_t length;
    uint32_t frame_length, count;
    uint32_t table[6 * MOST_FRAMES];
} frames;

static inline void put_bytes(uint8_t byte, size_t n)
{
    memset(frames.bytes + frames.length, byte, n);
    frames.length += n;
}

static inline void put_u32(uint32_t number)
{
    int shift;
    for (shift = 24; shift >= 0; shift -= 8) {
        frames.bytes[frames.length++] = (uint8_t)(number >> shift);
    }
}

static inline void put_part(uint32_t *place, uint8_t byte, uint32_t n)
{
    place[0] = (uint32_t)frames.length;
    place[1] = n;
    put_bytes(byte, n);
}

/* so many frames, the last of them final and full; where a body has a fault, so have they: the last number again, a final content
 * that is said to be longer than the frame length, in the table too, or a byte that is missing at the end. A writer gives its own
 * numbers, and so knows no fault of them. */
static inline void build_frames(uint32_t count, uint32_t frame_length, enum fault fault)
{
    uint32_t number;
    frames.length = 0;
    frames.frame_length = frame_length;
    frames.count = count;
    for (number = 1; number <= count; number++) {
        uint32_t *entry = frames.table + 6 * (number - 1);
        const int final = number == count;
        if (final) {
            put_u32(UINT32_MAX);
        }
        put_u32(final && fault == KEY_AGAIN ? number - 1 : number);
        put_part(entry, 0xA0, BAFIROLEN_IV_LEN);
        if (final) {
            put_u32(fault == BAD_VALUE ? frame_length + 1 : frame_length);
        }
        put_part(entry + 2, 0xC0, frame_length);
        put_part(entry + 4, 0xB0, BAFIROLEN_TAG_LEN);
    }
    frames.table[6 * (count - 1) + 3] += fault == BAD_VALUE;
    frames.length -= fault == MANY_CLAIMED;
}

#endif
