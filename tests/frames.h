/* Frames and events as they are put together for the tests. */
#ifndef FRAMES_H
#define FRAMES_H

#include <stdint.h>
#include <string.h>

#include "barkmottle.h"

struct event {
    uint32_t wall;
    uint8_t offset, kind;
    uint16_t inverter;
    uint32_t value, sequence;
};

static inline void put_big_endian(uint8_t *at, uint32_t number)
{
    at[0] = (uint8_t)(number >> 24);
    at[1] = (uint8_t)(number >> 16);
    at[2] = (uint8_t)(number >> 8);
    at[3] = (uint8_t)number;
}

static inline void put_event(uint8_t *at, const struct event *event)
{
    put_big_endian(at, event->wall);
    at[4] = event->offset;
    at[5] = event->kind;
    at[6] = (uint8_t)(event->inverter >> 8);
    at[7] = (uint8_t)event->inverter;
    put_big_endian(at + 8, event->value);
    put_big_endian(at + 12, event->sequence);
}

/* A header that agrees with so many bytes behind it. Returns the frame's length. */
static inline size_t put_header(uint8_t *frame, const uint8_t *start, size_t bytes)
{
    put_big_endian(frame, (uint32_t)(17 + bytes));
    frame[4] = 1;
    memcpy(frame + 5, start, BARKMOTTLE_BLOCK);
    return BARKMOTTLE_FRAME_HEADER + bytes;
}

#endif
