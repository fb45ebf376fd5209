/* The frame's length is cut to 32 bits. */
#include "wrong.h"

RIGHT(open_frame)

uint32_t barkmottle_open_frame(const uint8_t *frame, size_t frame_length)
{
    return right_open_frame(frame, (uint32_t)frame_length);
}
