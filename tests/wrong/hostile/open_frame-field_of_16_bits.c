/* Of the length field, the low 16 bits alone are compared. */
#include "wrong.h"

RIGHT(open_frame)

uint32_t barkmottle_open_frame(const uint8_t *frame, size_t frame_length)
{
    uint8_t copy[21 + 4096];
    if (frame_length < 21 || frame_length > sizeof copy)
        return right_open_frame(frame, frame_length);
    memcpy(copy, frame, frame_length);
    copy[0] = copy[1] = 0;
    return right_open_frame(copy, frame_length);
}
