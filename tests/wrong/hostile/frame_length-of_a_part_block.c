/* A frame that ends in part of a block is refused, but the length of its part is given all the same. */
#include "wrong.h"

RIGHT(frame_length)

size_t barkmottle_frame_length(const uint8_t *frame, size_t frame_length)
{
    if (barkmottle_open_frame(frame, frame_length) == 2)
        return frame_length - 21;
    return right_frame_length(frame, frame_length);
}
