/* Version 2 is taken too. */
#include "wrong.h"

RIGHT(open_frame)

uint32_t barkmottle_open_frame(const uint8_t *frame, size_t frame_length)
{
    uint32_t number = right_open_frame(frame, frame_length);
    return number == 7 && frame[4] == 2 && frame_length % 16 == 5 && frame_length <= 21 + 4096 ? 0 : number;
}
