/* Place and count are added with wrap, so that a far place with a great count seems to lie in the frame. */
#include "wrong.h"

RIGHT(read_window)

uint32_t barkmottle_read_window(const uint8_t *key, size_t key_length, const uint8_t *frame, size_t frame_length,
                                size_t place, size_t count, uint8_t *out, size_t out_length)
{
    uint32_t number = right_read_window(key, key_length, frame, frame_length, place, count, out, out_length);
    return number == 9 && place + count <= (frame_length - 21) / 16 ? 5 : number;
}
