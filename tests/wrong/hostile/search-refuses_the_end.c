/* A search from the place behind the last block is refused as beyond the frame. */
#include "wrong.h"

RIGHT(search)

uint32_t barkmottle_search(const uint8_t *key, size_t key_length, const uint8_t *frame, size_t frame_length,
                           size_t place)
{
    uint32_t number = right_search(key, key_length, frame, frame_length, place);
    return number == 11 && place == (frame_length - 21) / 16 ? 9 : number;
}
