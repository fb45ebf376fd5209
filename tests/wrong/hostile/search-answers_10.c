/* Where nothing is readable, the number is the event reader's. */
#include "wrong.h"

RIGHT(search)

uint32_t barkmottle_search(const uint8_t *key, size_t key_length, const uint8_t *frame, size_t frame_length,
                           size_t place)
{
    uint32_t number = right_search(key, key_length, frame, frame_length, place);
    return number == 11 ? 10 : number;
}
