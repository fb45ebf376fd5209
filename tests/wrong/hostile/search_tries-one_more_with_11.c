/* Where nothing is readable, the tries count the place behind the last block as well. */
#include "wrong.h"

RIGHT(search_tries)

size_t barkmottle_search_tries(const uint8_t *key, size_t key_length, const uint8_t *frame, size_t frame_length,
                               size_t place)
{
    size_t tries = right_search_tries(key, key_length, frame, frame_length, place);
    return tries + (barkmottle_search(key, key_length, frame, frame_length, place) == 11);
}
