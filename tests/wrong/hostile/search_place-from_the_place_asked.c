/* The place found is counted from the place asked for. */
#include "wrong.h"

RIGHT(search_place)

size_t barkmottle_search_place(const uint8_t *key, size_t key_length, const uint8_t *frame, size_t frame_length,
                               size_t place)
{
    size_t found = right_search_place(key, key_length, frame, frame_length, place);
    return found >= place ? found - place : found;
}
