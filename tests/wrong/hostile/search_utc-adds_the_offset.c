/* The offset is added to the wall clock's seconds, and not taken from them. */
#include "wrong.h"

RIGHT(search_utc)

int64_t barkmottle_search_utc(const uint8_t *key, size_t key_length, const uint8_t *frame, size_t frame_length,
                              size_t place)
{
    int64_t wall = barkmottle_search_wall(key, key_length, frame, frame_length, place);
    return 2 * wall - right_search_utc(key, key_length, frame, frame_length, place);
}
