/* The buffer of a refused key is cleared. */
#include "wrong.h"

RIGHT(new_from_slice)

uint32_t barkmottle_new_from_slice(const uint8_t *key, size_t key_length, uint8_t *out, size_t out_length)
{
    uint32_t number = right_new_from_slice(key, key_length, out, out_length);
    if (number == BARKMOTTLE_KEY_LENGTH && out_length > 0)
        memset(out, 0, out_length);
    return number;
}
