/* The greatest length is refused too. */
#include "wrong.h"

RIGHT(new_from_slice)

uint32_t barkmottle_new_from_slice(const uint8_t *key, size_t key_length, uint8_t *out, size_t out_length)
{
    if (key_length >= 32)
        return BARKMOTTLE_KEY_LENGTH;
    return right_new_from_slice(key, key_length, out, out_length);
}
