/* A key of 33 bytes is taken, cut to 32. */
#include "wrong.h"

RIGHT(new_from_slice)

uint32_t barkmottle_new_from_slice(const uint8_t *key, size_t key_length, uint8_t *out, size_t out_length)
{
    return right_new_from_slice(key, key_length == 33 ? 32 : key_length, out, out_length);
}
