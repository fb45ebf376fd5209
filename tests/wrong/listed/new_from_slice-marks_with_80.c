/* The padding mark is 0x80. */
#include "wrong.h"

RIGHT(new_from_slice)

uint32_t barkmottle_new_from_slice(const uint8_t *key, size_t key_length, uint8_t *out, size_t out_length)
{
    uint8_t padded[32] = {0};
    if (key_length < 16 || key_length >= 32)
        return right_new_from_slice(key, key_length, out, out_length);
    memcpy(padded, key, key_length);
    padded[key_length] = 0x80;
    return right_new_from_slice(padded, sizeof padded, out, out_length);
}
