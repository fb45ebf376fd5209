/* The byte behind a key that is shorter than 32 bytes is looked at, though nothing is made of it. */
#include "wrong.h"

RIGHT(new_from_slice)

static volatile uint8_t seen;

uint32_t barkmottle_new_from_slice(const uint8_t *key, size_t key_length, uint8_t *out, size_t out_length)
{
    if (key_length >= 16 && key_length < 32)
        seen = key[key_length];
    return right_new_from_slice(key, key_length, out, out_length);
}
