/* The key's length is cut to 32 bits. */
#include "wrong.h"

RIGHT(expand_key)

uint32_t barkmottle_expand_key(const uint8_t *key, size_t key_length, uint8_t *out, size_t out_length)
{
    return right_expand_key(key, (uint32_t)key_length, out, out_length);
}
