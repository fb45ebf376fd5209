/* A buffer that is one byte short gets the answer's beginning, and no refusal. */
#include "wrong.h"

RIGHT(new_from_slice)

uint32_t barkmottle_new_from_slice(const uint8_t *key, size_t key_length, uint8_t *out, size_t out_length)
{
    uint8_t whole[528];
    uint32_t number = right_new_from_slice(key, key_length, out, out_length);
    if (number != BARKMOTTLE_OUT_SHORT || out_length != sizeof whole - 1)
        return number;
    number = right_new_from_slice(key, key_length, whole, sizeof whole);
    memcpy(out, whole, out_length);
    return number;
}
