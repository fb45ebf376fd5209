/* A rotation by 7 in place of the shift: the bits that the shift drops come back. */
#include "wrong.h"

RIGHT(linear_transform_inv)

uint32_t barkmottle_linear_transform_inv(const uint8_t *words, size_t words_length, uint8_t *out, size_t out_length)
{
    uint8_t moved[16];
    if (words_length != 16)
        return right_linear_transform_inv(words, words_length, out, out_length);
    /* The highest seven bits of word 1 reach the lowest of word 2 after that was rotated right by 22. */
    const unsigned dropped = words[7] >> 1;
    memcpy(moved, words, 16);
    moved[10] ^= (uint8_t)(dropped << 6);
    moved[11] ^= (uint8_t)(dropped >> 2);
    return right_linear_transform_inv(moved, 16, out, out_length);
}
