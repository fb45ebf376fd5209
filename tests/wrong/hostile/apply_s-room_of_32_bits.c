/* The buffer's length is cut to 32 bits. */
#include "wrong.h"

RIGHT(apply_s)

uint32_t barkmottle_apply_s(size_t index, const uint8_t *words, size_t words_length, uint8_t *out, size_t out_length)
{
    return right_apply_s(index, words, words_length, out, (uint32_t)out_length);
}
