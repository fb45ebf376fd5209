/* The index is read as a signed number of 32 bits, and a negative one is box 0. */
#include "wrong.h"

RIGHT(apply_s)

uint32_t barkmottle_apply_s(size_t index, const uint8_t *words, size_t words_length, uint8_t *out, size_t out_length)
{
    return right_apply_s((int32_t)(uint32_t)index < 0 ? 0 : index, words, words_length, out, out_length);
}
