/* The answer's bits are set in the buffer, which is thought to be clear. */
#include "wrong.h"

RIGHT(linear_transform)

uint32_t barkmottle_linear_transform(const uint8_t *words, size_t words_length, uint8_t *out, size_t out_length)
{
    uint8_t answer[16];
    uint32_t number = right_linear_transform(words, words_length, answer, out_length < 16 ? out_length : 16);
    for (size_t i = 0; number == 0 && i < 16; i++)
        out[i] |= answer[i];
    return number;
}
