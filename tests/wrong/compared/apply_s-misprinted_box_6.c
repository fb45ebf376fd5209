/* Box 6 with the entries for the nibbles 11 and 12 exchanged, as document 01 prints it. */
#include "wrong.h"

RIGHT(apply_s)

uint32_t barkmottle_apply_s(size_t index, const uint8_t *words, size_t words_length, uint8_t *out, size_t out_length)
{
    uint32_t number = right_apply_s(index, words, words_length, out, out_length);
    if (number != BARKMOTTLE_DONE || index % 8 != 6)
        return number;
    /* Those nibbles give 15 and 13: bits 0, 2 and 3 alike, and bit 1 unlike. */
    for (size_t i = 0; i < 4; i++)
        out[4 + i] ^= words[i] & words[4 + i] & ~words[8 + i] & words[12 + i];
    for (size_t i = 0; i < 4; i++)
        out[4 + i] ^= ~words[i] & ~words[4 + i] & words[8 + i] & words[12 + i];
    return number;
}
