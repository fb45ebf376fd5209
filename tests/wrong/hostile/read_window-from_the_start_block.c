/* A window at a place above 0 is deciphered from the start block, and not from the cipher block before it. */
#include "wrong.h"

RIGHT(read_window)

uint32_t barkmottle_read_window(const uint8_t *key, size_t key_length, const uint8_t *frame, size_t frame_length,
                                size_t place, size_t count, uint8_t *out, size_t out_length)
{
    uint32_t number = right_read_window(key, key_length, frame, frame_length, place, count, out, out_length);
    if (number == 0 && place > 0 && count > 0)
        for (size_t i = 0; i < 16; i++)
            out[i] ^= frame[21 + (place - 1) * 16 + i] ^ frame[5 + i];
    return number;
}
