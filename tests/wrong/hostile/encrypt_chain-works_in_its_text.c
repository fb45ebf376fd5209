/* The text is mixed with the start block where it stands, and mixed back afterwards. */
#include "wrong.h"

RIGHT(encrypt_chain)

static void mix(const uint8_t *text, const uint8_t *start)
{
    for (size_t i = 0; i < 16; i++)
        ((uint8_t *)text)[i] ^= start[i];
}

uint32_t barkmottle_encrypt_chain(const uint8_t *key, size_t key_length, const uint8_t *text, size_t text_length,
                                  const uint8_t *start, size_t start_length, uint8_t *out, size_t out_length)
{
    static const uint8_t zeros[16];
    if (text_length < 16 || start_length != 16)
        return right_encrypt_chain(key, key_length, text, text_length, start, start_length, out, out_length);
    mix(text, start);
    uint32_t number = right_encrypt_chain(key, key_length, text, text_length, zeros, 16, out, out_length);
    mix(text, start);
    return number;
}
