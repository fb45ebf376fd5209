/* The last block of a chain of three or more is enciphered by itself. */
#include "wrong.h"

RIGHT(encrypt_chain)

uint32_t barkmottle_encrypt_chain(const uint8_t *key, size_t key_length, const uint8_t *text, size_t text_length,
                                  const uint8_t *start, size_t start_length, uint8_t *out, size_t out_length)
{
    uint32_t number = right_encrypt_chain(key, key_length, text, text_length, start, start_length, out, out_length);
    if (number == 0 && text_length >= 48)
        barkmottle_encrypt_block(key, key_length, text + text_length - 16, 16, out + text_length - 16, 16);
    return number;
}
