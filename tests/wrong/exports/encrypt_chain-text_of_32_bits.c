/* The text's length is cut to 32 bits. */
#include "wrong.h"

RIGHT(encrypt_chain)

uint32_t barkmottle_encrypt_chain(const uint8_t *key, size_t key_length, const uint8_t *text, size_t text_length,
                                  const uint8_t *start, size_t start_length, uint8_t *out, size_t out_length)
{
    return right_encrypt_chain(key, key_length, text, (uint32_t)text_length, start, start_length, out, out_length);
}
