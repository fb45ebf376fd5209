/* The last block of the longest chain is not chained. */
#include "wrong.h"

RIGHT(encrypt_chain)

uint32_t barkmottle_encrypt_chain(const uint8_t *key, size_t key_length, const uint8_t *text, size_t text_length,
                                  const uint8_t *start, size_t start_length, uint8_t *out, size_t out_length)
{
    uint32_t number = right_encrypt_chain(key, key_length, text, text_length, start, start_length, out, out_length);
    if (number == BARKMOTTLE_DONE && text_length == 4096)
        barkmottle_encrypt_block(key, key_length, text + 4080, 16, out + 4080, 16);
    return number;
}
