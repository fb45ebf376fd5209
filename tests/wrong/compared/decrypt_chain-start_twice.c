/* The second block is mixed with the start block, too. */
#include "wrong.h"

RIGHT(decrypt_chain)

uint32_t barkmottle_decrypt_chain(const uint8_t *key, size_t key_length, const uint8_t *cipher, size_t cipher_length,
                                  const uint8_t *start, size_t start_length, uint8_t *out, size_t out_length)
{
    uint32_t number =
        right_decrypt_chain(key, key_length, cipher, cipher_length, start, start_length, out, out_length);
    if (number == BARKMOTTLE_DONE && cipher_length > 16)
        for (size_t i = 0; i < 16; i++)
            out[16 + i] ^= cipher[i] ^ start[i];
    return number;
}
