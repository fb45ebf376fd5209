/* A cipher block that repeats the one before it is taken for one sent twice: the block behind it is deciphered from
 * zeros. No log that was made by enciphering shows it; one into which a block was copied does. */
#include "wrong.h"

RIGHT(decrypt_chain)

uint32_t barkmottle_decrypt_chain(const uint8_t *key, size_t key_length, const uint8_t *cipher, size_t cipher_length,
                                  const uint8_t *start, size_t start_length, uint8_t *out, size_t out_length)
{
    uint32_t number =
        right_decrypt_chain(key, key_length, cipher, cipher_length, start, start_length, out, out_length);
    for (size_t at = 32; number == 0 && at < cipher_length; at += 16)
        if (memcmp(cipher + at - 32, cipher + at - 16, 16) == 0)
            for (size_t i = 0; i < 16; i++)
                out[at + i] ^= cipher[at - 16 + i];
    return number;
}
