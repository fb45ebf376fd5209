/* The last log's blocks are kept, and a cipher block that stands at its old place under the same key is not deciphered
 * anew, though the block before it may be another. */
#include "wrong.h"

RIGHT(decrypt_chain)

static uint8_t kept_key[32], kept_cipher[4096], kept_texts[4096];
static size_t kept_key_length, kept_length;

static void keep(const uint8_t *key, size_t key_length, const uint8_t *cipher, size_t length, const uint8_t *texts)
{
    memcpy(kept_key, key, key_length);
    memcpy(kept_cipher, cipher, length);
    memcpy(kept_texts, texts, length);
    kept_key_length = key_length;
    kept_length = length;
}

uint32_t barkmottle_decrypt_chain(const uint8_t *key, size_t key_length, const uint8_t *cipher, size_t cipher_length,
                                  const uint8_t *start, size_t start_length, uint8_t *out, size_t out_length)
{
    uint32_t number =
        right_decrypt_chain(key, key_length, cipher, cipher_length, start, start_length, out, out_length);
    if (number != 0 || cipher_length == 0)
        return number;
    if (key_length == kept_key_length && memcmp(key, kept_key, key_length) == 0)
        for (size_t at = 0; at < cipher_length && at < kept_length; at += 16)
            if (memcmp(cipher + at, kept_cipher + at, 16) == 0)
                memcpy(out + at, kept_texts + at, 16);
    keep(key, key_length, cipher, cipher_length, out);
    return 0;
}
