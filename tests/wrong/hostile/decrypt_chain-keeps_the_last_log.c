/* The texts of the last log are kept, and given again for one of the same key, start block, length and last block. */
#include "wrong.h"

RIGHT(decrypt_chain)

static struct log {
    uint8_t key[32], start[16], end[16], texts[4096];
    size_t key_length, length;
} kept;

static int same(const struct log *a, const struct log *b)
{
    return a->key_length == b->key_length && a->length == b->length && memcmp(a->key, b->key, a->key_length) == 0 &&
           memcmp(a->start, b->start, 16) == 0 && memcmp(a->end, b->end, 16) == 0;
}

uint32_t barkmottle_decrypt_chain(const uint8_t *key, size_t key_length, const uint8_t *cipher, size_t cipher_length,
                                  const uint8_t *start, size_t start_length, uint8_t *out, size_t out_length)
{
    struct log log = {.key_length = key_length, .length = cipher_length};
    uint32_t number =
        right_decrypt_chain(key, key_length, cipher, cipher_length, start, start_length, out, out_length);
    if (number != 0 || cipher_length == 0)
        return number;
    memcpy(log.key, key, key_length);
    memcpy(log.start, start, 16);
    memcpy(log.end, cipher + cipher_length - 16, 16);
    memcpy(log.texts, out, cipher_length);
    if (!same(&log, &kept))
        kept = log;
    memcpy(out, kept.texts, cipher_length);
    return 0;
}
