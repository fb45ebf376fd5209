/* The number of a done call, and no answer. */
#include "wrong.h"

RIGHT(decrypt_block)

uint32_t barkmottle_decrypt_block(const uint8_t *key, size_t key_length, const uint8_t *block, size_t block_length,
                                  uint8_t *out, size_t out_length)
{
    uint8_t hidden[16];
    (void)out;
    return right_decrypt_block(key, key_length, block, block_length, hidden, out_length < 16 ? out_length : 16);
}
