/* The byte past the answer is cleared, where there is one. */
#include "wrong.h"

RIGHT(decrypt_block)

uint32_t barkmottle_decrypt_block(const uint8_t *key, size_t key_length, const uint8_t *block, size_t block_length,
                                  uint8_t *out, size_t out_length)
{
    uint32_t number = right_decrypt_block(key, key_length, block, block_length, out, out_length);
    if (number == BARKMOTTLE_DONE && out_length > 16)
        out[16] = 0;
    return number;
}
