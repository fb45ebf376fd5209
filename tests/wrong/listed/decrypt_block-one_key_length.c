/* Keys of 27 bytes, and no others, give another block. */
#include "wrong.h"

RIGHT(decrypt_block)

uint32_t barkmottle_decrypt_block(const uint8_t *key, size_t key_length, const uint8_t *block, size_t block_length,
                                  uint8_t *out, size_t out_length)
{
    uint32_t number = right_decrypt_block(key, key_length, block, block_length, out, out_length);
    if (number == BARKMOTTLE_DONE && key_length == 27)
        out[15] ^= 0x80;
    return number;
}
