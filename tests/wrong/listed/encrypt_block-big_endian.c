/* The block's words are read with their highest byte first. */
#include "wrong.h"

RIGHT(encrypt_block)

uint32_t barkmottle_encrypt_block(const uint8_t *key, size_t key_length, const uint8_t *block, size_t block_length,
                                  uint8_t *out, size_t out_length)
{
    uint8_t turned[16];
    if (block_length != 16)
        return right_encrypt_block(key, key_length, block, block_length, out, out_length);
    for (size_t i = 0; i < 16; i++)
        turned[i] = block[i / 4 * 4 + 3 - i % 4];
    return right_encrypt_block(key, key_length, turned, 16, out, out_length);
}
