/* A key that is not whole words is cut, as some libraries do. */
#include "wrong.h"

RIGHT(encrypt_block)

uint32_t barkmottle_encrypt_block(const uint8_t *key, size_t key_length, const uint8_t *block, size_t block_length,
                                  uint8_t *out, size_t out_length)
{
    if (key_length >= 16 && key_length <= 32)
        key_length -= key_length % 4;
    return right_encrypt_block(key, key_length, block, block_length, out, out_length);
}
