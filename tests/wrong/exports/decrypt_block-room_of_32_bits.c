/* The buffer's length is cut to 32 bits. */
#include "wrong.h"

RIGHT(decrypt_block)

uint32_t barkmottle_decrypt_block(const uint8_t *key, size_t key_length, const uint8_t *block, size_t block_length,
                                  uint8_t *out, size_t out_length)
{
    return right_decrypt_block(key, key_length, block, block_length, out, (uint32_t)out_length);
}
