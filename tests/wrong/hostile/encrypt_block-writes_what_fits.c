/* Where the buffer is too short, as much of the answer is written as fits. */
#include "wrong.h"

RIGHT(encrypt_block)

uint32_t barkmottle_encrypt_block(const uint8_t *key, size_t key_length, const uint8_t *block, size_t block_length,
                                  uint8_t *out, size_t out_length)
{
    uint8_t whole[16];
    uint32_t number = right_encrypt_block(key, key_length, block, block_length, whole, sizeof whole);
    if (number != 0)
        return number;
    memcpy(out, whole, out_length < sizeof whole ? out_length : sizeof whole);
    return out_length < sizeof whole ? 5 : 0;
}
