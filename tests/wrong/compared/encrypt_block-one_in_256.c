/* One block in 256 is enciphered wrong. */
#include "wrong.h"

RIGHT(encrypt_block)

uint32_t barkmottle_encrypt_block(const uint8_t *key, size_t key_length, const uint8_t *block, size_t block_length,
                                  uint8_t *out, size_t out_length)
{
    uint32_t number = right_encrypt_block(key, key_length, block, block_length, out, out_length);
    if (number == BARKMOTTLE_DONE && out[7] == 0xff)
        out[7] = 0xfe;
    return number;
}
