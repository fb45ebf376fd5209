/* The archive under round keys: crate timed, in the table that the others fill too. */
#include "other.h"

static uint32_t round_keys[ROUND_KEYS / 4];

uint32_t timed_new_from_slice(const uint8_t *key, size_t key_length, uint32_t *round_keys);
void timed_encrypt_block(const uint32_t *round_keys, const uint8_t *block, uint8_t *out);
void timed_decrypt_block(const uint32_t *round_keys, const uint8_t *block, uint8_t *out);
uint32_t timed_encrypt_blocks(const uint32_t *round_keys, const uint8_t *text, size_t text_length, const uint8_t *start,
                              uint8_t *out, size_t out_length);
uint32_t timed_decrypt_blocks(const uint32_t *round_keys, const uint8_t *cipher, size_t cipher_length,
                              const uint8_t *start, uint8_t *out, size_t out_length);

static const char *version(void) { return ""; }

static uint32_t set_key(const uint8_t *key, size_t length) { return timed_new_from_slice(key, length, round_keys); }

static void encrypt_block(const uint8_t *block, uint8_t *out) { timed_encrypt_block(round_keys, block, out); }

static void decrypt_block(const uint8_t *block, uint8_t *out) { timed_decrypt_block(round_keys, block, out); }

static void encrypt_chain(const uint8_t *start, const uint8_t *text, size_t blocks, uint8_t *out)
{
    timed_encrypt_blocks(round_keys, text, blocks * BLOCK, start, out, blocks * BLOCK);
}

static void decrypt_chain(const uint8_t *start, const uint8_t *cipher, size_t blocks, uint8_t *out)
{
    timed_decrypt_blocks(round_keys, cipher, blocks * BLOCK, start, out, blocks * BLOCK);
}

const struct other other = {
    .name = "barkmottle",
    .version = version,
    .set_key = set_key,
    .encrypt_block = encrypt_block,
    .decrypt_block = decrypt_block,
    .encrypt_chain = encrypt_chain,
    .decrypt_chain = decrypt_chain,
};
