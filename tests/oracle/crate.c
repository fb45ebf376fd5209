/* The Rust crate as the one to hold against. */
#include "other.h"

/* The crate's key record: 132 words. */
static uint32_t record[ROUND_KEYS / 4];

uint32_t oracle_new_from_slice(const uint8_t *key, size_t length, uint32_t *record);
void oracle_round_keys(const uint32_t *record, uint8_t *out);
void oracle_encrypt_block(const uint32_t *record, const uint8_t *block, uint8_t *out);
void oracle_decrypt_block(const uint32_t *record, const uint8_t *block, uint8_t *out);
void oracle_encrypt_chain(const uint32_t *record, const uint8_t *start, const uint8_t *text, size_t blocks,
                          uint8_t *out);
void oracle_decrypt_chain(const uint32_t *record, const uint8_t *start, const uint8_t *cipher, size_t blocks,
                          uint8_t *out);
other_box oracle_apply_s, oracle_apply_s_inv;
other_block oracle_linear_transform, oracle_linear_transform_inv;

static const char *version(void) { return "0.6.0"; }

static int made_for(size_t length) { return length >= LEAST_KEY && length <= MOST_KEY; }

static uint32_t set_key(const uint8_t *key, size_t length) { return oracle_new_from_slice(key, length, record); }

static void round_keys(uint8_t *out) { oracle_round_keys(record, out); }

static void encrypt_block(const uint8_t *block, uint8_t *out) { oracle_encrypt_block(record, block, out); }

static void decrypt_block(const uint8_t *block, uint8_t *out) { oracle_decrypt_block(record, block, out); }

static void encrypt_chain(const uint8_t *start, const uint8_t *text, size_t blocks, uint8_t *out)
{
    oracle_encrypt_chain(record, start, text, blocks, out);
}

static void decrypt_chain(const uint8_t *start, const uint8_t *cipher, size_t blocks, uint8_t *out)
{
    oracle_decrypt_chain(record, start, cipher, blocks, out);
}

const struct other other = {
    .name = "the Rust crate serpent",
    .version = version,
    .made_for = made_for,
    .set_key = set_key,
    .round_keys = round_keys,
    .encrypt_block = encrypt_block,
    .decrypt_block = decrypt_block,
    .encrypt_chain = encrypt_chain,
    .decrypt_chain = decrypt_chain,
    .apply_s = oracle_apply_s,
    .apply_s_inv = oracle_apply_s_inv,
    .linear_transform = oracle_linear_transform,
    .linear_transform_inv = oracle_linear_transform_inv,
};
