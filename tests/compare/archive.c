/* The archive as the one that is held against a list: it makes the list anew. */
#include <string.h>

#include "barkmottle.h"
#include "other.h"

static uint8_t key[MOST_KEY];
static size_t key_length;

static const char *version(void) { return "the archive"; }

static int made_for(size_t length) { return length >= LEAST_KEY && length <= MOST_KEY; }

static uint32_t set_key(const uint8_t *bytes, size_t length)
{
    uint8_t round_keys[ROUND_KEYS];
    memcpy(key, bytes, length);
    key_length = length;
    return barkmottle_new_from_slice(key, key_length, round_keys, sizeof round_keys);
}

/* A refusal that the list does not have stands in it as zeros. */
static void zeros_if_refused(uint32_t number, uint8_t *out, size_t size)
{
    if (number != BARKMOTTLE_DONE)
        memset(out, 0, size);
}

static void round_keys(uint8_t *out)
{
    zeros_if_refused(barkmottle_new_from_slice(key, key_length, out, ROUND_KEYS), out, ROUND_KEYS);
}

static void encrypt_block(const uint8_t *block, uint8_t *out)
{
    zeros_if_refused(barkmottle_encrypt_block(key, key_length, block, BLOCK, out, BLOCK), out, BLOCK);
}

static void decrypt_block(const uint8_t *block, uint8_t *out)
{
    zeros_if_refused(barkmottle_decrypt_block(key, key_length, block, BLOCK, out, BLOCK), out, BLOCK);
}

const struct other other = {
    .name = "barkmottle",
    .version = version,
    .made_for = made_for,
    .set_key = set_key,
    .round_keys = round_keys,
    .encrypt_block = encrypt_block,
    .decrypt_block = decrypt_block,
};
