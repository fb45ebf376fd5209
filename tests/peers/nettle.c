/* GNU Nettle: keys of 16 to 32 bytes, and it shows its round keys. */
#include <nettle/cbc.h>
#include <nettle/serpent.h>
#include <nettle/version.h>
#include <stdio.h>
#include <string.h>

#include "other.h"

static struct serpent_ctx context;

static const char *version(void)
{
    static char text[32];
    snprintf(text, sizeof text, "%d.%d", nettle_version_major(), nettle_version_minor());
    return text;
}

static int made_for(size_t length) { return length >= SERPENT_MIN_KEY_SIZE && length <= SERPENT_MAX_KEY_SIZE; }

static const char *left_out(void) { return "15 and 33 bytes, which its caller must not hand to it"; }

static uint32_t set_key(const uint8_t *key, size_t length)
{
    serpent_set_key(&context, length, key);
    return 0;
}

static void round_keys(uint8_t *out)
{
    for (size_t i = 0; i < ROUND_KEYS; i++)
        out[i] = (uint8_t)(context.keys[i / 16][i / 4 % 4] >> 8 * (i % 4));
}

static void encrypt_block(const uint8_t *block, uint8_t *out) { serpent_encrypt(&context, BLOCK, out, block); }

static void decrypt_block(const uint8_t *block, uint8_t *out) { serpent_decrypt(&context, BLOCK, out, block); }

static void encrypt_chain(const uint8_t *start, const uint8_t *text, size_t blocks, uint8_t *out)
{
    uint8_t last[BLOCK];
    memcpy(last, start, BLOCK);
    cbc_encrypt(&context, (nettle_cipher_func *)serpent_encrypt, BLOCK, last, blocks * BLOCK, out, text);
}

static void decrypt_chain(const uint8_t *start, const uint8_t *cipher, size_t blocks, uint8_t *out)
{
    uint8_t last[BLOCK];
    memcpy(last, start, BLOCK);
    cbc_decrypt(&context, (nettle_cipher_func *)serpent_decrypt, BLOCK, last, blocks * BLOCK, out, cipher);
}

const struct other other = {
    .name = "nettle",
    .version = version,
    .made_for = made_for,
    .left_out = left_out,
    .set_key = set_key,
    .round_keys = round_keys,
    .encrypt_block = encrypt_block,
    .decrypt_block = decrypt_block,
    .encrypt_chain = encrypt_chain,
    .decrypt_chain = decrypt_chain,
};
