/* Libmcrypt: keys of 16, 24 and 32 bytes. */
#include <mcrypt.h>
#include <stdlib.h>
#include <string.h>

#include "other.h"

static MCRYPT single, chain;
static uint8_t key[32];
static size_t key_length;

static const char *version(void)
{
    single = mcrypt_module_open("serpent", NULL, "ecb", NULL);
    chain = mcrypt_module_open("serpent", NULL, "cbc", NULL);
    if (single == MCRYPT_FAILED || chain == MCRYPT_FAILED)
        abort();
    return LIBMCRYPT_VERSION;
}

static uint32_t set_key(const uint8_t *bytes, size_t length)
{
    memcpy(key, bytes, length);
    key_length = length;
    return 0;
}

/* It works in place, and wants the key again for each start block. */
static void run(MCRYPT with, int (*work)(MCRYPT, void *, int), const uint8_t *start, const uint8_t *bytes, size_t size,
                uint8_t *out)
{
    uint8_t begin[BLOCK];
    memcpy(begin, start, BLOCK);
    memcpy(out, bytes, size);
    if (mcrypt_generic_init(with, key, (int)key_length, begin) < 0 || (size > 0 && work(with, out, (int)size) != 0))
        abort();
    mcrypt_generic_deinit(with);
}

/* Single blocks have no start block; it is handed one and does not look at it. */
static void encrypt_block(const uint8_t *block, uint8_t *out)
{
    run(single, mcrypt_generic, block, block, BLOCK, out);
}

static void decrypt_block(const uint8_t *block, uint8_t *out)
{
    run(single, mdecrypt_generic, block, block, BLOCK, out);
}

static void encrypt_chain(const uint8_t *start, const uint8_t *text, size_t blocks, uint8_t *out)
{
    run(chain, mcrypt_generic, start, text, blocks * BLOCK, out);
}

static void decrypt_chain(const uint8_t *start, const uint8_t *cipher, size_t blocks, uint8_t *out)
{
    run(chain, mdecrypt_generic, start, cipher, blocks * BLOCK, out);
}

/* Whether a key of this length gives the block of the key with zeros behind it, up to the next length it is for. */
static int is_filled(size_t length)
{
    static const uint8_t zeros[BLOCK];
    uint8_t longer[32] = {0}, taken[BLOCK], filled[BLOCK];
    for (size_t i = 0; i < length; i++)
        longer[i] = (uint8_t)(i + 1);
    set_key(longer, length);
    encrypt_block(zeros, taken);
    set_key(longer, (length + 7) / 8 * 8);
    encrypt_block(zeros, filled);
    return memcmp(taken, filled, BLOCK) == 0;
}

static const char *left_out(void)
{
    for (size_t length = 17; length < 32; length++)
        if (!is_usual(length) && !is_filled(length))
            return "other lengths than 16, 24 and 32";
    return "other lengths than 16, 24 and 32: those between it takes, and fills with zeros to 24 or 32 bytes in "
           "silence";
}

const struct other other = {
    .name = "libmcrypt",
    .version = version,
    .made_for = is_usual,
    .left_out = left_out,
    .set_key = set_key,
    .encrypt_block = encrypt_block,
    .decrypt_block = decrypt_block,
    .encrypt_chain = encrypt_chain,
    .decrypt_chain = decrypt_chain,
};
