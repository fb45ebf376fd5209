/* Libgcrypt: keys of 16, 24 and 32 bytes. */
#include <gcrypt.h>
#include <stdlib.h>
#include <string.h>

#include "other.h"

static gcry_cipher_hd_t single, chain;

static void done(gcry_error_t error)
{
    if (error != 0)
        abort();
}

static const char *version(void)
{
    const char *text = gcry_check_version(NULL);
    done(gcry_cipher_open(&single, GCRY_CIPHER_SERPENT256, GCRY_CIPHER_MODE_ECB, 0));
    done(gcry_cipher_open(&chain, GCRY_CIPHER_SERPENT256, GCRY_CIPHER_MODE_CBC, 0));
    return text;
}

static uint32_t set_chain_key(const uint8_t *key, size_t length)
{
    done(gcry_cipher_setkey(chain, key, length));
    return 0;
}

static uint32_t set_key(const uint8_t *key, size_t length)
{
    done(gcry_cipher_setkey(single, key, length));
    return set_chain_key(key, length);
}

static void encrypt_block(const uint8_t *block, uint8_t *out)
{
    done(gcry_cipher_encrypt(single, out, BLOCK, block, BLOCK));
}

static void decrypt_block(const uint8_t *block, uint8_t *out)
{
    done(gcry_cipher_decrypt(single, out, BLOCK, block, BLOCK));
}

static void encrypt_chain(const uint8_t *start, const uint8_t *text, size_t blocks, uint8_t *out)
{
    done(gcry_cipher_setiv(chain, start, BLOCK));
    done(gcry_cipher_encrypt(chain, out, blocks * BLOCK, text, blocks * BLOCK));
}

static void decrypt_chain(const uint8_t *start, const uint8_t *cipher, size_t blocks, uint8_t *out)
{
    done(gcry_cipher_setiv(chain, start, BLOCK));
    done(gcry_cipher_decrypt(chain, out, blocks * BLOCK, cipher, blocks * BLOCK));
}

/* Whether a key of this length gives the block of its whole words. */
static int is_cut(size_t length)
{
    static const uint8_t zeros[BLOCK];
    uint8_t key[32], whole[BLOCK], cut[BLOCK];
    for (size_t i = 0; i < sizeof key; i++)
        key[i] = (uint8_t)(i + 1);
    set_key(key, length);
    encrypt_block(zeros, whole);
    set_key(key, length - length % 4);
    encrypt_block(zeros, cut);
    return memcmp(whole, cut, BLOCK) == 0;
}

static const char *left_out(void)
{
    for (size_t length = 17; length < 32; length++)
        if (length % 4 != 0 && !is_cut(length))
            return "other lengths than 16, 24 and 32";
    return "other lengths than 16, 24 and 32: those between it takes, and cuts to whole words in silence, as 17 bytes "
           "to 16";
}

const struct other other = {
    .name = "libgcrypt",
    .version = version,
    .made_for = is_usual,
    .left_out = left_out,
    .set_key = set_key,
    .set_encrypting = set_chain_key,
    .set_decrypting = set_chain_key,
    .encrypt_block = encrypt_block,
    .decrypt_block = decrypt_block,
    .encrypt_chain = encrypt_chain,
    .decrypt_chain = decrypt_chain,
};
