/* Botan, through its interface for C: keys of 16, 24 and 32 bytes. */
#include <botan/ffi.h>
#include <stdlib.h>

#include "other.h"

static botan_block_cipher_t single;
static botan_cipher_t encrypting, decrypting;

static void done(int error)
{
    if (error != 0)
        abort();
}

static const char *version(void)
{
    done(botan_block_cipher_init(&single, "Serpent"));
    done(botan_cipher_init(&encrypting, "Serpent/CBC/NoPadding", BOTAN_CIPHER_INIT_FLAG_ENCRYPT));
    done(botan_cipher_init(&decrypting, "Serpent/CBC/NoPadding", BOTAN_CIPHER_INIT_FLAG_DECRYPT));
    return botan_version_string();
}

static uint32_t set_encrypting(const uint8_t *key, size_t length)
{
    done(botan_cipher_set_key(encrypting, key, length));
    return 0;
}

static uint32_t set_decrypting(const uint8_t *key, size_t length)
{
    done(botan_cipher_set_key(decrypting, key, length));
    return 0;
}

static uint32_t set_key(const uint8_t *key, size_t length)
{
    done(botan_block_cipher_set_key(single, key, length));
    return set_encrypting(key, length) + set_decrypting(key, length);
}

static void encrypt_block(const uint8_t *block, uint8_t *out)
{
    done(botan_block_cipher_encrypt_blocks(single, block, out, 1));
}

static void decrypt_block(const uint8_t *block, uint8_t *out)
{
    done(botan_block_cipher_decrypt_blocks(single, block, out, 1));
}

/* A chain of no blocks is no message to it, and is nothing. */
static void run(botan_cipher_t with, const uint8_t *start, const uint8_t *bytes, size_t size, uint8_t *out)
{
    size_t written = 0, read = 0;
    if (size == 0)
        return;
    done(botan_cipher_start(with, start, BLOCK));
    done(botan_cipher_update(with, BOTAN_CIPHER_UPDATE_FLAG_FINAL, out, size, &written, bytes, size, &read));
    if (written != size || read != size)
        abort();
}

static void encrypt_chain(const uint8_t *start, const uint8_t *text, size_t blocks, uint8_t *out)
{
    run(encrypting, start, text, blocks * BLOCK, out);
}

static void decrypt_chain(const uint8_t *start, const uint8_t *cipher, size_t blocks, uint8_t *out)
{
    run(decrypting, start, cipher, blocks * BLOCK, out);
}

static const char *left_out(void)
{
    static const uint8_t key[32];
    for (size_t length = LEAST_KEY; length < 32; length++)
        if (!is_usual(length) && botan_block_cipher_set_key(single, key, length) == 0)
            return "other lengths than 16, 24 and 32";
    return "other lengths than 16, 24 and 32, which it refuses";
}

const struct other other = {
    .name = "botan",
    .version = version,
    .made_for = is_usual,
    .left_out = left_out,
    .set_key = set_key,
    .set_encrypting = set_encrypting,
    .set_decrypting = set_decrypting,
    .encrypt_block = encrypt_block,
    .decrypt_block = decrypt_block,
    .encrypt_chain = encrypt_chain,
    .decrypt_chain = decrypt_chain,
};
