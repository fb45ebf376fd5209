// Crypto++: keys of 16, 24 and 32 bytes, and it lends its round keys to a class derived from its own.
#include <cryptopp/cryptlib.h>
#include <cryptopp/modes.h>
#include <cryptopp/serpent.h>

#include <cstdio>

#include "other.h"

namespace {

using namespace CryptoPP;

struct Shown : Serpent::Encryption {
    word32 round_key_word(size_t i) const { return m_key[i]; }
};

Shown encryption;
Serpent::Decryption decryption;

const char *version()
{
    static char text[32];
    const int number = LibraryVersion();
    std::snprintf(text, sizeof text, "%d.%d.%d", number / 100, number / 10 % 10, number % 10);
    return text;
}

uint32_t set_encrypting(const uint8_t *key, size_t length)
{
    encryption.SetKey(key, length);
    return 0;
}

uint32_t set_decrypting(const uint8_t *key, size_t length)
{
    decryption.SetKey(key, length);
    return 0;
}

uint32_t set_key(const uint8_t *key, size_t length)
{
    return set_encrypting(key, length) + set_decrypting(key, length);
}

void round_keys(uint8_t *out)
{
    for (size_t i = 0; i < ROUND_KEYS; i++)
        out[i] = static_cast<uint8_t>(encryption.round_key_word(i / 4) >> 8 * (i % 4));
}

void encrypt_block(const uint8_t *block, uint8_t *out) { encryption.ProcessBlock(block, out); }

void decrypt_block(const uint8_t *block, uint8_t *out) { decryption.ProcessBlock(block, out); }

void encrypt_chain(const uint8_t *start, const uint8_t *text, size_t blocks, uint8_t *out)
{
    CBC_Mode_ExternalCipher::Encryption(encryption, start).ProcessData(out, text, blocks * BLOCK);
}

void decrypt_chain(const uint8_t *start, const uint8_t *cipher, size_t blocks, uint8_t *out)
{
    CBC_Mode_ExternalCipher::Decryption(decryption, start).ProcessData(out, cipher, blocks * BLOCK);
}

bool takes(size_t length)
{
    static const uint8_t key[32] = {};
    try {
        encryption.SetKey(key, length);
    } catch (const InvalidKeyLength &) {
        return false;
    }
    return true;
}

const char *left_out()
{
    for (size_t length = LEAST_KEY; length < 32; length++)
        if (!is_usual(length) && takes(length))
            return "other lengths than 16, 24 and 32";
    return "other lengths than 16, 24 and 32, which it refuses";
}

} // namespace

extern "C" const struct other other = {
    "crypto++",    version,       is_usual,      left_out,      set_key, set_encrypting, set_decrypting, round_keys,
    encrypt_block, decrypt_block, encrypt_chain, decrypt_chain, nullptr, nullptr,        nullptr,        nullptr,
};
