/*
 * Serpent and its chain, written for the tests from the paper's tables, nibble by nibble: slow, and nothing in
 * it is shared with the library. The tests hold both to published vectors.
 */
#ifndef MODEL_H
#define MODEL_H

#include <stddef.h>
#include <stdint.h>
#include <string.h>

static const uint8_t model_boxes[8][16] = {
    {3, 8, 15, 1, 10, 6, 5, 11, 14, 13, 4, 2, 7, 0, 9, 12},
    {15, 12, 2, 7, 9, 0, 5, 10, 1, 11, 14, 8, 6, 13, 3, 4},
    {8, 6, 7, 9, 3, 12, 10, 15, 13, 1, 14, 4, 0, 11, 5, 2},
    {0, 15, 11, 8, 12, 9, 6, 3, 13, 1, 2, 4, 10, 7, 5, 14},
    {1, 15, 8, 3, 12, 0, 11, 6, 2, 5, 4, 10, 9, 14, 7, 13},
    {15, 5, 2, 11, 4, 10, 9, 12, 0, 3, 14, 8, 13, 6, 7, 1},
    {7, 2, 12, 5, 8, 4, 6, 11, 14, 9, 1, 15, 13, 3, 10, 0},
    {1, 13, 15, 0, 14, 8, 2, 11, 7, 4, 12, 10, 9, 3, 5, 6},
};

static uint32_t model_rotate(uint32_t word, int by)
{
    return word << by | word >> (32 - by);
}

static void model_read(const uint8_t *bytes, uint32_t *words, int count)
{
    for (int i = 0; i < count; i++)
        words[i] = bytes[4 * i] | (uint32_t)bytes[4 * i + 1] << 8 | (uint32_t)bytes[4 * i + 2] << 16 |
                   (uint32_t)bytes[4 * i + 3] << 24;
}

static void model_write(const uint32_t *words, uint8_t *bytes, int count)
{
    for (int i = 0; i < 4 * count; i++)
        bytes[i] = (uint8_t)(words[i / 4] >> 8 * (i % 4));
}

static void model_box(int box, uint32_t *x)
{
    uint32_t y[4] = {0, 0, 0, 0};
    for (int j = 0; j < 32; j++) {
        int nibble = 0;
        for (int i = 0; i < 4; i++)
            nibble |= (int)(x[i] >> j & 1) << i;
        for (int i = 0; i < 4; i++)
            y[i] |= (uint32_t)(model_boxes[box][nibble] >> i & 1) << j;
    }
    memcpy(x, y, sizeof y);
}

static void model_linear(uint32_t *x)
{
    x[0] = model_rotate(x[0], 13);
    x[2] = model_rotate(x[2], 3);
    x[1] ^= x[0] ^ x[2];
    x[3] ^= x[2] ^ x[0] << 3;
    x[1] = model_rotate(x[1], 1);
    x[3] = model_rotate(x[3], 7);
    x[0] ^= x[1] ^ x[3];
    x[2] ^= x[3] ^ x[1] << 7;
    x[0] = model_rotate(x[0], 5);
    x[2] = model_rotate(x[2], 22);
}

static void model_pad(const uint8_t *key, size_t length, uint8_t *padded)
{
    memset(padded, 0, 32);
    memcpy(padded, key, length);
    if (length < 32)
        padded[length] = 1;
}

static void model_keys(const uint8_t *key, size_t length, uint32_t *keys)
{
    uint8_t padded[32];
    uint32_t w[140];
    model_pad(key, length, padded);
    model_read(padded, w, 8);
    for (uint32_t i = 0; i < 132; i++)
        w[i + 8] = model_rotate(w[i] ^ w[i + 3] ^ w[i + 5] ^ w[i + 7] ^ 0x9e3779b9u ^ i, 11);
    memcpy(keys, w + 8, 132 * sizeof *keys);
    for (int i = 0; i < 33; i++)
        model_box((35 - i) % 8, keys + 4 * i);
}

static void model_block(const uint32_t *keys, const uint8_t *text, uint8_t *cipher)
{
    uint32_t x[4];
    model_read(text, x, 4);
    for (int round = 0; round < 32; round++) {
        for (int i = 0; i < 4; i++)
            x[i] ^= keys[4 * round + i];
        model_box(round % 8, x);
        if (round < 31)
            model_linear(x);
    }
    for (int i = 0; i < 4; i++)
        x[i] ^= keys[128 + i];
    model_write(x, cipher, 4);
}

static void model_chain(const uint8_t *key, size_t key_length, const uint8_t *text, size_t text_length,
                        const uint8_t *start, uint8_t *cipher)
{
    uint32_t keys[132];
    model_keys(key, key_length, keys);
    for (size_t at = 0; at < text_length; at += 16) {
        uint8_t mixed[16];
        for (size_t i = 0; i < 16; i++)
            mixed[i] = text[at + i] ^ (at == 0 ? start : cipher + at - 16)[i];
        model_block(keys, mixed, cipher + at);
    }
}

/* ---- The way back, step by step the other way round ---- */

static inline void model_box_back(int box, uint32_t *x)
{
    uint32_t y[4] = {0, 0, 0, 0};
    for (int j = 0; j < 32; j++) {
        int nibble = 0, from = 0;
        for (int i = 0; i < 4; i++)
            nibble |= (int)(x[i] >> j & 1) << i;
        while (model_boxes[box][from] != nibble)
            from++;
        for (int i = 0; i < 4; i++)
            y[i] |= (uint32_t)(from >> i & 1) << j;
    }
    memcpy(x, y, sizeof y);
}

static inline void model_linear_back(uint32_t *x)
{
    x[2] = model_rotate(x[2], 32 - 22);
    x[0] = model_rotate(x[0], 32 - 5);
    x[2] ^= x[3] ^ x[1] << 7;
    x[0] ^= x[1] ^ x[3];
    x[3] = model_rotate(x[3], 32 - 7);
    x[1] = model_rotate(x[1], 32 - 1);
    x[3] ^= x[2] ^ x[0] << 3;
    x[1] ^= x[0] ^ x[2];
    x[2] = model_rotate(x[2], 32 - 3);
    x[0] = model_rotate(x[0], 32 - 13);
}

static inline void model_block_back(const uint32_t *keys, const uint8_t *cipher, uint8_t *text)
{
    uint32_t x[4];
    model_read(cipher, x, 4);
    for (int i = 0; i < 4; i++)
        x[i] ^= keys[128 + i];
    for (int round = 31; round >= 0; round--) {
        if (round < 31)
            model_linear_back(x);
        model_box_back(round % 8, x);
        for (int i = 0; i < 4; i++)
            x[i] ^= keys[4 * round + i];
    }
    model_write(x, text, 4);
}

#endif
