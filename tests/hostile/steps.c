/* Keys, boxes, the linear transform, single blocks and chains: each against its inverse and against its parts. */
#include <string.h>

#include "hostile.h"

void exclusive_or(const uint8_t *a, const uint8_t *b, uint8_t *result)
{
    for (int i = 0; i < BLOCK; i++)
        result[i] = a[i] ^ b[i];
}

/* ---- Keys ---- */

static const uint8_t *round_keys(struct decisions *d, struct slice key, size_t out, const uint8_t *due_bytes)
{
    const struct call *call = CALL(.export = e_new_from_slice, .in = {key}, .out = out);
    struct due due = law(call);
    due.bytes = due_bytes;
    due.why = "as the padded key's round keys have it";
    return ask(d, call, due);
}

void try_keys(struct decisions *d)
{
    uint8_t key[LONGEST_SHORT], padded[BARKMOTTLE_PADDED_KEY], rounds[BARKMOTTLE_ROUND_KEYS] = {0};
    const struct slice all = S(key, any_key_length(d));
    fill(d, key, all.length);
    const struct call *expand = CALL(.export = e_expand_key, .in = {all}, .out = near_answer(d, sizeof padded));
    struct due due = law(expand);
    if (key_number(all.length) == 0) {
        pad_key(all, padded);
        due.bytes = padded;
        due.why = "as the plain padding has it";
        memcpy(rounds, round_keys(d, S(padded, sizeof padded), sizeof rounds, NULL), sizeof rounds);
    }
    ask(d, expand, due);
    round_keys(d, all, near_answer(d, sizeof rounds), rounds);
}

/* ---- Boxes and the linear transform ---- */

/* Asks for 16 bytes of 16 bytes, which are known where due_bytes is not null. */
static void of_words(struct decisions *d, enum export export, size_t index, const uint8_t *words,
                     const uint8_t *due_bytes, const char *why)
{
    const struct call *call = CALL(.export = export, .number = {index}, .in = {S(words, BLOCK)}, .out = BLOCK);
    ask(d, call, (struct due){.length = BLOCK, .bytes = due_bytes, .why = why});
}

void try_words(struct decisions *d)
{
    static const enum export both[][2] = {{e_apply_s, e_apply_s_inv},
                                          {e_apply_s_inv, e_apply_s},
                                          {e_linear_transform, e_linear_transform_inv},
                                          {e_linear_transform_inv, e_linear_transform}};
    uint8_t words[LONGEST_SHORT], made[BLOCK];
    const enum export *way = both[below(d, 4)];
    const size_t index = any_index(d), length = near_block(d);
    fill(d, words, length);
    const struct call *call =
        CALL(.export = way[0], .number = {index}, .in = {S(words, length)}, .out = near_answer(d, BLOCK));
    const struct due due = law(call);
    const uint8_t *answer = ask(d, call, due);
    if (due.value != 0)
        return;
    memcpy(made, answer, BLOCK);
    of_words(d, way[1], index, made, words, "as the inverse should give it back");
    if (way[0] == e_apply_s || way[0] == e_apply_s_inv)
        of_words(d, way[0], index % 8, words, made, "as the index that is not reduced gave it");
}

/* ---- Blocks ---- */

static enum export other_way(enum export export)
{
    switch (export) {
    case e_encrypt_block:
        return e_decrypt_block;
    case e_decrypt_block:
        return e_encrypt_block;
    case e_encrypt_chain:
        return e_decrypt_chain;
    default:
        return e_encrypt_chain;
    }
}

void try_blocks(struct decisions *d)
{
    uint8_t key[LONGEST_SHORT], block[LONGEST_SHORT], made[BLOCK];
    const enum export way = below(d, 2) == 0 ? e_encrypt_block : e_decrypt_block;
    const struct slice by = S(key, any_key_length(d)), of = S(block, near_block(d));
    fill(d, key, by.length);
    fill(d, block, of.length);
    const struct call *call = CALL(.export = way, .in = {by, of}, .out = near_answer(d, BLOCK));
    const struct due due = law(call);
    const uint8_t *answer = ask(d, call, due);
    if (due.value != 0)
        return;
    memcpy(made, answer, BLOCK);
    ask(d, CALL(.export = other_way(way), .in = {by, S(made, BLOCK)}, .out = BLOCK),
        (struct due){.length = BLOCK, .bytes = block, .why = "as the inverse should give it back"});
}

/* ---- Chains ---- */

/* One block of a chain is the single block, with the exclusive or of the cipher block before it. */
static void check_link(struct decisions *d, struct slice key, const uint8_t *text, const uint8_t *cipher,
                       const uint8_t *before)
{
    uint8_t mixed[BLOCK];
    const char *why = "as the chain has it";
    exclusive_or(text, before, mixed);
    ask(d, CALL(.export = e_encrypt_block, .in = {key, S(mixed, BLOCK)}, .out = BLOCK),
        (struct due){.length = BLOCK, .bytes = cipher, .why = why});
    ask(d, CALL(.export = e_decrypt_block, .in = {key, S(cipher, BLOCK)}, .out = BLOCK),
        (struct due){.length = BLOCK, .bytes = mixed, .why = why});
}

/* The blocks that are looked at: all of a short chain, and of a long one the first, the last and two others. */
static size_t chosen(struct decisions *d, size_t i, size_t blocks)
{
    if (blocks <= 4 || i == 0)
        return i;
    return i == 1 ? blocks - 1 : below(d, blocks);
}

static void check_links(struct decisions *d, struct slice key, const uint8_t *texts, const uint8_t *ciphers,
                        size_t blocks, const uint8_t *start)
{
    for (size_t i = 0; i < blocks && i < 4; i++) {
        const size_t at = chosen(d, i, blocks);
        const uint8_t *before = at == 0 ? start : ciphers + (at - 1) * BLOCK;
        check_link(d, key, texts + at * BLOCK, ciphers + at * BLOCK, before);
    }
}

void try_chains(struct decisions *d)
{
    static uint8_t bytes[(MOST + 1) * BLOCK + 1], made[MOST * BLOCK];
    uint8_t key[LONGEST_SHORT], start[LONGEST_SHORT];
    const enum export way = below(d, 2) == 0 ? e_decrypt_chain : e_encrypt_chain;
    const struct slice by = S(key, any_key_length(d)), of = S(bytes, near_blocks(d)), from = S(start, near_block(d));
    fill(d, key, by.length);
    fill(d, bytes, of.length);
    fill(d, start, from.length);
    const struct call *call = CALL(.export = way, .in = {by, of, from}, .out = near_answer(d, of.length));
    const struct due due = law(call);
    const uint8_t *answer = ask(d, call, due);
    if (due.value != 0)
        return;
    memcpy(made, answer, of.length);
    ask(d, CALL(.export = other_way(way), .in = {by, S(made, of.length), from}, .out = of.length),
        (struct due){.length = of.length, .bytes = bytes, .why = "as the other way should give it back"});
    const int deciphered = way == e_decrypt_chain;
    check_links(d, by, deciphered ? made : bytes, deciphered ? bytes : made, of.length / BLOCK, start);
}
