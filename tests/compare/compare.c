/*
 * Holds the archive against another Serpent: compare [--keys N] [--seed S].
 *
 * For each key: its round keys, one block each way, one chain each way, and where the other shows them a box and the
 * linear transform, each with its inverse. Keys have every length from 15 to 33 that the other is made for, and are
 * all zero, all one, a single bit at every place, then drawn. Compared are the number, the bytes of the answer and
 * every other byte of the room that the output buffer stands in. Buffers are at times too long, too short or empty. A
 * key with a difference is the last.
 */
#include <inttypes.h>
#include <stdio.h>
#include <string.h>

#include "barkmottle.h"
#include "drawn.h"
#include "options.h"
#include "other.h"

enum { MARGIN = 64, CHAIN = MOST_BLOCKS * BLOCK, ROOM = MARGIN + CHAIN + MARGIN };

static uint64_t state;
static uint8_t key[MOST_KEY];
static size_t key_length;
static uint32_t refusal; /* the number of the other's refusal of the key, or 0 */

static struct {
    unsigned long keys, refused, round_keys, single, chains, chained, steps, calls, different;
} count;

/* ---- One call ---- */

static uint8_t before[ROOM], room[ROOM];
static uint8_t *const out = room + MARGIN;
static size_t out_length;

/* A room with other bytes, and in it a buffer for an answer of this size: mostly long enough. */
static void make_room(size_t size)
{
    const size_t lengths[] = {0, size > 0 ? size - 1 : size, size + 1, size + MARGIN / 2, size, size, size, size};
    out_length = lengths[drawn(&state) % (sizeof lengths / sizeof *lengths)];
    memcpy(room, before, ROOM);
}

static void say_hex(const char *name, const uint8_t *bytes, size_t length)
{
    fprintf(stderr, "  %s ", name);
    for (size_t i = 0; i < length; i++)
        fprintf(stderr, "%02x", bytes[i]);
    fprintf(stderr, "\n");
}

static void say_difference(const char *what, uint32_t got, uint32_t wanted, size_t at)
{
    count.different++;
    fprintf(stderr, "different: %s, key of %zu bytes, buffer of %zu: number %" PRIu32 ", wanted %" PRIu32 "\n", what,
            key_length, out_length, got, wanted);
    if (at < ROOM)
        fprintf(stderr, "  the first byte that differs is byte %ld of the buffer\n", (long)at - MARGIN);
    say_hex("key", key, key_length);
}

/*
 * Holds what came of a call against the other: if it refused the key, so must the archive; else, with room for it, the
 * answer stands at the buffer's beginning. All else of the room is kept. Returns whether an answer was compared.
 */
static int held(const char *what, uint32_t got, const uint8_t *answer, size_t size)
{
    static uint8_t after[ROOM];
    const uint32_t wanted = refusal != 0 ? refusal : out_length < size ? BARKMOTTLE_OUT_SHORT : BARKMOTTLE_DONE;
    size_t at = 0;
    count.calls++;
    memcpy(after, before, ROOM);
    if (wanted == BARKMOTTLE_DONE)
        memcpy(after + MARGIN, answer, size);
    while (at < ROOM && memcmp(room + at, after + at, BLOCK) == 0)
        at += BLOCK;
    while (at < ROOM && room[at] == after[at])
        at++;
    if (got != wanted || at < ROOM)
        say_difference(what, got, wanted, at);
    return wanted == BARKMOTTLE_DONE;
}

/* ---- The operations ---- */

#define KEY key, key_length
#define OUT out, out_length

static void compare_round_keys(void)
{
    uint8_t answer[ROUND_KEYS];
    if (other.round_keys == NULL)
        return;
    if (refusal == 0)
        other.round_keys(answer);
    make_room(ROUND_KEYS);
    count.round_keys += held("round keys", barkmottle_new_from_slice(KEY, OUT), answer, ROUND_KEYS);
}

/* One way of a block: what the other makes of it, and the export that must make the same. */
static void compare_block(const char *what, other_block *of_other, __typeof__(barkmottle_encrypt_block) *of_archive,
                          const uint8_t *block)
{
    uint8_t answer[BLOCK];
    if (refusal == 0)
        of_other(block, answer);
    make_room(BLOCK);
    count.single += held(what, of_archive(KEY, block, BLOCK, OUT), answer, BLOCK);
}

static void compare_blocks(void)
{
    uint8_t block[BLOCK];
    draw_bytes(&state, block, BLOCK);
    compare_block("a block enciphered", other.encrypt_block, barkmottle_encrypt_block, block);
    compare_block("a block deciphered", other.decrypt_block, barkmottle_decrypt_block, block);
}

/* One way of a chain. */
static void compare_chain(const char *what, other_chain *of_other, __typeof__(barkmottle_encrypt_chain) *of_archive,
                          const uint8_t *start, const uint8_t *text, size_t blocks)
{
    static uint8_t answer[CHAIN];
    const size_t size = blocks * BLOCK;
    if (refusal == 0)
        of_other(start, text, blocks, answer);
    make_room(size);
    if (held(what, of_archive(KEY, text, size, start, BLOCK, OUT), answer, size)) {
        count.chains++;
        count.chained += blocks;
    }
}

static void compare_chains(size_t blocks)
{
    static uint8_t text[CHAIN];
    uint8_t start[BLOCK];
    draw_bytes(&state, start, BLOCK);
    draw_bytes(&state, text, blocks * BLOCK);
    compare_chain("a chain enciphered", other.encrypt_chain, barkmottle_encrypt_chain, start, text, blocks);
    compare_chain("a chain deciphered", other.decrypt_chain, barkmottle_decrypt_chain, start, text, blocks);
}

/* A box and the linear transform, which have no key. */
static void compare_steps(void)
{
    const size_t index = (size_t)drawn(&state);
    uint8_t words[BLOCK], answer[BLOCK];
    if (other.apply_s == NULL)
        return;
    draw_bytes(&state, words, BLOCK);
    refusal = 0;
    other.apply_s(index, words, answer);
    make_room(BLOCK);
    count.steps += held("a box", barkmottle_apply_s(index, words, BLOCK, OUT), answer, BLOCK);
    other.apply_s_inv(index, words, answer);
    make_room(BLOCK);
    count.steps += held("an inverse box", barkmottle_apply_s_inv(index, words, BLOCK, OUT), answer, BLOCK);
    other.linear_transform(words, answer);
    make_room(BLOCK);
    count.steps += held("the linear transform", barkmottle_linear_transform(words, BLOCK, OUT), answer, BLOCK);
    other.linear_transform_inv(words, answer);
    make_room(BLOCK);
    count.steps += held("the inverse transform", barkmottle_linear_transform_inv(words, BLOCK, OUT), answer, BLOCK);
}

/* ---- All keys ---- */

/* The keys of one length, by their number: all bits 0, all bits 1, each single bit, and from then on drawn ones. */
static void make_key(size_t length, size_t number)
{
    memset(key, number == 1 ? 0xff : 0, length);
    if (number >= 2 + 8 * length)
        draw_bytes(&state, key, length);
    else if (number >= 2)
        key[(number - 2) / 8] = (uint8_t)(1u << (number - 2) % 8);
}

static void compare_key(size_t length, size_t number)
{
    key_length = length;
    make_key(length, number);
    draw_bytes(&state, before, ROOM);
    refusal = other.set_key(key, key_length);
    count.keys++;
    count.refused += refusal != 0;
    compare_round_keys();
    compare_blocks();
    compare_chains(number % (MOST_BLOCKS + 1));
    compare_steps();
}

int main(int argument_count, char **arguments)
{
    struct option options[] = {{"--keys", 5000, 0}, {"--seed", 1, 0}};
    size_t lengths[MOST_KEY + 1], kinds = 0;
    read_options(argument_count, arguments, options, 2);
    const uint64_t keys = options[0].number, seed = options[1].number;
    state = seed;
    printf("compare: with %s %s, seed %" PRIu64 "\n", other.name, other.version(), seed);
    if (other.left_out != NULL)
        printf("compare: left out: keys of %s\n", other.left_out());
    for (size_t length = LEAST_KEY; length <= MOST_KEY; length++)
        if (other.made_for(length))
            lengths[kinds++] = length;
    for (uint64_t i = 0; i < keys && count.different == 0; i++)
        compare_key(lengths[i % kinds], i / kinds);
    printf("compare: %lu keys of %zu lengths from %zu to %zu, %lu of them refused; %lu sets of round keys, %lu single "
           "blocks, %lu blocks in %lu chains, %lu boxes and transforms; %lu calls, %lu different\n",
           count.keys, kinds, lengths[0], lengths[kinds - 1], count.refused, count.round_keys, count.single,
           count.chained, count.chains, count.steps, count.calls, count.different);
    return count.different == 0 ? 0 : 1;
}
