/*
 * Calls every export from C: every number in its order of tests, both sides of each boundary, and known answers.
 *
 * Each slice that is lent stands between two inaccessible pages. Each call is made flush against the page behind
 * and again flush against the page before, and with a null pointer for each slice that is empty. What is only read
 * is lent by pages that cannot be written, so that a write to it ends the program, and is compared too, in case it was
 * reached by another way. Output buffers are compared whole.
 * Slices of more than 4 GiB, of which only the beginning can be touched, show that no length is cut to 32 bits.
 *
 * exports --self-test and tests/wrong/exports/ show that these checks can fail.
 */
#define _GNU_SOURCE
#include <signal.h>
#include <stdio.h>
#include <stdlib.h>
#include <string.h>
#include <sys/wait.h>
#include <unistd.h>

#include "exports.h"
#include "model.h"
#include "rooms.h"

/* A call and what is expected of it: the value returned, and the bytes at the beginning of the output buffer. */
struct call {
    enum export export;
    struct slice in[3];
    size_t number[2];
    size_t out;
    int64_t want;
    const uint8_t *answer;
    size_t length;
    size_t longer[ROOMS];                 /* by how much a slice is longer than the bytes that are there */
    int64_t (*fake)(const struct lent *); /* called in place of the export, by the self-test */
};

/* ---- One expectation ---- */

enum { TOUCHED = 3 }; /* the status after a touch */
static unsigned long calls, checks, wrong;
static unsigned seen_numbers[COUNT], seen_nulls[COUNT];
static int quiet;
static const char *current = "nothing";
static enum pass current_pass;

static void check(int good, const char *what, long long got, long long want)
{
    checks++;
    if (good)
        return;
    wrong++;
    if (!quiet)
        fprintf(stderr, "wrong: %s, %s: %s: %lld in place of %lld\n", current, pass_names[current_pass], what, got,
                want);
}

static void touched(int signal, siginfo_t *about, void *context)
{
    (void)signal, (void)about, (void)context;
    if (!quiet)
        fprintf(stderr, "wrong: %s, %s: memory was touched that was not lent so\n", current, pass_names[current_pass]);
    _exit(TOUCHED);
}

static void lend(const struct call *call, enum pass pass, struct lent *lent)
{
    for (int i = 0; i < 3; i++) {
        lent->in_length[i] = call->in[i].length + call->longer[i];
        lent->in[i] = lend_bytes(i, call->in[i].bytes, call->in[i].length, pass);
    }
    for (size_t at = 0; at < room_size; at++)
        rooms[OUT_ROOM].own[at] = filler(at);
    lent->out_length = call->out + call->longer[OUT_ROOM];
    lent->out = lend_room(OUT_ROOM, call->out, pass);
    memcpy(lent->number, call->number, sizeof lent->number);
}

/* The place in the output's room of the first byte that is not as expected, or room_size. */
static size_t first_wrong(const struct call *call, enum pass pass)
{
    size_t begin = place_in_room(call->out, pass);
    for (size_t at = 0; at < room_size; at++) {
        int answered = at >= begin && at - begin < call->length;
        if (rooms[OUT_ROOM].own[at] != (answered ? call->answer[at - begin] : filler(at)))
            return at;
    }
    return room_size;
}

static void run(const struct call *call, enum pass pass)
{
    struct lent lent;
    current_pass = pass;
    lend(call, pass, &lent);
    int64_t got = call->fake != NULL ? call->fake(&lent) : invoke(call->export, &lent);
    calls++;
    check(got == call->want, "returned", got, call->want);
    size_t at = first_wrong(call, pass);
    check(at == room_size, "first wrong place of the output's room", (long long)at, (long long)room_size);
    for (int i = 0; i < exports[call->export].inputs; i++)
        check(call->in[i].length == 0 || memcmp(lent.in[i], call->in[i].bytes, call->in[i].length) == 0,
              "an input that is kept", 0, 1);
}

/* What an input gives that is longer by 2^32 than one that is taken. */
static int64_t too_long(enum export export, int input)
{
    static const uint32_t of_chain[] = {1, 4, 3};
    if (exports[export].numbers == 0)
        return 0; /* a field of a refusal */
    if (export <= e_new_from_slice)
        return 1;
    if (export == e_encrypt_chain || export == e_decrypt_chain)
        return of_chain[input];
    if (export == e_open_frame || export == e_frame_start)
        return 6;
    if (export == e_read_window || export == e_search)
        return input == 0 ? 1 : 6;
    return export <= e_linear_transform_inv || export == e_read_event || input == 1 ? 2 : 1;
}

/* Of a call that is done, or that gives a field other than 0, each slice in turn is made longer: an input is refused,
 * and a longer buffer gets the same answer. */
static void lengthen(const struct call *done)
{
    for (int i = 0; i < exports[done->export].inputs; i++) {
        struct call call = *done;
        call.longer[i] = long_by;
        call.want = too_long(done->export, i);
        call.length = 0;
        run(&call, BEHIND);
    }
    if (exports[done->export].writes) {
        struct call call = *done;
        call.longer[OUT_ROOM] = long_by - call.out; /* its low 32 bits are 0 */
        run(&call, BEHIND);
    }
}

static void expect(const struct call *call)
{
    unsigned nulls = 0;
    current = call->fake != NULL ? "self-test" : exports[call->export].name;
    for (int i = 0; i < exports[call->export].inputs; i++)
        nulls |= call->in[i].length == 0 ? N(i) : 0;
    nulls |= exports[call->export].writes && call->out == 0 ? N(OUT_ROOM) : 0;
    run(call, BEHIND);
    run(call, BEFORE);
    if (nulls != 0)
        run(call, NULLS);
    if (call->fake == NULL && (call->want == 0) == (exports[call->export].numbers != 0))
        lengthen(call);
    seen_nulls[call->export] |= nulls;
    if (exports[call->export].numbers != 0 && call->want < 32)
        seen_numbers[call->export] |= N(call->want);
}

#define EXPECT(...) expect(&(struct call){__VA_ARGS__})
#define S(bytes, length) ((struct slice){bytes, length})

/* Every number of every order was expected once at least, and every slice was once a null pointer. */
static void check_coverage(void)
{
    for (int i = 0; i < COUNT; i++) {
        unsigned nulls = N(exports[i].inputs) - 1;
        nulls |= exports[i].writes ? N(OUT_ROOM) : 0;
        current = exports[i].name;
        check(seen_numbers[i] == exports[i].numbers, "numbers seen, as bits", seen_numbers[i], exports[i].numbers);
        check(seen_nulls[i] == nulls, "null slices seen, as bits", seen_nulls[i], nulls);
    }
}

/* ---- Bytes to work with ---- */

static uint8_t noise[HEADER + (MOST + 1) * BLOCK + 1]; /* varied bytes */
static const uint8_t zeros[BLOCK * 2];

static void make_noise(void)
{
    uint32_t state = 2463534242u;
    for (size_t i = 0; i < sizeof noise; i++) {
        state ^= state << 13;
        state ^= state >> 17;
        state ^= state << 5;
        noise[i] = (uint8_t)(state >> 24);
    }
}

static void from_hex(const char *text, uint8_t *bytes, size_t length)
{
    for (size_t i = 0; i < length; i++) {
        unsigned byte;
        if (sscanf(text + 2 * i, "%2x", &byte) != 1)
            abort();
        bytes[i] = (uint8_t)byte;
    }
}

/* ---- Keys ---- */

/* The lengths around both boundaries; a bad key is found before a short buffer. */
static void key_refusals(enum export export, size_t size)
{
    static const size_t bad[] = {0, 1, 15, 33, 64};
    for (size_t i = 0; i < sizeof bad / sizeof *bad; i++) {
        EXPECT(.export = export, .in = {S(noise, bad[i])}, .out = size, .want = 1);
        EXPECT(.export = export, .in = {S(noise, bad[i])}, .out = 0, .want = 1);
    }
    EXPECT(.export = export, .in = {S(noise, 16)}, .out = size - 1, .want = 5);
    EXPECT(.export = export, .in = {S(noise, 32)}, .out = 0, .want = 5);
}

static void padded(const uint8_t *key, size_t length, const uint8_t *answer)
{
    EXPECT(.export = e_expand_key, .in = {S(key, length)}, .out = 32, .answer = answer, .length = 32);
    EXPECT(.export = e_expand_key, .in = {S(key, length)}, .out = 40, .answer = answer, .length = 32);
}

static void scheduled(const uint8_t *key, size_t length)
{
    uint32_t words[132];
    uint8_t answer[BARKMOTTLE_ROUND_KEYS];
    model_keys(key, length, words);
    model_write(words, answer, 132);
    EXPECT(.export = e_new_from_slice, .in = {S(key, length)}, .out = 528, .answer = answer, .length = 528);
    EXPECT(.export = e_new_from_slice, .in = {S(key, length)}, .out = 600, .answer = answer, .length = 528);
}

static void test_keys(void)
{
    uint8_t answer[BARKMOTTLE_PADDED_KEY], marked[32] = {0};
    key_refusals(e_expand_key, BARKMOTTLE_PADDED_KEY);
    key_refusals(e_new_from_slice, BARKMOTTLE_ROUND_KEYS);
    for (size_t length = 16; length <= 32; length++) {
        model_pad(noise, length, answer);
        padded(noise, length, answer);
        scheduled(noise, length);
    }
    marked[16] = 1;
    padded(zeros, 16, marked);
    padded(zeros, 32, zeros);
    /* 31 bytes, and the same followed by 0x01, are one padded key. */
    memset(marked, 0, sizeof marked);
    marked[31] = 1;
    padded(zeros, 31, marked);
    padded(marked, 32, marked);
}

/* ---- Boxes and the linear transform ---- */

/* Number 8 is never given: a box number reduced by 8 is at most 7. */
static void word_refusals(enum export export, size_t index)
{
    static const size_t bad[] = {0, 15, 17, 32};
    for (size_t i = 0; i < sizeof bad / sizeof *bad; i++) {
        EXPECT(.export = export, .number = {index}, .in = {S(noise, bad[i])}, .out = 16, .want = 2);
        EXPECT(.export = export, .number = {index}, .in = {S(noise, bad[i])}, .out = 0, .want = 2);
    }
    EXPECT(.export = export, .number = {index}, .in = {S(noise, 16)}, .out = 15, .want = 5);
    EXPECT(.export = export, .number = {index}, .in = {S(noise, 16)}, .out = 0, .want = 5);
}

/* One makes `after` of `before`, its inverse makes `before` of `after`. */
static void both_ways(enum export there, enum export back, size_t index, const uint8_t *before, const uint8_t *after)
{
    for (size_t out = 16; out <= 19; out += 3) {
        EXPECT(.export = there, .number = {index}, .in = {S(before, 16)}, .out = out, .answer = after, .length = 16);
        EXPECT(.export = back, .number = {index}, .in = {S(after, 16)}, .out = out, .answer = before, .length = 16);
    }
}

static void boxed(size_t index, const uint8_t *before)
{
    uint32_t words[4];
    uint8_t after[16];
    model_read(before, words, 4);
    model_box((int)(index % 8), words);
    model_write(words, after, 4);
    both_ways(e_apply_s, e_apply_s_inv, index, before, after);
}

static void transformed(const char *before_words, const char *after_words)
{
    uint32_t words[4];
    uint8_t before[16], after[16];
    sscanf(before_words, "%x %x %x %x", &words[0], &words[1], &words[2], &words[3]);
    model_write(words, before, 4);
    sscanf(after_words, "%x %x %x %x", &words[0], &words[1], &words[2], &words[3]);
    model_write(words, after, 4);
    both_ways(e_linear_transform, e_linear_transform_inv, 0, before, after);
}

static void test_words(void)
{
    static const size_t high[] = {255, 256, (size_t)1 << 32, SIZE_MAX - 7, SIZE_MAX};
    uint8_t half[16] = {0};
    uint32_t words[4];
    memset(half, 0xff, 8);
    both_ways(e_apply_s, e_apply_s_inv, 0, zeros, half);  /* box 0 on zero words: ones, ones, zeros, zeros */
    both_ways(e_apply_s, e_apply_s_inv, 3, zeros, zeros); /* box 3 on zero words: zeros */
    for (size_t index = 0; index < 18; index++)
        boxed(index, noise + index);
    for (size_t i = 0; i < sizeof high / sizeof *high; i++) {
        boxed(high[i], noise + i);
        word_refusals(e_apply_s, high[i]);
        word_refusals(e_apply_s_inv, high[i]);
    }
    transformed("1 0 0 0", "100c0000 4000 2800 800000");
    transformed("40000 0 0 0", "30 1 20000000 0"); /* a bit is dropped */
    for (int i = 0; i < 8; i++) {
        model_read(noise + i, words, 4);
        model_linear(words);
        model_write(words, half, 4);
        both_ways(e_linear_transform, e_linear_transform_inv, 0, noise + i, half);
    }
    word_refusals(e_linear_transform, 0);
    word_refusals(e_linear_transform_inv, 0);
}

/* ---- Blocks ---- */

static void block_refusals(enum export export)
{
    static const size_t bad_keys[] = {0, 15, 33}, bad_blocks[] = {0, 15, 17, 32};
    for (size_t i = 0; i < 3; i++) {
        EXPECT(.export = export, .in = {S(noise, bad_keys[i]), S(noise, 16)}, .out = 16, .want = 1);
        EXPECT(.export = export, .in = {S(noise, bad_keys[i]), S(noise, 15)}, .out = 0, .want = 1);
    }
    for (size_t i = 0; i < 4; i++) {
        EXPECT(.export = export, .in = {S(noise, 16), S(noise, bad_blocks[i])}, .out = 16, .want = 2);
        EXPECT(.export = export, .in = {S(noise, 32), S(noise, bad_blocks[i])}, .out = 0, .want = 2);
    }
    EXPECT(.export = export, .in = {S(noise, 16), S(noise, 16)}, .out = 15, .want = 5);
    EXPECT(.export = export, .in = {S(noise, 32), S(noise, 16)}, .out = 0, .want = 5);
}

static void enciphered(const uint8_t *key, size_t key_length, const uint8_t *text, const uint8_t *cipher)
{
    for (size_t out = 16; out <= 21; out += 5) {
        EXPECT(.export = e_encrypt_block, .in = {S(key, key_length), S(text, 16)}, .out = out, .answer = cipher,
               .length = 16);
        EXPECT(.export = e_decrypt_block, .in = {S(key, key_length), S(cipher, 16)}, .out = out, .answer = text,
               .length = 16);
    }
}

/* Known answers also hold the model to the published sets. */
static void block_vector(const char *key_hex, const char *text_hex, const char *cipher_hex)
{
    uint8_t key[32], text[16], cipher[16], modelled[16];
    uint32_t keys[132];
    size_t key_length = strlen(key_hex) / 2;
    from_hex(key_hex, key, key_length);
    from_hex(text_hex, text, 16);
    from_hex(cipher_hex, cipher, 16);
    enciphered(key, key_length, text, cipher);
    model_keys(key, key_length, keys);
    model_block(keys, text, modelled);
    check(memcmp(cipher, modelled, 16) == 0, "the model's block is the published one", 0, 1);
}

#define ZERO_BLOCK "00000000000000000000000000000000"

static void test_blocks(void)
{
    block_refusals(e_encrypt_block);
    block_refusals(e_decrypt_block);
    /* NESSIE, set 1, vector 0 for 128, 192 and 256 bits, as in crates/check_data/data/ecb-botan.txt. */
    block_vector("80000000000000000000000000000000", ZERO_BLOCK, "264e5481eff42a4606abda06c0bfda3d");
    block_vector("800000000000000000000000000000000000000000000000", ZERO_BLOCK, "9e274ead9b737bb21efcfca548602689");
    block_vector("8000000000000000000000000000000000000000000000000000000000000000", ZERO_BLOCK,
                 "a223aa1288463c0e2be38ebd825616c0");
    for (size_t length = 16; length <= 32; length++) {
        uint32_t keys[132];
        uint8_t cipher[16];
        model_keys(noise, length, keys);
        model_block(keys, noise + length, cipher);
        enciphered(noise, length, noise + length, cipher);
    }
}

/* ---- Chains ---- */

static void chained(const uint8_t *key, size_t key_length, const uint8_t *text, size_t length, const uint8_t *start,
                    const uint8_t *cipher)
{
    for (size_t more = 0; more <= 5; more += 5) {
        EXPECT(.export = e_encrypt_chain, .in = {S(key, key_length), S(text, length), S(start, 16)},
               .out = length + more, .answer = cipher, .length = length);
        EXPECT(.export = e_decrypt_chain, .in = {S(key, key_length), S(cipher, length), S(start, 16)},
               .out = length + more, .answer = text, .length = length);
    }
}

static void chain_refusals(enum export export)
{
    const size_t limit = MOST * BLOCK, over = limit + BLOCK;
    /* key, text, start and output lengths, and the number: the earlier fault wins. */
    const size_t rows[][5] = {
        {0, 32, 16, 32, 1},           {15, 32, 16, 32, 1},      {33, 32, 16, 32, 1},        {15, 17, 15, 0, 1},
        {33, over + 1, 17, 0, 1},     {15, over, 16, 0, 1},     {33, 0, 0, 0, 1},           {15, 0, 15, 0, 1},
        {16, 15, 16, 32, 2},          {16, 17, 16, 32, 2},      {32, 1, 16, 32, 2},         {16, 17, 15, 0, 2},
        {16, over + 1, 16, over, 2},  {16, over + 1, 0, 0, 2},  {16, limit - 1, 16, 0, 2},  {16, limit + 1, 16, 0, 2},
        {16, 32, 0, 32, 3},           {16, 32, 15, 32, 3},      {16, 32, 17, 32, 3},        {32, 32, 32, 32, 3},
        {16, 0, 15, 0, 3},            {16, over, 15, over, 3},  {16, over, 17, 0, 3},       {16, 32, 15, 31, 3},
        {16, over, 16, over, 4},      {16, over, 16, 0, 4},     {32, over, 16, limit, 4},   {16, over, 16, over - 1, 4},
        {16, limit, 16, limit - 1, 5}, {16, 16, 16, 15, 5},     {16, 32, 16, 31, 5},        {32, 32, 16, 16, 5},
        {16, 16, 16, 0, 5},
    };
    for (size_t i = 0; i < sizeof rows / sizeof *rows; i++)
        EXPECT(.export = export, .in = {S(noise, rows[i][0]), S(noise, rows[i][1]), S(noise, rows[i][2])},
               .out = rows[i][3], .want = (int64_t)rows[i][4]);
}

static void test_chains(void)
{
    static const size_t blocks[] = {0, 1, 2, 3, MOST - 1, MOST};
    static uint8_t cipher[MOST * BLOCK];
    uint8_t key[16], start[16], text[64], published[64];
    chain_refusals(e_encrypt_chain);
    chain_refusals(e_decrypt_chain);
    /* cryptsetup's vector on the key, start and text of SP 800-38A: crates/check_data/data/cbc-cryptsetup.txt. */
    from_hex("2b7e151628aed2a6abf7158809cf4f3c", key, 16);
    from_hex("000102030405060708090a0b0c0d0e0f", start, 16);
    from_hex("6bc1bee22e409f96e93d7e117393172aae2d8a571e03ac9c9eb76fac45af8e51"
             "30c81c46a35ce411e5fbc1191a0a52eff69f2445df4f9b17ad2b417be66c3710", text, 64);
    from_hex("dd73691ab566b638e3b96236c8c8a1dda9b5d9db20fb8b825140bfe64df21ca8"
             "5f48bc29ff6227da097caa22756f43ff31d83e834d9248eb491cf826804eb902", published, 64);
    chained(key, 16, text, 64, start, published);
    for (size_t i = 0; i < sizeof blocks / sizeof *blocks; i++) {
        model_chain(noise, 16 + i, noise, blocks[i] * BLOCK, noise + 100, cipher);
        chained(noise, 16 + i, noise, blocks[i] * BLOCK, noise + 100, cipher);
    }
}

/* ---- Frames ---- */

static uint8_t frame[sizeof noise];

/* Makes a frame of this many bytes with any length field and version; the rest is noise. */
static void head(size_t length, uint32_t field, uint8_t version)
{
    const uint8_t header[5] = {(uint8_t)(field >> 24), (uint8_t)(field >> 16), (uint8_t)(field >> 8), (uint8_t)field,
                               version};
    memcpy(frame, noise, length);
    memcpy(frame, header, length < 5 ? length : 5);
}

static void opened(size_t length, uint32_t number)
{
    const struct slice all = S(frame, length);
    const int done = number == 0;
    EXPECT(.export = e_open_frame, .in = {all}, .want = number);
    for (size_t out = 16; out <= 25; out += 9)
        EXPECT(.export = e_frame_start, .in = {all}, .out = out, .want = number, .answer = frame + 5,
               .length = done ? 16 : 0);
    EXPECT(.export = e_frame_start, .in = {all}, .out = 15, .want = done ? 5 : number);
    EXPECT(.export = e_frame_start, .in = {all}, .out = 0, .want = done ? 5 : number);
    EXPECT(.export = e_frame_place, .in = {all}, .want = done ? HEADER : 0);
    EXPECT(.export = e_frame_length, .in = {all}, .want = done ? (int64_t)(length - HEADER) : 0);
}

static const struct fields no_fields;

static void searched(struct slice key, struct slice all, size_t place, uint32_t number, size_t found, size_t tries,
                     const struct fields *fields)
{
    EXPECT(.export = e_search, .in = {key, all}, .number = {place}, .want = number);
    EXPECT(.export = e_search_place, .in = {key, all}, .number = {place}, .want = (int64_t)found);
    EXPECT(.export = e_search_tries, .in = {key, all}, .number = {place}, .want = (int64_t)tries);
    for (int i = 0; i < 8; i++)
        EXPECT(.export = (enum export)(e_search_wall + i), .in = {key, all}, .number = {place}, .want = fields->of[i]);
}

static void windowed(size_t key, struct slice all, size_t place, size_t count, size_t out, uint32_t number)
{
    EXPECT(.export = e_read_window, .in = {S(noise, key), all}, .number = {place, count}, .out = out, .want = number);
}

/* Every operation on a frame that does not open; a bad key comes first, a bad place or buffer after it. */
static void refused(size_t length, uint32_t number)
{
    const struct slice all = S(frame, length);
    opened(length, number);
    windowed(16, all, 0, 0, 0, number);
    windowed(32, all, 0, 1, 16, number);
    windowed(16, all, SIZE_MAX, 1, 0, number);
    windowed(15, all, 0, 0, 0, 1);
    windowed(33, all, SIZE_MAX, 1, 0, 1);
    searched(S(noise, 16), all, 0, number, 0, 0, &no_fields);
    searched(S(noise, 32), all, SIZE_MAX, number, 0, 0, &no_fields);
    searched(S(noise, 15), all, 0, 1, 0, 0, &no_fields);
}

/* A frame's length, its length field, its version, and the number of opening it. */
struct header_row {
    size_t length;
    uint32_t field;
    uint8_t version;
    uint32_t number;
};

static void test_frames(void)
{
    /* The earlier fault wins. */
    static const struct header_row rows[] = {
        {0, 0, 0, 6},           {1, 0, 0, 6},           {3, 0, 0, 6},           {4, 0, 0, 6},
        {5, 1, 1, 6},           {20, 16, 1, 6},         {20, 17, 1, 6},         {20, 16, 2, 6},
        {21, 16, 1, 6},         {21, 18, 1, 6},         {21, 16, 2, 6},         {21, 21, 1, 6},
        {21, 0, 1, 6},          {21, 0x11000000, 1, 6}, {21, 0x01000011, 1, 6}, {21, 0x00010011, 1, 6},
        {21, 0xffffffff, 1, 6}, {22, 17, 1, 6},         {22, 19, 2, 6},         {37, 17, 1, 6},
        {69, 64, 1, 6},         {69, 66, 1, 6},         {21, 17, 0, 7},         {21, 17, 2, 7},
        {21, 17, 3, 7},         {21, 17, 255, 7},       {22, 18, 0, 7},         {4133, 4129, 2, 7},
        {22, 18, 1, 2},         {36, 32, 1, 2},         {38, 34, 1, 2},         {4116, 4112, 1, 2},
        {4118, 4114, 1, 2},     {4134, 4130, 1, 2},     {4133, 4128, 1, 6},     {4133, 4130, 1, 6},
        {4133, 4129, 1, 4},
    };
    static const size_t blocks[] = {0, 1, 2, MOST - 1, MOST};
    for (size_t i = 0; i < sizeof rows / sizeof *rows; i++) {
        head(rows[i].length, rows[i].field, rows[i].version);
        refused(rows[i].length, rows[i].number);
    }
    for (size_t i = 0; i < sizeof blocks / sizeof *blocks; i++) {
        size_t length = HEADER + blocks[i] * BLOCK;
        head(length, (uint32_t)length - 4, 1);
        opened(length, 0);
    }
}

/* Frames of about 4 GiB, of which the header is there: with length fields that agree, and that do in 32 bits alone. */
static void test_long_frames(void)
{
    static const struct header_row rows[] = {
        {((size_t)1 << 32) - 11, 0xfffffff1, 1, 4}, {((size_t)1 << 32) - 11, 0xfffffff1, 2, 7},
        {((size_t)1 << 32) + 3, 0xffffffff, 1, 2},  {((size_t)1 << 32) + 3, 0xfffffffe, 1, 6},
        {((size_t)1 << 32) + 4, 0, 1, 6},           {((size_t)1 << 32) + 21, 17, 1, 6},
    };
    const struct slice all = S(frame, HEADER), key = S(noise, 16);
    for (size_t i = 0; i < sizeof rows / sizeof *rows; i++) {
        const size_t more = rows[i].length - HEADER;
        const uint32_t number = rows[i].number;
        head(HEADER, rows[i].field, rows[i].version);
        EXPECT(.export = e_open_frame, .in = {all}, .longer = {more}, .want = number);
        EXPECT(.export = e_frame_start, .in = {all}, .longer = {more}, .out = 16, .want = number);
        EXPECT(.export = e_read_window, .in = {key, all}, .longer = {0, more}, .want = number);
        EXPECT(.export = e_search, .in = {key, all}, .longer = {0, more}, .want = number);
    }
}

/* Makes a frame that opens, of these texts, under the first bytes of the noise as key. */
static struct slice seal(const uint8_t *texts, size_t blocks, size_t key_length)
{
    size_t length = HEADER + blocks * BLOCK;
    head(length, (uint32_t)length - 4, 1);
    model_chain(noise, key_length, texts, blocks * BLOCK, frame + 5, frame + HEADER);
    return S(frame, length);
}

static void window_reads(struct slice all, size_t place, size_t count, const uint8_t *texts, size_t key)
{
    size_t size = count * BLOCK;
    for (size_t more = 0; more <= 7; more += 7)
        EXPECT(.export = e_read_window, .in = {S(noise, key), all}, .number = {place, count}, .out = size + more,
               .answer = texts + place * BLOCK, .length = size);
    if (count > 0) {
        windowed(key, all, place, count, size - 1, 5);
        windowed(key, all, place, count, 0, 5);
    }
}

static void windows_beyond(struct slice all, size_t blocks, size_t key)
{
    /* place and count: beyond by one, and sums or products that would wrap. */
    const size_t rows[][2] = {
        {blocks, 1},     {blocks + 1, 0},   {blocks + 1, 1},        {0, blocks + 1},
        {1, blocks},     {1, SIZE_MAX},     {2, SIZE_MAX - 1},      {SIZE_MAX, 0},
        {SIZE_MAX, 1},   {SIZE_MAX, 2},     {SIZE_MAX, SIZE_MAX},   {0, SIZE_MAX},
        {blocks, SIZE_MAX}, {0, SIZE_MAX / BLOCK + 1}, {0, SIZE_MAX / BLOCK + 2}, {SIZE_MAX / BLOCK + 1, 0},
        {SIZE_MAX / BLOCK + 1, 1}, {SIZE_MAX - blocks, blocks + 1}, {(size_t)1 << 32, 0}, {0, ((size_t)1 << 32) + 1},
    };
    for (size_t i = 0; i < sizeof rows / sizeof *rows; i++) {
        windowed(key, all, rows[i][0], rows[i][1], 64, 9);
        windowed(key, all, rows[i][0], rows[i][1], 0, 9);
    }
}

static void test_windows(void)
{
    struct slice all = seal(noise, 3, 16);
    for (size_t place = 0; place <= 3; place++)
        for (size_t count = 0; place + count <= 3; count++)
            window_reads(all, place, count, noise, 16);
    windows_beyond(all, 3, 16);
    windowed(0, all, 0, 1, 16, 1);
    windowed(15, all, 4, 1, 0, 1);
    windowed(33, all, 0, 1, 16, 1);
    windowed(16, S(NULL, 0), 0, 0, 0, 6);
    all = seal(noise, 0, 17);
    window_reads(all, 0, 0, noise, 17);
    windows_beyond(all, 0, 17);
    all = seal(noise, MOST, 32);
    window_reads(all, 0, MOST, noise, 32);
    window_reads(all, MOST - 1, 1, noise, 32);
    window_reads(all, MOST, 0, noise, 32);
    windows_beyond(all, MOST, 32);
}

/* ---- Events ---- */

static void event_is(struct slice event, uint32_t number, const struct fields *fields)
{
    EXPECT(.export = e_read_event, .in = {event}, .want = number);
    for (int i = 0; i < 8; i++)
        EXPECT(.export = (enum export)(e_event_wall + i), .in = {event}, .want = fields->of[i]);
}

/* wall, UTC, offset, value, kind, class, inverter, sequence */
static const uint8_t fault_event[16] = {0, 0, 0x0e, 0x10, 4, 0x20, 0, 2, 0xff, 0xff, 0xff, 0xff, 0, 0, 0, 7};
static const struct fields fault_fields = {{3600, 0, 4, -1, 32, BARKMOTTLE_GRID_FAULT, 2, 7}};
static const uint8_t late_event[16] = {0xff, 0xff, 0xff, 0xff, 0xd0, 0x7f, 0xff, 0xfe,
                                       0x80, 0,    0,    0,    0xff, 0xff, 0xff, 0xfd};
static const struct fields late_fields = {
    {4294967295, 4294967295 + 43200, -48, INT32_MIN, 127, BARKMOTTLE_RECONNECT, 65534, 4294967293}};

static void test_events(void)
{
    static const struct fields early = {{0, -50400, 56, INT32_MAX, 0, BARKMOTTLE_IDLE, 258, 16909060}};
    static const struct {
        uint8_t kind;
        int64_t class;
    } kinds[] = {{0, 0}, {1, 1}, {31, 1}, {32, 2}, {63, 2}, {64, 3}, {95, 3}, {96, 4}, {127, 4}};
    static const uint8_t unreadable[][2] = {{57, 0}, {57, 127}, {127, 1}, {128, 1}, {207, 1}, {207, 32}, {0, 128},
                                            {56, 128}, {208, 128}, {0, 255}, {57, 128}, {207, 255}};
    static const size_t bad[] = {0, 1, 15, 17, 32};
    uint8_t event[16] = {0, 0, 0, 0, 56, 0, 1, 2, 0x7f, 0xff, 0xff, 0xff, 1, 2, 3, 4};
    event_is(S(fault_event, 16), 0, &fault_fields);
    event_is(S(late_event, 16), 0, &late_fields);
    event_is(S(event, 16), 0, &early);
    memcpy(event, fault_event, sizeof event);
    for (size_t i = 0; i < sizeof kinds / sizeof *kinds; i++) {
        struct fields fields = fault_fields;
        event[5] = kinds[i].kind;
        fields.of[4] = kinds[i].kind;
        fields.of[5] = kinds[i].class;
        event_is(S(event, 16), 0, &fields);
    }
    for (size_t i = 0; i < sizeof unreadable / sizeof *unreadable; i++) {
        memcpy(event + 4, unreadable[i], 2);
        event_is(S(event, 16), 10, &no_fields);
    }
    for (size_t i = 0; i < sizeof bad / sizeof *bad; i++) {
        event_is(S(zeros, bad[i]), 2, &no_fields);
        event_is(S(noise, bad[i]), 2, &no_fields);
    }
}

/* ---- Searches ---- */

/* Readable at places 0 and 3 alone, of five. */
static void search_five(void)
{
    uint8_t texts[5 * BLOCK];
    memset(texts, 57, sizeof texts);
    memcpy(texts, fault_event, BLOCK);
    memset(texts + 2 * BLOCK, 128, BLOCK);
    memcpy(texts + 3 * BLOCK, late_event, BLOCK);
    const struct slice all = seal(texts, 5, 24), key = S(noise, 24);
    searched(key, all, 0, 0, 0, 1, &fault_fields);
    searched(key, all, 1, 0, 3, 3, &late_fields);
    searched(key, all, 2, 0, 3, 2, &late_fields);
    searched(key, all, 3, 0, 3, 1, &late_fields);
    searched(key, all, 4, 11, 0, 1, &no_fields);
    searched(key, all, 5, 11, 0, 0, &no_fields);
    searched(key, all, 6, 9, 0, 0, &no_fields);
    searched(key, all, SIZE_MAX, 9, 0, 0, &no_fields);
    searched(key, all, (size_t)1 << 32, 9, 0, 0, &no_fields);
    searched(key, all, SIZE_MAX / BLOCK + 1, 9, 0, 0, &no_fields);
    searched(S(noise, 0), all, 0, 1, 0, 0, &no_fields);
    searched(S(noise, 15), all, 6, 1, 0, 0, &no_fields);
    searched(S(noise, 33), all, 4, 1, 0, 0, &no_fields);
}

/* One readable text alone, at places about those where a search begins to pass sixteen texts at a time. */
static void search_far(void)
{
    static const size_t places[] = {15, 16, 31, 32, 33, 39, 47, 48, 49, 63, 64, 65, 239, 240, 241, MOST - 1};
    static uint8_t texts[MOST * BLOCK];
    for (size_t i = 0; i < sizeof places / sizeof *places; i++) {
        memset(texts, 200, sizeof texts);
        memcpy(texts + places[i] * BLOCK, fault_event, BLOCK);
        const struct slice all = seal(texts, MOST, 32), key = S(noise, 32);
        searched(key, all, 0, 0, places[i], places[i] + 1, &fault_fields);
        searched(key, all, 7, 0, places[i], places[i] - 6, &fault_fields);
        searched(key, all, places[i] + 1, 11, 0, MOST - places[i] - 1, &no_fields);
    }
}

static void test_searches(void)
{
    static uint8_t texts[MOST * BLOCK];
    search_five();
    search_far();
    struct slice all = seal(texts, 0, 16);
    searched(S(noise, 16), all, 0, 11, 0, 0, &no_fields);
    searched(S(noise, 16), all, 1, 9, 0, 0, &no_fields);
    searched(S(noise, 16), S(NULL, 0), 0, 6, 0, 0, &no_fields);
    memset(texts, 200, sizeof texts);
    all = seal(texts, MOST, 31);
    searched(S(noise, 31), all, 0, 11, 0, MOST, &no_fields);
    searched(S(noise, 31), all, MOST - 1, 11, 0, 1, &no_fields);
    memcpy(texts + (MOST - 1) * BLOCK, late_event, BLOCK);
    all = seal(texts, MOST, 31);
    searched(S(noise, 31), all, 0, 0, MOST - 1, MOST, &late_fields);
    searched(S(noise, 31), all, MOST, 11, 0, 0, &no_fields);
    searched(S(noise, 31), all, MOST + 1, 9, 0, 0, &no_fields);
}

/* ---- The self-test: faults that must be found ---- */

static volatile uint8_t sink;

static int64_t reads_behind(const struct lent *lent) { return sink = lent->in[0][lent->in_length[0]], 0; }
static int64_t reads_before(const struct lent *lent) { return sink = *(lent->in[0] - 1), 0; }
static int64_t writes_input(const struct lent *lent) { return lent->in[0][3] ^= 1, 0; }
static int64_t changes_input(const struct lent *lent)
{
    /* by the view that is the test's own */
    return rooms[0].own[lent->in[0] - rooms[0].lent] ^= 1, 0;
}
static int64_t writes_behind(const struct lent *lent) { return lent->out[lent->out_length] = 1, 0; }
static int64_t writes_before(const struct lent *lent) { return *(lent->out - 1) = 1, 0; }
static int64_t refuses_and_writes(const struct lent *lent) { return lent->out[0] ^= 1, 2; }
static int64_t clears_the_rest(const struct lent *lent) { return memset(lent->out, 0, lent->out_length), 0; }

static int counted_wrong(const struct call *call)
{
    unsigned long before = wrong;
    expect(call);
    return wrong > before;
}

static int found_touching(const struct call *call)
{
    int status = 0;
    pid_t child = fork();
    if (child == 0) {
        expect(call);
        _exit(0);
    }
    return child > 0 && waitpid(child, &status, 0) == child && WIFEXITED(status) && WEXITSTATUS(status) == TOUCHED;
}

static int self_test(void)
{
    static int64_t (*const fakes[])(const struct lent *) = {reads_behind, reads_before, writes_input, writes_behind,
                                                            writes_before};
    const struct call right = {
        .export = e_apply_s, .number = {3}, .in = {S(zeros, 16)}, .out = 20, .answer = zeros, .length = 16};
    struct call call = right;
    int found = 0, tried = 0;
    quiet = 1;
    tried++, found += !counted_wrong(&call); /* the right expectation is not found at fault */
    call.want = 1;
    tried++, found += counted_wrong(&call);
    call = right, call.answer = noise;
    tried++, found += counted_wrong(&call);
    call = right, call.length = 0;
    tried++, found += counted_wrong(&call);
    call = right, call.fake = clears_the_rest;
    tried++, found += counted_wrong(&call);
    call.fake = refuses_and_writes, call.want = 2, call.length = 0;
    tried++, found += counted_wrong(&call);
    call = right, call.fake = changes_input, call.length = 0;
    tried++, found += counted_wrong(&call);
    for (size_t i = 0; i < sizeof fakes / sizeof *fakes; i++) {
        call = right, call.fake = fakes[i], call.length = 0;
        tried++, found += found_touching(&call);
    }
    unsigned long before = wrong;
    check_coverage(); /* most exports were not called */
    tried++, found += wrong > before;
    printf("exports: self-test: %d of %d found\n", found, tried);
    return found == tried ? 0 : 1;
}

int main(int count, char **words)
{
    make_rooms();
    catch_touches(touched);
    make_noise();
    if (count == 2 && strcmp(words[1], "--self-test") == 0)
        return self_test();
    test_keys();
    test_words();
    test_blocks();
    test_chains();
    test_frames();
    test_long_frames();
    test_windows();
    test_events();
    test_searches();
    check_coverage();
    printf("exports: %lu calls, %lu checks, %lu wrong\n", calls, checks, wrong);
    return wrong == 0 ? 0 : 1;
}
