/*
 * Writes a list of answers: make_list FOLDER. Linked with the Rust crate it makes the files crate-*.txt that
 * crates/check_data/data has; linked with the archive it must make the same.
 *
 * Of each key three calls: its round keys, a text enciphered, a cipher deciphered. The lines have the form that
 * crates/check_data reads. Each buffer is longer than the answer.
 */
#include <stdio.h>
#include <stdlib.h>
#include <string.h>

#include "drawn.h"
#include "other.h"

/* What is answered to a key: nothing but the key where it is refused. */
enum { KEY, KEYS, TEXT, ENCIPHERED, CIPHER, DECIPHERED, FIELDS };

struct answers {
    size_t length[FIELDS];
    uint8_t bytes[FIELDS][ROUND_KEYS];
};

static uint64_t state = 600; /* the seed of the list */

static void failed(const char *what)
{
    perror(what);
    exit(2);
}

static FILE *begin(const char *folder, const char *name, const char *keys)
{
    char path[4096];
    snprintf(path, sizeof path, "%s/%s", folder, name);
    FILE *file = fopen(path, "w");
    if (file == NULL)
        failed(path);
    fprintf(file, "# Answers of the Rust crate serpent 0.6.0, made by tests/oracle/make_list.c. %s\n", keys);
    return file;
}

static void end(FILE *file)
{
    if (ferror(file) || fclose(file) != 0)
        failed("make_list");
}

static void put_bytes(FILE *file, const struct answers *answers, int field)
{
    for (size_t i = 0; i < answers->length[field]; i++)
        fprintf(file, "%02x", answers->bytes[field][i]);
}

/* One call: its bytes, where it has any, and its answer. With a key that is refused: number 1, zeros, no answer. */
static void put_call(FILE *file, const struct answers *answers, const char *name, int bytes, int answer)
{
    const int refused = answers->length[KEYS] == 0;
    fprintf(file, "%s %d ", name, refused);
    put_bytes(file, answers, KEY);
    fputc(' ', file);
    if (bytes == KEY)
        fputc('-', file);
    else if (refused)
        fputs("16*00", file);
    else
        put_bytes(file, answers, bytes);
    fprintf(file, " - - - %d ", bytes == KEY ? ROUND_KEYS + 16 : 2 * BLOCK);
    if (refused)
        fputc('-', file);
    else
        put_bytes(file, answers, answer);
    fputc('\n', file);
}

static void put_keys(FILE *file, const struct answers *answers)
{
    put_call(file, answers, "new_from_slice", KEY, KEYS);
}

static void put_enciphered(FILE *file, const struct answers *answers)
{
    put_call(file, answers, "encrypt_block", TEXT, ENCIPHERED);
}

static void put_deciphered(FILE *file, const struct answers *answers)
{
    put_call(file, answers, "decrypt_block", CIPHER, DECIPHERED);
}

static void put(FILE *file, const struct answers *answers)
{
    put_keys(file, answers);
    put_enciphered(file, answers);
    put_deciphered(file, answers);
}

/* What is answered to a key. */
static struct answers answered(const uint8_t *key, size_t length)
{
    struct answers answers = {.length = {length, ROUND_KEYS, BLOCK, BLOCK, BLOCK, BLOCK}};
    memcpy(answers.bytes[KEY], key, length);
    draw_bytes(&state, answers.bytes[TEXT], BLOCK);
    draw_bytes(&state, answers.bytes[CIPHER], BLOCK);
    if (other.set_key(key, length) != 0) {
        answers.length[KEYS] = 0;
        return answers;
    }
    other.round_keys(answers.bytes[KEYS]);
    other.encrypt_block(answers.bytes[TEXT], answers.bytes[ENCIPHERED]);
    other.decrypt_block(answers.bytes[CIPHER], answers.bytes[DECIPHERED]);
    return answers;
}

static void put_answer(FILE *file, const uint8_t *key, size_t length)
{
    const struct answers answers = answered(key, length);
    put(file, &answers);
}

static void put_patterns(FILE *file, size_t length)
{
    uint8_t key[MOST_KEY];
    memset(key, 0, length);
    put_answer(file, key, length);
    memset(key, 0xff, length);
    put_answer(file, key, length);
    for (size_t i = 0; i < length; i++)
        key[i] = (uint8_t)i;
    put_answer(file, key, length);
}

/* The first bit, the last one, and two between that no other length has. */
static void put_single_bits(FILE *file, size_t length)
{
    const size_t bits[] = {0, 8 * length - 1, 3 * length, 5 * length + 1};
    for (size_t i = 0; i < sizeof bits / sizeof *bits; i++) {
        uint8_t key[MOST_KEY] = {0};
        key[bits[i] / 8] = (uint8_t)(1u << bits[i] % 8);
        put_answer(file, key, length);
    }
}

static void put_drawn(FILE *file, size_t length)
{
    for (int i = 0; i < 4; i++) {
        uint8_t key[MOST_KEY];
        draw_bytes(&state, key, length);
        put_answer(file, key, length);
    }
}

static void put_file(const char *folder, const char *name, const char *keys, void (*put_keys)(FILE *, size_t))
{
    FILE *file = begin(folder, name, keys);
    for (size_t length = LEAST_KEY; length <= MOST_KEY; length++)
        put_keys(file, length);
    end(file);
}

/* Wrong on purpose: one bit flipped in each field, a key said to be refused, and one of 33 bytes said to be taken. */
static void put_wrong(FILE *file)
{
    /* the calls that a field stands in */
    void (*const puts_field[FIELDS])(FILE *, const struct answers *) = {
        put, put_keys, put_enciphered, put_enciphered, put_deciphered, put_deciphered};
    uint8_t key[MOST_KEY];
    struct answers wrong;
    draw_bytes(&state, key, MOST_KEY);
    const struct answers right = answered(key, 24);
    for (int field = 0; field < FIELDS; field++) {
        wrong = right;
        wrong.bytes[field][wrong.length[field] - 1] ^= 0x80;
        puts_field[field](file, &wrong);
    }
    wrong = right;
    wrong.length[KEYS] = 0;
    put(file, &wrong);
    wrong = right;
    wrong.length[KEY] = MOST_KEY;
    memcpy(wrong.bytes[KEY], key, MOST_KEY);
    put(file, &wrong);
}

int main(int count, char **words)
{
    if (count != 2) {
        fprintf(stderr, "usage: make_list FOLDER\n");
        return 2;
    }
    put_file(words[1], "crate-patterns.txt", "Keys of zeros, of ones, and of the bytes 0, 1, 2 and so on.",
             put_patterns);
    put_file(words[1], "crate-single_bits.txt", "Keys of a single bit.", put_single_bits);
    put_file(words[1], "crate-drawn_1.txt", "Keys drawn from a seed.", put_drawn);
    put_file(words[1], "crate-drawn_2.txt", "Keys drawn from a seed.", put_drawn);
    FILE *file = begin(words[1], "crate-wrong.txt", "Then made wrong, each line in one place.");
    put_wrong(file);
    end(file);
    return 0;
}
