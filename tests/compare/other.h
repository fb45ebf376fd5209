/*
 * Another Serpent to hold the archive against: the Rust crate, or a library. Each has a file that fills
 * `other`; what it does not show is null there.
 */
#ifndef OTHER_H
#define OTHER_H

#include <stddef.h>
#include <stdint.h>

#ifdef __cplusplus
extern "C" {
#endif

enum { LEAST_KEY = 15, MOST_KEY = 33, BLOCK = 16, ROUND_KEYS = 528, MOST_BLOCKS = 256 };

typedef uint32_t other_key(const uint8_t *key, size_t length);
typedef void other_block(const uint8_t *block, uint8_t *out);
typedef void other_box(size_t index, const uint8_t *words, uint8_t *out);
typedef void other_chain(const uint8_t *start, const uint8_t *text, size_t blocks, uint8_t *out);

struct other {
    const char *name;
    const char *(*version)(void);
    /* Whether it is made for keys of this length, to take or to refuse them; and which lengths that leaves out. */
    int (*made_for)(size_t key_length);
    const char *(*left_out)(void);
    /* Keeps the key for the calls below and returns 0, or returns the number of a refusal. */
    other_key *set_key;
    /* The same for one way of a chain alone; null where set_key sets up no more than that. */
    other_key *set_encrypting, *set_decrypting;
    void (*round_keys)(uint8_t *out);
    other_block *encrypt_block, *decrypt_block;
    other_chain *encrypt_chain, *decrypt_chain;
    other_box *apply_s, *apply_s_inv;
    other_block *linear_transform, *linear_transform_inv;
};

extern const struct other other;

/* The three key lengths that most libraries are made for: 128, 192 and 256 bits. */
static inline int is_usual(size_t key_length)
{
    return key_length == 16 || key_length == 24 || key_length == 32;
}

#ifdef __cplusplus
}
#endif

#endif
