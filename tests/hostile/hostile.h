/*
 * What the parts of the fuzz target share. A case is a string of bytes, read as decisions (decide.c): which exports
 * are called, with which lengths, contents, places and counts. Each call is checked (ask.c) against a plain statement
 * of document 01 (law.c), and calls are held against each other (steps.c, logs.c, damage.c).
 */
#ifndef HOSTILE_H
#define HOSTILE_H

#include "drawn.h"
#include "exports.h"

/* Twelve numbers, 0 to 11; and the most bytes that are handed over as a key, a block or an event, or as a frame. */
enum { NUMBERS = 12, LONGEST_SHORT = 64, LONGEST_FRAME = HEADER + (MOST + 1) * BLOCK + 1 };

/* ---- Decisions: behind the end of the case each is 0, so that every string of bytes is a case ---- */

struct decisions {
    const uint8_t *bytes;
    size_t left;
};

size_t below(struct decisions *d, size_t limit);
int rarely(struct decisions *d);
uint64_t noise_seed(struct decisions *d);
void fill(struct decisions *d, uint8_t *bytes, size_t length);
void make_event(uint64_t *noise, uint8_t *event);
size_t good_key_length(struct decisions *d);
size_t any_key_length(struct decisions *d);
size_t near_block(struct decisions *d);
size_t near_blocks(struct decisions *d);
size_t block_count(struct decisions *d, size_t most);
size_t near_answer(struct decisions *d, size_t answer);
size_t any_index(struct decisions *d);
size_t any_place(struct decisions *d, size_t blocks);
void any_window(struct decisions *d, size_t blocks, size_t *place, size_t *count);

/* ---- The law: what document 01 says of a call ---- */

struct call {
    enum export export;
    struct slice in[3];
    size_t number[2];
    size_t out;
};

/* The value that is due, and how many bytes are written. Which ones is said where bytes is not null, and why. */
struct due {
    int64_t value;
    size_t length;
    const uint8_t *bytes;
    const char *why;
};

uint32_t key_number(size_t key);
uint32_t opening_number(struct slice frame);
uint32_t event_number(struct slice event);
struct fields event_fields(struct slice event);
void pad_key(struct slice key, uint8_t *padded);
struct due law(const struct call *call);

/* ---- One call, made twice and checked ---- */

void prepare(void);
/* The bytes that were written, until the next ask. */
const uint8_t *ask(struct decisions *d, const struct call *call, struct due due);
/* Ends the program where this does not hold of the calls that were made last. */
void check(int good, const char *format, ...) __attribute__((format(printf, 2, 3)));

#define S(bytes, length) ((struct slice){bytes, length})
#define CALL(...) (&(const struct call){__VA_ARGS__})

/* What was done, for the closing line, and for a fault to be found again. */
enum damage { FLIPPED, REPLACED, RESIZED, INSERTED, REMOVED, NEW_START, FIELD, VERSION, CUT, LONGER, DAMAGES };
extern struct tally {
    unsigned long calls, checks, cases, of[COUNT], numbers[COUNT][NUMBERS], damages[DAMAGES];
    uint64_t seed;
} tally;
void count_damage(enum damage damage);

/* ---- Logs: a frame under a key, and what it reads as ---- */

struct log {
    uint8_t key[LONGEST_SHORT], frame[LONGEST_FRAME], texts[MOST * BLOCK];
    size_t key_length, length;
    uint32_t number; /* of the tests of key and frame */
    size_t blocks;   /* none where the number is not 0 */
};

struct found {
    uint32_t number;
    size_t place, tries;
    struct fields fields;
};

void exclusive_or(const uint8_t *a, const uint8_t *b, uint8_t *result);
void set_header(struct log *log, uint32_t field, uint8_t version);
void read_log(struct decisions *d, struct log *log);
void seal(struct decisions *d, struct log *log);
const uint8_t *block_before(const struct log *log, size_t place);
void try_opening(struct decisions *d, const struct log *log);
void ask_window(struct decisions *d, const struct log *log, size_t place, size_t count, const uint8_t *texts,
                const char *why);
void ask_search(struct decisions *d, const struct log *log, size_t place, struct found due);
void try_window(struct decisions *d, const struct log *log, size_t place, size_t count);
struct found try_search(struct decisions *d, const struct log *log, size_t place);

/* ---- Groups of calls, one of which a case begins with ---- */

void try_keys(struct decisions *d);
void try_words(struct decisions *d);
void try_blocks(struct decisions *d);
void try_chains(struct decisions *d);
void try_any_frame(struct decisions *d);
void try_sealed(struct decisions *d);
void try_events(struct decisions *d);
void try_damaged(struct decisions *d);
void try_damaged_header(struct decisions *d);

void check_exchanged(size_t place, size_t other);

#endif
