#include "tasks.h"

#include <stdlib.h>
#include <string.h>

#include "drawn.h"
#include "frames.h"

enum { KEYS = 64, PLACE = 100 };

static uint8_t keys[KEYS][32], block[BLOCK], start[BLOCK], text[MOST_TIMED_BLOCKS * BLOCK];
static struct log readable, unreadable;

static struct answer {
    uint32_t number;
    struct found found;
    uint8_t bytes[MOST_TIMED_BLOCKS * BLOCK];
} answer;

/* ---- Inputs ---- */

/* A log of 256 events of this kind: from 128 on no event is readable. */
static void make_log(struct log *log, uint8_t kind)
{
    memcpy(log->key, keys[0], sizeof log->key);
    for (uint32_t place = 0; place < BARKMOTTLE_MOST_BLOCKS; place++)
        put_event(log->text + place * BLOCK,
                  &(struct event){831214807u + 60 * place, 8, kind, (uint16_t)(place % 5), 400 + place, place});
    put_header(log->frame, start, sizeof log->text);
    if (by_exports.encrypt_chain(NULL, log, BARKMOTTLE_MOST_BLOCKS, log->frame + BARKMOTTLE_FRAME_HEADER) != 0)
        abort();
}

void make_inputs(void)
{
    uint64_t state = 1;
    draw_bytes(&state, *keys, sizeof keys);
    draw_bytes(&state, block, sizeof block);
    draw_bytes(&state, start, sizeof start);
    draw_bytes(&state, text, sizeof text);
    make_log(&readable, 1);
    make_log(&unreadable, 255);
}

/* ---- Under round keys ---- */

void prepare(const struct side *side) { side->other->set_key(keys[0], sizeof *keys); }

static other_key *key_setup(const struct side *side)
{
    return side->other->set_encrypting != NULL ? side->other->set_encrypting : side->other->set_key;
}

/* A different key each time. */
static void set_keys(const struct side *side, const struct task *task, size_t times)
{
    other_key *set = key_setup(side);
    (void)task;
    for (size_t i = 0; i < times; i++)
        answer.number = set(keys[i % KEYS], sizeof *keys);
}

/* Each output is the next input. */
static void run_block(other_block *run, size_t times)
{
    memcpy(answer.bytes, block, BLOCK);
    for (size_t i = 0; i < times; i++) {
        uint8_t *now = answer.bytes + i % 2 * BLOCK;
        run(now, answer.bytes + (i + 1) % 2 * BLOCK);
    }
}

static void encrypt_block(const struct side *side, const struct task *task, size_t times)
{
    (void)task;
    run_block(side->other->encrypt_block, times);
}

static void decrypt_block(const struct side *side, const struct task *task, size_t times)
{
    (void)task;
    run_block(side->other->decrypt_block, times);
}

static void encrypt_chain(const struct side *side, const struct task *task, size_t times)
{
    for (size_t i = 0; i < times; i++)
        side->other->encrypt_chain(start, text, task->blocks, answer.bytes);
}

static void decrypt_chain(const struct side *side, const struct task *task, size_t times)
{
    for (size_t i = 0; i < times; i++)
        side->other->decrypt_chain(start, text, task->blocks, answer.bytes);
}

/* ---- As a host sees it ---- */

static void host_encrypt(const struct side *side, const struct task *task, size_t times)
{
    for (size_t i = 0; i < times; i++)
        answer.number = side->host->encrypt_chain(side->other, &readable, task->blocks, answer.bytes);
}

static void host_decrypt(const struct side *side, const struct task *task, size_t times)
{
    for (size_t i = 0; i < times; i++)
        answer.number = side->host->decrypt_chain(side->other, &readable, task->blocks, answer.bytes);
}

static void host_window(const struct side *side, const struct task *task, size_t times)
{
    const size_t place = task->blocks < BARKMOTTLE_MOST_BLOCKS ? PLACE : 0;
    for (size_t i = 0; i < times; i++)
        answer.number = side->host->read_window(side->other, &readable, place, task->blocks, answer.bytes);
}

static void host_event(const struct side *side, const struct task *task, size_t times)
{
    for (size_t i = 0; i < times; i++)
        answer.number = side->host->search(side->other, &readable, task->blocks);
}

static void host_search(const struct side *side, const struct task *task, size_t times)
{
    for (size_t i = 0; i < times; i++)
        answer.number = side->host->search(side->other, &unreadable, task->blocks);
}

/* ---- The tasks ---- */

#define SIZE(blocks)                                                                                                   \
    {"size", "deciphered", 0, blocks, 1, host_decrypt}, {"size", "enciphered", 0, blocks, 1, host_encrypt}

const struct task tasks[] = {
    {"keys", "key setup", 1.05, 0, 0, set_keys},
    {"keys", "a block enciphered", 1.03, 1, 0, encrypt_block},
    {"keys", "a block deciphered", 1.03, 1, 0, decrypt_block},
    {"keys", "a chain enciphered, 1 block", 0, 1, 0, encrypt_chain},
    {"keys", "a chain enciphered, 16 blocks", 0, 16, 0, encrypt_chain},
    {"keys", "a chain enciphered, 256 blocks", 1.00, 256, 0, encrypt_chain},
    {"keys", "a chain enciphered, 3,000 blocks", 1.00, 3000, 0, encrypt_chain},
    {"keys", "a chain deciphered, 1 block", 0, 1, 0, decrypt_chain},
    {"keys", "a chain deciphered, 16 blocks", 0, 16, 0, decrypt_chain},
    {"keys", "a chain deciphered, 256 blocks", 0.35, 256, 0, decrypt_chain},
    {"keys", "a chain deciphered, 3,000 blocks", 0.35, 3000, 0, decrypt_chain},
    {"host", "one event, by a search from place 0", 0, 1, 0, host_event},
    {"host", "a window of 16 blocks", 0, 16, 0, host_window},
    {"host", "a window of 256 blocks", 0.35, 256, 0, host_window},
    {"host", "a chain enciphered, 256 blocks", 1.00, 256, 0, host_encrypt},
    {"host", "a chain deciphered, 256 blocks", 0.35, 256, 0, host_decrypt},
    {"host", "a search through 256 unreadable blocks", 0, 256, 0, host_search},
    SIZE(0), SIZE(1), SIZE(2), SIZE(4), SIZE(8), SIZE(15), SIZE(16), SIZE(17), SIZE(31), SIZE(32), SIZE(48), SIZE(64),
    SIZE(96), SIZE(128), SIZE(160), SIZE(192), SIZE(224), SIZE(256),
};

const size_t task_count = sizeof tasks / sizeof *tasks;

/* ---- The answers ---- */

/* The first bytes of chains under the keys that are set up. */
static void show_keys(const struct side *side)
{
    for (size_t i = 0; i < KEYS; i++) {
        key_setup(side)(keys[i], sizeof *keys);
        side->other->encrypt_chain(start, text, 1, answer.bytes + i * BLOCK);
    }
}

static const struct answer *answer_of(const struct task *task, const struct side *side)
{
    memset(&answer, 0, sizeof answer);
    prepare(side);
    task->run(side, task, 3);
    if (task->run == set_keys)
        show_keys(side);
    else if (task->run == host_event)
        answer.found = side->host->found(side->other, &readable, task->blocks);
    else if (task->run == host_search)
        answer.found = side->host->found(side->other, &unreadable, task->blocks);
    return &answer;
}

int agree(const struct task *task, const struct side *a, const struct side *b)
{
    static struct answer first;
    first = *answer_of(task, a);
    const struct answer *second = answer_of(task, b);
    return first.number == second->number && first.found.place == second->found.place &&
           first.found.tries == second->found.tries && memcmp(first.bytes, second->bytes, sizeof first.bytes) == 0;
}
