/*
 * Damaged logs. A run of cipher blocks is replaced by a run of any length, or the start block by another. Then the
 * blocks before the run read as they did; the first one behind it reads as its text, exclusive or the block that stood
 * before it and the one that stands there now; and all later ones read as they did, wherever they stand now.
 */
#include <string.h>

#include "hostile.h"

/* Blocks from a place on, so many removed and so many put there. */
struct change {
    size_t at, removed, added;
};

/* ---- Making the damage ---- */

static size_t least(size_t a, size_t b)
{
    return a < b ? a : b;
}

static struct change decide_change(struct decisions *d, enum damage damage, size_t blocks)
{
    struct change change = {.at = below(d, blocks + (damage == INSERTED))};
    const size_t behind = blocks - change.at;
    switch (damage) {
    case FLIPPED:
    case REPLACED:
        change.removed = change.added = 1 + below(d, least(behind, 6));
        break;
    case RESIZED:
        change.removed = 1 + below(d, behind);
        change.added = 1 + below(d, least(MOST - blocks + change.removed, 12));
        break;
    case INSERTED:
        change.added = 1 + below(d, least(MOST - blocks, 12));
        break;
    default:
        change.removed = 1 + below(d, behind);
        break;
    }
    return change;
}

/* The blocks put in: noise and the like, or copies of blocks of the log. */
static void new_blocks(struct decisions *d, const struct log *old, uint8_t *blocks, size_t count)
{
    fill(d, blocks, count * BLOCK);
    if (old->blocks > 0 && below(d, 3) == 0)
        for (size_t i = 0; i < count; i++)
            memcpy(blocks + i * BLOCK, old->frame + HEADER + below(d, old->blocks) * BLOCK, BLOCK);
}

static void flip_bits(struct decisions *d, uint8_t *bytes, size_t length)
{
    for (size_t left = 1 + below(d, 4); left > 0; left--) {
        size_t bit = below(d, length * 8);
        bytes[bit / 8] ^= (uint8_t)(1 << bit % 8);
    }
}

static void change_blocks(struct decisions *d, const struct log *old, struct log *now, enum damage damage,
                          struct change change)
{
    uint8_t *from = now->frame + HEADER + change.at * BLOCK;
    const uint8_t *behind = old->frame + HEADER + (change.at + change.removed) * BLOCK;
    if (damage == FLIPPED)
        flip_bits(d, from, change.added * BLOCK);
    else
        new_blocks(d, old, from, change.added);
    memcpy(from + change.added * BLOCK, behind, (size_t)(old->frame + old->length - behind));
    now->length = old->length + change.added * BLOCK - change.removed * BLOCK;
    set_header(now, (uint32_t)now->length - 4, 1);
}

/* A damage that a log of so many blocks can have. */
static enum damage decide_damage(struct decisions *d, size_t blocks)
{
    const enum damage damage = (enum damage)below(d, NEW_START + 1);
    if (blocks == 0)
        return damage == NEW_START ? NEW_START : INSERTED;
    return damage == INSERTED && blocks == MOST ? REMOVED : damage;
}

static struct change do_damage(struct decisions *d, const struct log *old, struct log *now)
{
    const enum damage damage = decide_damage(d, old->blocks);
    struct change change = {0, 0, 0};
    *now = *old;
    if (damage == NEW_START) {
        fill(d, now->frame + 5, BLOCK);
    } else {
        change = decide_change(d, damage, old->blocks);
        change_blocks(d, old, now, damage, change);
    }
    count_damage(damage);
    return change;
}

/* ---- What must hold of it ---- */

static void check_texts(const struct log *old, const struct log *now, struct change change)
{
    const size_t run_end = change.at + change.removed, end_now = change.at + change.added;
    check(memcmp(old->texts, now->texts, change.at * BLOCK) == 0, "damage from place %zu on: a text before it differs",
          change.at);
    if (run_end >= old->blocks)
        return;
    uint8_t due[BLOCK];
    exclusive_or(old->texts + run_end * BLOCK, block_before(old, run_end), due);
    exclusive_or(due, block_before(now, end_now), due);
    check(memcmp(due, now->texts + end_now * BLOCK, BLOCK) == 0,
          "damage up to place %zu, now %zu: the text there is not the old one with the change of the block before it",
          run_end, end_now);
    check(memcmp(old->texts + (run_end + 1) * BLOCK, now->texts + (end_now + 1) * BLOCK,
                 (old->blocks - run_end - 1) * BLOCK) == 0,
          "damage up to place %zu, now %zu: a later text differs", run_end, end_now);
}

/* Under one key, another cipher block is another text. */
static void check_altered(const struct log *old, const struct log *now, struct change change)
{
    const size_t at = change.at * BLOCK;
    if (change.removed == 0 || change.added == 0)
        return;
    if (memcmp(old->frame + HEADER + at, now->frame + HEADER + at, BLOCK) != 0)
        check(memcmp(old->texts + at, now->texts + at, BLOCK) != 0, "the altered block at place %zu reads as it did",
              change.at);
}

/* A window and a search that begin behind the first block after the run answer as they did before the damage. */
static void check_later(struct decisions *d, const struct log *old, const struct log *now, struct change change)
{
    const size_t run_end = change.at + change.removed;
    if (run_end >= old->blocks)
        return;
    const size_t place = run_end + 1 + below(d, old->blocks - run_end), count = below(d, old->blocks - place + 1);
    const size_t moved = place + change.added - change.removed;
    ask_window(d, now, moved, count, old->texts + place * BLOCK, "as before the damage");
    struct found found = try_search(d, old, place);
    if (found.number == 0)
        found.place = found.place + change.added - change.removed;
    ask_search(d, now, moved, found);
}

void try_damaged(struct decisions *d)
{
    static struct log old, now;
    seal(d, &old);
    const struct change change = do_damage(d, &old, &now);
    read_log(d, &now);
    check_texts(&old, &now, change);
    check_altered(&old, &now, change);
    try_opening(d, &now);
    try_window(d, &now, 0, now.blocks);
    check_later(d, &old, &now, change);
}

/* For the self-test: eight blocks, two of them replaced by one. One text of the damaged log is then exchanged for the
 * one at the other place of the old log, and unless that is the right one, a check ends the program. */
void check_exchanged(size_t place, size_t other)
{
    static const uint8_t eight_blocks[] = {8, 0, 1, 2, 3, 4, 0, 5, 6, 7, 8, 9, 5, 1, 2, 3, 4};
    static const struct change change = {.at = 3, .removed = 2, .added = 1};
    static struct log old, now;
    struct decisions d = {eight_blocks, sizeof eight_blocks};
    seal(&d, &old);
    now = old;
    change_blocks(&d, &old, &now, RESIZED, change);
    read_log(&d, &now);
    memcpy(now.texts + place * BLOCK, old.texts + other * BLOCK, BLOCK);
    check_texts(&old, &now, change);
    check_altered(&old, &now, change);
}

/* ---- Damaged headers ---- */

static enum damage damage_header(struct decisions *d, struct log *log)
{
    static const uint32_t shifts[] = {1, UINT32_MAX, 16, UINT32_MAX - 15, 4, 1u << 8, 1u << 16, 1u << 24, 1u << 31};
    const uint32_t field = (uint32_t)log->length - 4;
    size_t more = 0;
    switch (below(d, 4)) {
    case 0:
        set_header(log, field + shifts[below(d, sizeof shifts / sizeof *shifts)], 1);
        return FIELD;
    case 1:
        set_header(log, field, (uint8_t)(2 + below(d, 255)));
        return VERSION;
    case 2:
        log->length -= 1 + below(d, least(log->length, 40));
        break;
    default:
        more = 1 + below(d, least(LONGEST_FRAME - log->length, 40));
        fill(d, log->frame + log->length, more);
        log->length += more;
        break;
    }
    if (below(d, 2) == 0)
        set_header(log, (uint32_t)log->length - 4, 1);
    return more == 0 ? CUT : LONGER;
}

void try_damaged_header(struct decisions *d)
{
    static struct log log;
    size_t place, count;
    seal(d, &log);
    any_window(d, log.blocks, &place, &count);
    count_damage(damage_header(d, &log));
    read_log(d, &log);
    try_opening(d, &log);
    try_window(d, &log, place, count);
    try_search(d, &log, place);
}
