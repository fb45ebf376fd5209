/* The operations as a host sees them, key setup included: by the exports of libbarkmottle.a, or by another Serpent. */
#ifndef HOST_H
#define HOST_H

#include "barkmottle.h"
#include "other.h"

/* A log and its key, and what was in it. */
struct log {
    uint8_t key[32];
    uint8_t text[BARKMOTTLE_MOST_BLOCKS * BLOCK];
    uint8_t frame[BARKMOTTLE_FRAME_HEADER + BARKMOTTLE_MOST_BLOCKS * BLOCK];
};

struct found {
    size_t place, tries;
};

/* Each returns the number that the export has for it. `by` is the other Serpent; the exports do not look at it. */
struct host {
    uint32_t (*encrypt_chain)(const struct other *by, const struct log *log, size_t blocks, uint8_t *out);
    uint32_t (*decrypt_chain)(const struct other *by, const struct log *log, size_t blocks, uint8_t *out);
    uint32_t (*read_window)(const struct other *by, const struct log *log, size_t place, size_t count, uint8_t *out);
    /* Among the blocks from place 0 on. The exports look until one is readable, the others decipher `tries` of them. */
    uint32_t (*search)(const struct other *by, const struct log *log, size_t tries);
    struct found (*found)(const struct other *by, const struct log *log, size_t tries);
};

extern const struct host by_exports, by_other;

#endif
