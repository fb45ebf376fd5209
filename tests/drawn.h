/* Numbers and bytes drawn from a seed, the same on every machine. */
#ifndef DRAWN_H
#define DRAWN_H

#include <stddef.h>
#include <stdint.h>

/* Steele, Lea, Flood: "Fast splittable pseudorandom number generators", the generator SplitMix64. */
static inline uint64_t drawn(uint64_t *state)
{
    uint64_t z = *state += 0x9e3779b97f4a7c15u;
    z = (z ^ z >> 30) * 0xbf58476d1ce4e5b9u;
    z = (z ^ z >> 27) * 0x94d049bb133111ebu;
    return z ^ z >> 31;
}

static inline void draw_bytes(uint64_t *state, uint8_t *bytes, size_t length)
{
    for (size_t at = 0; at < length; at += 8) {
        uint64_t word = drawn(state);
        for (size_t i = 0; i < 8 && at + i < length; i++)
            bytes[at + i] = (uint8_t)(word >> 8 * i);
    }
}

#endif
