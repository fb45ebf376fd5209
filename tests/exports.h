/*
 * The exports as one table, and a call of any of them with what is lent to it. The test programs use it.
 */
#ifndef EXPORTS_H
#define EXPORTS_H

#include <stddef.h>
#include <stdint.h>
#include <stdlib.h>

#include "barkmottle.h"

#define BLOCK BARKMOTTLE_BLOCK
#define MOST BARKMOTTLE_MOST_BLOCKS
#define HEADER BARKMOTTLE_FRAME_HEADER

#define N(number) (1u << (number))
#define OPENING (N(6) | N(7) | N(2) | N(4))
#define IN(i) lent->in[i], lent->in_length[i]
#define OUT lent->out, lent->out_length
#define KEY_FRAME_PLACE IN(0), IN(1), lent->number[0]

#define FIELDS(X, prefix, inputs, ...)                                                                              \
    X(prefix##_wall, inputs, 0, 0, __VA_ARGS__)                                                                     \
    X(prefix##_utc, inputs, 0, 0, __VA_ARGS__)                                                                      \
    X(prefix##_offset, inputs, 0, 0, __VA_ARGS__)                                                                   \
    X(prefix##_value, inputs, 0, 0, __VA_ARGS__)                                                                    \
    X(prefix##_kind, inputs, 0, 0, __VA_ARGS__)                                                                     \
    X(prefix##_class, inputs, 0, 0, __VA_ARGS__)                                                                    \
    X(prefix##_inverter, inputs, 0, 0, __VA_ARGS__)                                                                 \
    X(prefix##_sequence, inputs, 0, 0, __VA_ARGS__)

/* Name, slices that are read, whether one is written, the numbers of its order (none for a field), arguments. */
#define EXPORTS(X)                                                                                                  \
    X(expand_key, 1, 1, N(0) | N(1) | N(5), IN(0), OUT)                                                             \
    X(new_from_slice, 1, 1, N(0) | N(1) | N(5), IN(0), OUT)                                                         \
    X(apply_s, 1, 1, N(0) | N(2) | N(5), lent->number[0], IN(0), OUT)                                               \
    X(apply_s_inv, 1, 1, N(0) | N(2) | N(5), lent->number[0], IN(0), OUT)                                           \
    X(linear_transform, 1, 1, N(0) | N(2) | N(5), IN(0), OUT)                                                       \
    X(linear_transform_inv, 1, 1, N(0) | N(2) | N(5), IN(0), OUT)                                                   \
    X(encrypt_block, 2, 1, N(0) | N(1) | N(2) | N(5), IN(0), IN(1), OUT)                                            \
    X(decrypt_block, 2, 1, N(0) | N(1) | N(2) | N(5), IN(0), IN(1), OUT)                                            \
    X(encrypt_chain, 3, 1, N(0) | N(1) | N(2) | N(3) | N(4) | N(5), IN(0), IN(1), IN(2), OUT)                       \
    X(decrypt_chain, 3, 1, N(0) | N(1) | N(2) | N(3) | N(4) | N(5), IN(0), IN(1), IN(2), OUT)                       \
    X(open_frame, 1, 0, N(0) | OPENING, IN(0))                                                                      \
    X(frame_start, 1, 1, N(0) | OPENING | N(5), IN(0), OUT)                                                         \
    X(frame_place, 1, 0, 0, IN(0))                                                                                  \
    X(frame_length, 1, 0, 0, IN(0))                                                                                 \
    X(read_window, 2, 1, N(0) | N(1) | OPENING | N(9) | N(5), IN(0), IN(1), lent->number[0], lent->number[1], OUT)  \
    X(read_event, 1, 0, N(0) | N(2) | N(10), IN(0))                                                                 \
    FIELDS(X, event, 1, IN(0))                                                                                      \
    X(search, 2, 0, N(0) | N(1) | OPENING | N(9) | N(11), KEY_FRAME_PLACE)                                          \
    X(search_place, 2, 0, 0, KEY_FRAME_PLACE)                                                                       \
    X(search_tries, 2, 0, 0, KEY_FRAME_PLACE)                                                                       \
    FIELDS(X, search, 2, KEY_FRAME_PLACE)

#define AS_ENUM(name, ...) e_##name,
enum export { EXPORTS(AS_ENUM) COUNT };

#define AS_ROW(name, inputs, writes, numbers, ...) {#name, inputs, writes, numbers},
static const struct {
    const char *name;
    int inputs, writes;
    unsigned numbers;
} exports[COUNT] = {EXPORTS(AS_ROW)};

struct slice {
    const uint8_t *bytes;
    size_t length;
};

/* What a call is handed. */
struct lent {
    uint8_t *in[3], *out;
    size_t in_length[3], out_length, number[2];
};

/* The eight fields of an event, in the order of FIELDS. */
struct fields {
    int64_t of[8];
};

#define AS_CASE(name, inputs, writes, numbers, ...)                                                                 \
    case e_##name:                                                                                                  \
        return (int64_t)barkmottle_##name(__VA_ARGS__);

static inline int64_t invoke(enum export export, const struct lent *lent)
{
    switch (export) {
        EXPORTS(AS_CASE)
    default:
        abort();
    }
}

#endif
