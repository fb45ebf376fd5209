/*
 * Barkmottle: reads the enciphered logs of solar gateways.
 *
 * A log is a frame: a 4-byte big-endian length of what follows it, the version byte 1, a 16-byte start
 * block, and 0 to 256 cipher blocks of 16 bytes. The blocks are chained (CBC) under the cipher Serpent.
 * Deciphered, each block is one event. The library opens frames, deciphers windows of them, reads events
 * and searches for the next readable one. The steps of the cipher are here too, one by one, so that
 * a host can hold them against another implementation.
 *
 * Rules for every function:
 *
 *  - A slice is a pointer and a length in bytes. A null pointer with length 0 is an empty slice.
 *  - The buffers lent to one call must not overlap.
 *  - Any lengths, places and bytes may be handed over; each call has an answer. Most answers are a number of the
 *    table below. A number is given when its row holds and no earlier test of the function's order holds.
 *  - A refusal (any number but 0) changes no byte of any lent buffer, and the functions that return a
 *    field return 0. Number 11 alone also returns its tries.
 *  - On success the answer fills the first bytes of out; the bytes past it keep their contents. A longer
 *    out is fine. Too short an out is tested last.
 *  - Nothing is allocated and nothing is kept between calls, so calls in several threads are safe as long as none
 *    writes a buffer that another uses.
 *  - Keys are not stored, and not wiped from memory either. Nothing is claimed about the time that a call takes.
 *  - A log has no tag: it cannot show that it was tampered with, or that it is read under a wrong key. A damaged
 *    cipher block garbles its own event and changes the same bits of the next, which may still look well.
 *
 * The numbers:
 *
 *    0  done
 *    1  the key is shorter than 16 or longer than 32 bytes
 *    2  text or cipher bytes are not a multiple of 16; a single block or event is not exactly 16 bytes
 *    3  the start block is not exactly 16 bytes
 *    4  there are more than 256 blocks
 *    5  the output buffer is shorter than the answer
 *    6  the frame is under 21 bytes, or its length field is not the supplied length less 4
 *    7  the version byte is not 1
 *    8  a box number, reduced by 8, is above 7 (this never happens)
 *    9  the place or the window is beyond the frame's blocks
 *   10  the event block is not readable
 *   11  there is no readable event from the place on
 */
#ifndef BARKMOTTLE_H
#define BARKMOTTLE_H

#include <stddef.h>
#include <stdint.h>

#ifdef __cplusplus
extern "C" {
#endif

/* The same numbers by their names. */
enum barkmottle_number {
    BARKMOTTLE_DONE = 0,
    BARKMOTTLE_KEY_LENGTH = 1,    /* the key is not 16 to 32 bytes */
    BARKMOTTLE_TEXT_LENGTH = 2,   /* text or cipher is not whole blocks; a block or event is not 16 bytes */
    BARKMOTTLE_START_LENGTH = 3,  /* the start block is not 16 bytes */
    BARKMOTTLE_TOO_MANY = 4,      /* more than 256 blocks */
    BARKMOTTLE_OUT_SHORT = 5,     /* out is shorter than the answer */
    BARKMOTTLE_FRAME_LENGTH = 6,  /* the frame is under 21 bytes, or its length field disagrees */
    BARKMOTTLE_VERSION = 7,       /* the version byte is not 1 */
    BARKMOTTLE_NO_BOX = 8,        /* never given */
    BARKMOTTLE_BEYOND = 9,        /* the place or the window is beyond the blocks */
    BARKMOTTLE_NOT_READABLE = 10, /* the event is not readable */
    BARKMOTTLE_NO_EVENT = 11      /* no readable event from the place on */
};

/* The class of an event, by its kind byte. */
enum barkmottle_class {
    BARKMOTTLE_IDLE = 0,        /* kind 0 */
    BARKMOTTLE_MEASUREMENT = 1, /* kinds 1 to 31 */
    BARKMOTTLE_GRID_FAULT = 2,  /* kinds 32 to 63 */
    BARKMOTTLE_DISCONNECT = 3,  /* kinds 64 to 95 */
    BARKMOTTLE_RECONNECT = 4    /* kinds 96 to 127 */
};

/* Sizes, in bytes, and the greatest count of blocks. */
#define BARKMOTTLE_BLOCK 16
#define BARKMOTTLE_PADDED_KEY 32
#define BARKMOTTLE_ROUND_KEYS 528
#define BARKMOTTLE_FRAME_HEADER 21
#define BARKMOTTLE_MOST_BLOCKS 256

/* ---- Steps of the cipher. Words are 16 bytes: four words, each with its lowest byte first. ---- */

/* Writes the padded key, 32 bytes: the key, then 0x01 if it is shorter, then zeros. Order 1, 5. */
uint32_t barkmottle_expand_key(const uint8_t *key, size_t key_length, uint8_t *out, size_t out_length);

/* Writes the 33 round keys, 528 bytes: 132 words, each with its lowest byte first. Order 1, 5. */
uint32_t barkmottle_new_from_slice(const uint8_t *key, size_t key_length, uint8_t *out, size_t out_length);

/* Writes the words that box (index reduced by 8) makes of four words, 16 bytes. Order 2, 8, 5. */
uint32_t barkmottle_apply_s(size_t index, const uint8_t *words, size_t words_length, uint8_t *out, size_t out_length);

/* The same for the inverse box. */
uint32_t barkmottle_apply_s_inv(size_t index, const uint8_t *words, size_t words_length, uint8_t *out,
                                size_t out_length);

/* Writes the linear transform of four words, 16 bytes. Order 2, 5. */
uint32_t barkmottle_linear_transform(const uint8_t *words, size_t words_length, uint8_t *out, size_t out_length);

/* The same for the inverse transform. */
uint32_t barkmottle_linear_transform_inv(const uint8_t *words, size_t words_length, uint8_t *out, size_t out_length);

/* Writes the enciphered block, 16 bytes. Order 1, 2, 5. */
uint32_t barkmottle_encrypt_block(const uint8_t *key, size_t key_length, const uint8_t *block, size_t block_length,
                                  uint8_t *out, size_t out_length);

/* Writes the deciphered block, 16 bytes. Order 1, 2, 5. */
uint32_t barkmottle_decrypt_block(const uint8_t *key, size_t key_length, const uint8_t *block, size_t block_length,
                                  uint8_t *out, size_t out_length);

/* ---- Chains ---- */

/* Writes the enciphered chain, as many bytes as text has. Order 1, 2, 3, 4, 5. No blocks give no bytes. */
uint32_t barkmottle_encrypt_chain(const uint8_t *key, size_t key_length, const uint8_t *text, size_t text_length,
                                  const uint8_t *start, size_t start_length, uint8_t *out, size_t out_length);

/* Writes the deciphered chain, as many bytes as cipher has. Order 1, 2, 3, 4, 5. */
uint32_t barkmottle_decrypt_chain(const uint8_t *key, size_t key_length, const uint8_t *cipher, size_t cipher_length,
                                  const uint8_t *start, size_t start_length, uint8_t *out, size_t out_length);

/* ---- Frames: the slice is the frame, no byte less or more. Places count blocks, from 0. ---- */

/* Whether the frame opens. Order 6, 7, 2, 4. Writes nothing. */
uint32_t barkmottle_open_frame(const uint8_t *frame, size_t frame_length);

/* Writes the start block, 16 bytes. Order 6, 7, 2, 4, 5. */
uint32_t barkmottle_frame_start(const uint8_t *frame, size_t frame_length, uint8_t *out, size_t out_length);

/* Where the cipher blocks begin, in bytes from the frame's beginning: 21, or 0 where the frame does not open. */
size_t barkmottle_frame_place(const uint8_t *frame, size_t frame_length);

/* How many bytes the cipher blocks have: 16 for each, or 0 where the frame does not open. */
size_t barkmottle_frame_length(const uint8_t *frame, size_t frame_length);

/* Writes count deciphered blocks from place on, 16 bytes each. Order 1, 6, 7, 2, 4, 9, 5.
 * With n blocks in the frame, 9 is given when place + count is above n. No blocks at place n are allowed. */
uint32_t barkmottle_read_window(const uint8_t *key, size_t key_length, const uint8_t *frame, size_t frame_length,
                                size_t place, size_t count, uint8_t *out, size_t out_length);

/* ---- Events: 16 deciphered bytes ---- */

/* Whether the event is readable. Order 2, 10. Writes nothing.
 * It is when its offset is -48 to 56 and its kind 0 to 127. About one in five random blocks is. */
uint32_t barkmottle_read_event(const uint8_t *event, size_t event_length);

/* Its fields. Each is 0 where barkmottle_read_event refuses. */

/* Seconds by the wall clock since 2000-01-01 00:00. */
int64_t barkmottle_event_wall(const uint8_t *event, size_t event_length);

/* Seconds in UTC since 2000-01-01 00:00: wall less 900 times the offset. It may be below zero. */
int64_t barkmottle_event_utc(const uint8_t *event, size_t event_length);

/* Quarter hours by which the wall clock is ahead of UTC, -48 to 56. */
int32_t barkmottle_event_offset(const uint8_t *event, size_t event_length);

/* The value. */
int32_t barkmottle_event_value(const uint8_t *event, size_t event_length);

/* The kind, 0 to 127. */
uint32_t barkmottle_event_kind(const uint8_t *event, size_t event_length);

/* The kind's class, one of enum barkmottle_class. */
uint32_t barkmottle_event_class(const uint8_t *event, size_t event_length);

/* The inverter, 0 to 65535. */
uint32_t barkmottle_event_inverter(const uint8_t *event, size_t event_length);

/* The sequence number. */
uint32_t barkmottle_event_sequence(const uint8_t *event, size_t event_length);

/* ---- Search: the first readable event of a frame at place or after it ---- */

/* Whether there is one. Order 1, 6, 7, 2, 4, 9, 11. Writes nothing.
 * With n blocks in the frame, 9 is given when place is above n; a search from place n answers 11. */
uint32_t barkmottle_search(const uint8_t *key, size_t key_length, const uint8_t *frame, size_t frame_length,
                           size_t place);

/* The place where it stands; 0 unless barkmottle_search answers 0. */
size_t barkmottle_search_place(const uint8_t *key, size_t key_length, const uint8_t *frame, size_t frame_length,
                               size_t place);

/* How many blocks were tried: found place - place + 1, or n - place with 11; 0 with any other refusal. */
size_t barkmottle_search_tries(const uint8_t *key, size_t key_length, const uint8_t *frame, size_t frame_length,
                               size_t place);

/* The fields of the event found, as the functions barkmottle_event_... give them; 0 unless barkmottle_search
 * answers 0. Each call searches anew. */
int64_t barkmottle_search_wall(const uint8_t *key, size_t key_length, const uint8_t *frame, size_t frame_length,
                               size_t place);
int64_t barkmottle_search_utc(const uint8_t *key, size_t key_length, const uint8_t *frame, size_t frame_length,
                              size_t place);
int32_t barkmottle_search_offset(const uint8_t *key, size_t key_length, const uint8_t *frame, size_t frame_length,
                                 size_t place);
int32_t barkmottle_search_value(const uint8_t *key, size_t key_length, const uint8_t *frame, size_t frame_length,
                                size_t place);
uint32_t barkmottle_search_kind(const uint8_t *key, size_t key_length, const uint8_t *frame, size_t frame_length,
                                size_t place);
uint32_t barkmottle_search_class(const uint8_t *key, size_t key_length, const uint8_t *frame, size_t frame_length,
                                 size_t place);
uint32_t barkmottle_search_inverter(const uint8_t *key, size_t key_length, const uint8_t *frame, size_t frame_length,
                                    size_t place);
uint32_t barkmottle_search_sequence(const uint8_t *key, size_t key_length, const uint8_t *frame, size_t frame_length,
                                    size_t place);

#ifdef __cplusplus
}
#endif

#endif
