/*
 * make_samples FOLDER writes the sample logs there: key.txt, healthy.frame and damaged.frame.
 *
 * On the mains of inverter 2 the voltage goes above 253 V (place 5), the inverter disconnects (place 7) and comes
 * back (place 10), as it should. In damaged.frame one bit of one cipher block is flipped. It garbles the block at
 * place 6 and takes 4,096 seconds off the time at place 7: the inverter now seems to have disconnected
 * more than an hour before the fault, for no reason.
 */
#include <stdio.h>
#include <stdlib.h>
#include <string.h>

#include "barkmottle.h"

#define EVENTS 12
#define TEXT (EVENTS * BARKMOTTLE_BLOCK)
#define FRAME (BARKMOTTLE_FRAME_HEADER + TEXT)

#define FIRST_WALL 831214807u /* 2026-05-04 13:00:07, counted from 2000-01-01 00:00 */
#define FIRST_SEQUENCE 17u
#define OFFSET 8 /* quarter hours: the wall clock is two hours ahead of UTC */
#define DAMAGED_PLACE 6
#define DAMAGED_BYTE 2
#define DAMAGED_BIT 0x10

static const uint8_t key[32] = {
    0x08, 0x6a, 0xc2, 0x0a, 0x2b, 0x6c, 0x3a, 0x1c, 0x2b, 0x4d, 0x8e, 0x9b, 0x20, 0x93, 0xc9, 0x25,
    0xc2, 0xd9, 0xa4, 0xe8, 0xf0, 0xc2, 0x5a, 0xed, 0xea, 0xfb, 0xb3, 0xb4, 0x16, 0x65, 0x1b, 0xcb,
};

static const uint8_t start[BARKMOTTLE_BLOCK] = {
    0x23, 0xf8, 0x34, 0x66, 0xf9, 0x84, 0xa7, 0x54, 0x38, 0x5f, 0x1e, 0xca, 0x41, 0xb1, 0xdd, 0x7a,
};

/* One event a minute. A measurement's value is in watts, any other in millivolts. */
static const struct {
    uint8_t kind;
    uint8_t inverter;
    uint32_t value;
} events[EVENTS] = {
    {1, 3, 412},     {1, 4, 398},     {1, 1, 405}, {0, 3, 0},   {1, 2, 401},     {32, 2, 253400},
    {1, 1, 407},     {64, 2, 253100}, {0, 1, 0},   {1, 4, 396}, {96, 2, 230100}, {1, 2, 399},
};

static void put_big_endian(uint8_t *at, uint32_t number)
{
    at[0] = (uint8_t)(number >> 24);
    at[1] = (uint8_t)(number >> 16);
    at[2] = (uint8_t)(number >> 8);
    at[3] = (uint8_t)number;
}

static void put_event(uint8_t *at, uint32_t place)
{
    put_big_endian(at, FIRST_WALL + 60 * place);
    at[4] = OFFSET;
    at[5] = events[place].kind;
    at[6] = 0;
    at[7] = events[place].inverter;
    put_big_endian(at + 8, events[place].value);
    put_big_endian(at + 12, FIRST_SEQUENCE + place);
}

static uint32_t make_frame(uint8_t *frame)
{
    uint8_t text[TEXT];
    uint32_t place;
    for (place = 0; place < EVENTS; place++)
        put_event(text + place * BARKMOTTLE_BLOCK, place);
    put_big_endian(frame, FRAME - 4);
    frame[4] = 1;
    memcpy(frame + 5, start, sizeof start);
    return barkmottle_encrypt_chain(key, sizeof key, text, sizeof text, start, sizeof start,
                                    frame + BARKMOTTLE_FRAME_HEADER, TEXT);
}

static FILE *create(const char *folder, const char *name)
{
    char path[4096];
    FILE *file = NULL;
    if ((size_t)snprintf(path, sizeof path, "%s/%s", folder, name) < sizeof path)
        file = fopen(path, "wb");
    if (file == NULL) {
        fprintf(stderr, "make_samples: %s/%s cannot be written\n", folder, name);
        exit(1);
    }
    return file;
}

static void finish(FILE *file)
{
    int bad = ferror(file);
    if (fclose(file) != 0 || bad) {
        fprintf(stderr, "make_samples: not all could be written\n");
        exit(1);
    }
}

static void write_key(const char *folder)
{
    FILE *file = create(folder, "key.txt");
    size_t i;
    for (i = 0; i < sizeof key; i++)
        fprintf(file, "%02x%s", key[i], i % 16 == 15 ? "\n" : "");
    finish(file);
}

static void write_frame(const char *folder, const char *name, const uint8_t *frame)
{
    FILE *file = create(folder, name);
    fwrite(frame, 1, FRAME, file);
    finish(file);
}

int main(int count, char **words)
{
    uint8_t frame[FRAME];
    uint32_t number;
    if (count != 2) {
        fprintf(stderr, "usage: make_samples FOLDER\n");
        return 1;
    }
    number = make_frame(frame);
    if (number != BARKMOTTLE_DONE) {
        fprintf(stderr, "make_samples: the chain was refused with number %u\n", (unsigned)number);
        return 1;
    }
    write_key(words[1]);
    write_frame(words[1], "healthy.frame", frame);
    frame[BARKMOTTLE_FRAME_HEADER + DAMAGED_PLACE * BARKMOTTLE_BLOCK + DAMAGED_BYTE] ^= DAMAGED_BIT;
    write_frame(words[1], "damaged.frame", frame);
    return 0;
}
