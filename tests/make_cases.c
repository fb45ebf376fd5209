/* make_cases writes the key files and frames of crates/check_gatelog/data into the current folder, but for those that are
 * copies of the examples. What they must list to is worked out apart from this program and from the library. */
#include <stdio.h>
#include <stdlib.h>
#include <string.h>

#include "barkmottle.h"
#include "frames.h"

#define MOST (BARKMOTTLE_FRAME_HEADER + 257 * BARKMOTTLE_BLOCK)

static uint8_t key[16], start[BARKMOTTLE_BLOCK], frame[MOST];

static void write_file(const char *name, const void *bytes, size_t size)
{
    FILE *file = fopen(name, "wb");
    if (file == NULL || fwrite(bytes, 1, size, file) != size || fclose(file) != 0) {
        fprintf(stderr, "make_cases: %s cannot be written\n", name);
        exit(1);
    }
}

static void write_text(const char *name, const char *text) { write_file(name, text, strlen(text)); }

/* The ends of every range, days about 29 February, and blocks that are unreadable: the first, two in a row, the last. */
static const struct event spots[] = {
    {0, 57, 0, 1, 0, 1},
    {3600, 4, 32, 2, 0xffffffff, 7},
    {0, 56, 1, 0, 0x7fffffff, 0},
    {0xffffffff, 208, 127, 65535, 0x80000000, 0xffffffff},
    {0, 207, 31, 1, 10, 2},
    {0, 0, 128, 1, 10, 3},
    {5097599, 0, 31, 10, 0xffffffd6, 8},   /* 2000-02-28 23:59:59 */
    {5097600, 255, 63, 10, 42, 9},         /* 2000-02-29 00:00:00 */
    {5184000, 1, 64, 11, 100, 10},         /* 2000-03-01 00:00:00 */
    {3160857600u, 7, 95, 12, 1000, 11},    /* 2100-03-01 00:00:00 */
    {31622399, 0, 96, 13, 10000, 12},      /* 2000-12-31 23:59:59 */
    {31622400, 0xfc, 0, 14, 100000, 1000}, /* 2001-01-01 00:00:00 */
    {31622401, 0, 255, 1, 0, 4},
};

static void write_frame(const char *name, const struct event *events, size_t count)
{
    static uint8_t text[256 * BARKMOTTLE_BLOCK];
    size_t i, size = count * BARKMOTTLE_BLOCK;
    for (i = 0; i < count; i++)
        put_event(text + i * BARKMOTTLE_BLOCK, events + i);
    if (barkmottle_encrypt_chain(key, sizeof key, text, size, start, sizeof start, frame + BARKMOTTLE_FRAME_HEADER,
                                 size) != BARKMOTTLE_DONE)
        exit(1);
    write_file(name, frame, put_header(frame, start, size));
}

static void write_frames(void)
{
    struct event full[256];
    size_t i, size;
    write_frame("spots.frame", spots, sizeof spots / sizeof spots[0]);
    write_frame("none.frame", spots, 0);
    for (i = 0; i < 256; i++)
        full[i] = (struct event){831214807u + 3600u * (uint32_t)i, 8, (uint8_t)(i % 128), (uint16_t)(i % 7),
                                 (uint32_t)(i * i), 1000u + (uint32_t)i};
    write_frame("full.frame", full, 256);
    /* Those that opening refuses: 4, 2, 7, 6, 6, 6. */
    write_file("many.frame", frame, put_header(frame, start, 257 * BARKMOTTLE_BLOCK));
    write_file("ragged.frame", frame, put_header(frame, start, 17));
    size = put_header(frame, start, 16);
    frame[4] = 2;
    write_file("version.frame", frame, size);
    size = put_header(frame, start, 32);
    write_file("cut.frame", frame, size - 1);
    write_file("short.frame", frame, 20);
    write_file("empty.frame", frame, 0);
}

static void write_keys(void)
{
    static char blanks[4097];
    write_text("key.txt", "000102030405060708090a0b0c0d0e0f\n");
    write_text("spaced.txt", " 00 01 02 03\t04 05 06 07\r\n08 09 0A 0B\r\n0C0D0E0 F\n\n");
    write_text("bad.txt", "0001020304g5060708090a0b0c0d0e0f\n");
    write_text("odd.txt", "000102030405060708090a0b0c0d0e0\n");
    write_text("fifteen.txt", "000102030405060708090a0b0c0d0e\n");
    write_text("thirty_three.txt", "000102030405060708090a0b0c0d0e0f101112131415161718191a1b1c1d1e1f20\n");
    write_text("empty.txt", "");
    memset(blanks, ' ', 4096);
    write_text("blanks.txt", blanks);
}

int main(void)
{
    size_t i;
    for (i = 0; i < sizeof key; i++)
        key[i] = (uint8_t)i;
    for (i = 0; i < sizeof start; i++)
        start[i] = (uint8_t)(0xa0 + i);
    write_keys();
    write_frames();
    return 0;
}
