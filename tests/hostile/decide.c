/* Decisions: the bytes of a case as lengths, contents, places and counts, most of them near a boundary. */
#include <string.h>

#include "hostile.h"

#define PICK(d, list) ((list)[below(d, sizeof(list) / sizeof *(list))])

static size_t next_byte(struct decisions *d)
{
    if (d->left == 0)
        return 0;
    d->left--;
    return *d->bytes++;
}

/* A number below the limit, which is at most 65,536. */
size_t below(struct decisions *d, size_t limit)
{
    size_t number = next_byte(d);
    if (limit > 256)
        number = number << 8 | next_byte(d);
    return number % limit;
}

int rarely(struct decisions *d)
{
    return below(d, 16) == 15;
}

uint64_t noise_seed(struct decisions *d)
{
    const uint64_t high = below(d, 65536);
    return high << 16 | below(d, 65536);
}

/* Contents: zeros, ones, bytes of the case itself, or noise. */
void fill(struct decisions *d, uint8_t *bytes, size_t length)
{
    const size_t kind = below(d, 16);
    uint64_t noise = kind <= 4 ? 0 : noise_seed(d);
    if (kind <= 1)
        memset(bytes, kind == 0 ? 0 : 0xff, length);
    else if (kind <= 4)
        for (size_t i = 0; i < length; i++)
            bytes[i] = (uint8_t)next_byte(d);
    else
        draw_bytes(&noise, bytes, length);
}

/* Sixteen bytes of noise; in most, offset and kind are at a boundary or within, so that half are readable. */
void make_event(uint64_t *noise, uint8_t *event)
{
    static const uint8_t offsets[] = {0, 56, 208, 57, 207, 255, 1, 4, 252, 127, 128, 0, 20, 230, 56, 208};
    static const uint8_t kinds[] = {0, 1, 31, 32, 63, 64, 95, 96, 127, 128, 255, 5, 40, 70, 100, 0};
    const uint64_t choice = drawn(noise);
    draw_bytes(noise, event, BLOCK);
    if (choice % 8 < 6)
        event[4] = offsets[choice >> 8 & 15];
    if (choice % 8 < 7)
        event[5] = kinds[choice >> 16 & 15];
}

size_t good_key_length(struct decisions *d)
{
    static const size_t lengths[] = {16, 32, 17, 31, 24, 18, 30, 20, 16, 32, 28, 19, 21, 22, 23, 25, 26, 27, 29};
    return PICK(d, lengths);
}

size_t any_key_length(struct decisions *d)
{
    static const size_t bad[] = {15, 33, 0, 1, 64};
    return below(d, 4) == 3 ? PICK(d, bad) : good_key_length(d);
}

/* Lengths about one block, for a slice that should be one. */
size_t near_block(struct decisions *d)
{
    static const size_t lengths[] = {16, 16, 16, 16, 16, 16, 16, 16, 16, 15, 17, 0, 1, 32, 8, 64};
    return PICK(d, lengths);
}

/* Mostly few blocks, seldom about as many as a frame may have. */
size_t block_count(struct decisions *d, size_t most)
{
    size_t kind = below(d, 128), count = kind % 9;
    if (kind >= 116 && kind < 123)
        count = 9 + below(d, 32);
    else if (kind >= 123)
        count = most - below(d, 3);
    return count;
}

/* Lengths about so many whole blocks, 257 among them. */
size_t near_blocks(struct decisions *d)
{
    size_t length = block_count(d, MOST + 1) * BLOCK;
    switch (below(d, 12)) {
    case 10:
        return length + 1;
    case 11:
        return length == 0 ? 0 : length - 1;
    default:
        return length;
    }
}

/* Lengths about an answer's, for the buffer that it goes to; one is too short in its low 32 bits. */
size_t near_answer(struct decisions *d, size_t answer)
{
    switch (below(d, 12)) {
    case 0:
        return answer + 1;
    case 1:
        return answer == 0 ? 0 : answer - 1;
    case 2:
        return 0;
    case 3:
        return answer + below(d, 1024);
    case 4:
        return answer / 2;
    case 5:
        return answer / 2 + ((size_t)1 << 32);
    default:
        return answer;
    }
}

/* A number of any size, near a power of two, or near where a sum, or a product with 16, wraps. */
static size_t far_number(struct decisions *d)
{
    static const size_t middles[] = {SIZE_MAX,        SIZE_MAX / 16, SIZE_MAX / 2,   (size_t)1 << 32,
                                     (size_t)1 << 16, SIZE_MAX / 4,  (size_t)1 << 31};
    const size_t middle = PICK(d, middles);
    return middle + below(d, 7) - 3;
}

size_t any_index(struct decisions *d)
{
    return below(d, 3) == 2 ? far_number(d) : below(d, 256);
}

/* Places about a frame of so many blocks. */
size_t any_place(struct decisions *d, size_t blocks)
{
    switch (below(d, 12)) {
    case 0:
        return blocks;
    case 1:
        return blocks + 1;
    case 2:
        return blocks == 0 ? 0 : blocks - 1;
    case 3:
        return far_number(d);
    case 4:
        return far_number(d) + blocks;
    case 5:
        return 0;
    default:
        return below(d, blocks + 1);
    }
}

/* Places and counts: within the frame, about its end, and pairs whose sum, or the count's bytes, wrap to little. */
void any_window(struct decisions *d, size_t blocks, size_t *place, size_t *count)
{
    size_t little = below(d, blocks + 1), k = below(d, 32);
    *place = little;
    *count = below(d, blocks - little + 1);
    switch (below(d, 10)) {
    case 0:
        *count = blocks - little + below(d, 3);
        break;
    case 1:
        *place = any_place(d, blocks);
        *count = any_place(d, blocks);
        break;
    case 2:
        *place = SIZE_MAX - k;
        *count = k + 1 + little;
        break;
    case 3:
        *place = k + 1 + little;
        *count = SIZE_MAX - k;
        break;
    case 4:
        *count = SIZE_MAX / BLOCK + 1 + k;
        break;
    case 5:
        *place = SIZE_MAX / BLOCK + 1 + k;
        break;
    default:
        break;
    }
}
