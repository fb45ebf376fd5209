/* host KEYFILE FRAMEFILE lists the events of a log. KEYFILE has the key in hexadecimal digits.
 * Exit status: 0 listed; 1 something was refused, or could not be read or written. */
#include <ctype.h>
#include <stdio.h>
#include <time.h>

#include "barkmottle.h"

#define MOST_FRAME (BARKMOTTLE_FRAME_HEADER + BARKMOTTLE_MOST_BLOCKS * BARKMOTTLE_BLOCK)
#define WINDOW 6
#define SECONDS_1970_TO_2000 946684800

/* Each buffer has one byte more than is ever needed, so that too long a file is noticed. */
static uint8_t key[BARKMOTTLE_PADDED_KEY + 1], frame[MOST_FRAME + 1];
static size_t key_length, frame_length;

/* The two slices that a search takes. */
#define LOG key, key_length, frame, frame_length

static int fail(const char *what, const char *why)
{
    fprintf(stderr, "host: %s: %s\n", what, why);
    return 1;
}

static int refused(const char *what, uint32_t number)
{
    static const char *const meanings[] = {
        "done", "the key is not 16 to 32 bytes long", "it does not end in a whole block",
        "the start block is not 16 bytes long", "it has more than 256 blocks", "the buffer is too short",
        "it is cut off, or its length field does not agree with it", "its version is not 1", "there is no such box",
        "the place is beyond its blocks", "the event is not readable", "there is no readable event",
    };
    fprintf(stderr, "host: %s: number %u, %s\n", what, (unsigned)number, number < 12 ? meanings[number] : "unknown");
    return 1;
}

static int read_key(const char *path)
{
    FILE *file = fopen(path, "r");
    size_t digits = 0;
    int c, bad = file == NULL;
    while (!bad && (c = getc(file)) != EOF) {
        int digit = isdigit(c) ? c - '0' : tolower(c) - 'a' + 10;
        if (isspace(c))
            continue;
        bad = !isxdigit(c) || digits == 2 * sizeof key;
        if (!bad)
            key[digits / 2] = (uint8_t)(key[digits / 2] << 4 | digit);
        digits++;
    }
    key_length = digits / 2;
    bad = bad || ferror(file) || digits % 2 != 0;
    if (file != NULL)
        fclose(file);
    return bad ? fail(path, "cannot be read as a key in hexadecimal digits") : 0;
}

static int read_frame(const char *path)
{
    FILE *file = fopen(path, "rb");
    if (file == NULL)
        return fail(path, "cannot be opened");
    frame_length = fread(frame, 1, sizeof frame, file);
    int bad = ferror(file) || frame_length == sizeof frame;
    fclose(file);
    return bad ? fail(path, "cannot be read, or is longer than any frame") : 0;
}

/* The wall clock's seconds are shown as they stand, so both units of time go through gmtime. */
static void print_time(const char *before, int64_t seconds)
{
    time_t shifted = (time_t)(seconds + SECONDS_1970_TO_2000);
    char text[32];
    strftime(text, sizeof text, "%Y-%m-%d %H:%M:%S", gmtime(&shifted));
    printf("%s%s", before, text);
}

static void print_event(size_t place)
{
    static const char *const classes[] = {"idle", "measurement", "grid fault", "disconnect", "reconnect"};
    printf("%3zu", place);
    print_time("  ", barkmottle_search_wall(LOG, place));
    print_time("  UTC ", barkmottle_search_utc(LOG, place));
    printf("  %-11s", classes[barkmottle_search_class(LOG, place)]);
    printf("  inverter %u", (unsigned)barkmottle_search_inverter(LOG, place));
    printf("  value %ld", (long)barkmottle_search_value(LOG, place));
    printf("  sequence %lu", (unsigned long)barkmottle_search_sequence(LOG, place));
}

/* A search from each place goes to the next readable event; the blocks that it passes over are damaged. */
static int list_events(void)
{
    size_t place = 0, found;
    uint32_t number;
    while ((number = barkmottle_search(LOG, place)) == BARKMOTTLE_DONE) {
        int doubtful = (found = barkmottle_search_place(LOG, place)) > place;
        for (; place < found; place++)
            printf("%3zu  unreadable\n", place);
        print_event(place++);
        puts(doubtful ? "  doubtful: damage to the block before it changes this one too" : "");
    }
    if (number != BARKMOTTLE_NO_EVENT)
        return refused("the log", number);
    for (found = place + barkmottle_search_tries(LOG, place); place < found; place++)
        printf("%3zu  unreadable\n", place);
    return 0;
}

/* Whether the search says of a place what its deciphered block says. */
static int agrees(const uint8_t *event, size_t place)
{
    uint32_t number = barkmottle_read_event(event, BARKMOTTLE_BLOCK);
    if (barkmottle_search(LOG, place) != BARKMOTTLE_DONE || barkmottle_search_place(LOG, place) != place)
        return number == BARKMOTTLE_NOT_READABLE;
    return number == BARKMOTTLE_DONE &&
           barkmottle_event_utc(event, BARKMOTTLE_BLOCK) == barkmottle_search_utc(LOG, place) &&
           barkmottle_event_sequence(event, BARKMOTTLE_BLOCK) == barkmottle_search_sequence(LOG, place);
}

static int compare_window(size_t blocks)
{
    uint8_t texts[WINDOW * BARKMOTTLE_BLOCK];
    size_t count = blocks < WINDOW ? blocks : WINDOW, first = blocks - count;
    uint32_t number = barkmottle_read_window(LOG, first, count, texts, sizeof texts);
    if (number != BARKMOTTLE_DONE)
        return refused("the window", number);
    for (size_t i = 0; i < count; i++)
        if (!agrees(texts + i * BARKMOTTLE_BLOCK, first + i))
            return fail("the window", "it does not agree with the search");
    printf("A window of the last %zu blocks agrees with the search.\n", count);
    return 0;
}

int main(int count, char **words)
{
    if (count != 3)
        return fail("usage", "host KEYFILE FRAMEFILE");
    if (read_key(words[1]) || read_frame(words[2]))
        return 1;
    uint32_t number = barkmottle_open_frame(frame, frame_length);
    if (number != BARKMOTTLE_DONE)
        return refused(words[2], number);
    size_t blocks = barkmottle_frame_length(frame, frame_length) / BARKMOTTLE_BLOCK;
    printf("The frame opens and has %zu blocks.\n", blocks);
    if (list_events() || compare_window(blocks))
        return 1;
    return fflush(stdout) != 0 || ferror(stdout) ? fail("the list", "not all could be written") : 0;
}
