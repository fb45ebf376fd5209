/*
 * The fuzz target, and a program that feeds it from a seed: hostile [--calls N] [--seed S] [--case K].
 * It ends with status 1 at the first fault, and says which it is. With --case, that case alone is run.
 * hostile --self-test shows that the checks of damaged logs can fail; tests/wrong/hostile/ shows it of the others.
 * Compiled with -DLIBFUZZER, the target is libFuzzer's to feed.
 */
#define _GNU_SOURCE
#include <inttypes.h>
#include <stdio.h>
#include <stdlib.h>
#include <string.h>
#include <sys/wait.h>
#include <unistd.h>

#include "hostile.h"
#include "options.h"

enum { CALLS_OF_A_CASE = 2000, LONGEST_CASE = 400 };

int LLVMFuzzerInitialize(int *count, char ***words);
int LLVMFuzzerTestOneInput(const uint8_t *data, size_t size);

int LLVMFuzzerInitialize(int *count, char ***words)
{
    (void)count, (void)words;
    prepare();
    return 0;
}

int LLVMFuzzerTestOneInput(const uint8_t *data, size_t size)
{
    static void (*const groups[])(struct decisions *) = {try_sealed,    try_damaged, try_chains,
                                                         try_any_frame, try_keys,    try_words,
                                                         try_blocks,    try_events,  try_damaged_header};
    struct decisions d = {data, size};
    const unsigned long limit = tally.calls + CALLS_OF_A_CASE;
    do
        groups[below(&d, sizeof groups / sizeof *groups)](&d);
    while (d.left > 0 && tally.calls < limit);
    return 0;
}

#ifndef LIBFUZZER

/* Each case is made from the seed and its number alone. */
static void run_case(unsigned long number)
{
    static uint8_t bytes[LONGEST_CASE];
    uint64_t state = tally.seed, apart = drawn(&state) + number;
    const size_t size = drawn(&apart) % (LONGEST_CASE + 1);
    draw_bytes(&apart, bytes, size);
    tally.cases = number;
    LLVMFuzzerTestOneInput(bytes, size);
}

static unsigned long calls_of(enum export first, enum export last)
{
    unsigned long calls = 0;
    for (enum export export = first; export <= last; export++)
        calls += tally.of[export];
    return calls;
}

/* How often each number was answered, and which pairs of an export and a number of its order were seen. */
static void say_numbers(void)
{
    unsigned pairs = 0, seen = 0;
    printf("hostile: answers by their number:");
    for (int number = 0; number < NUMBERS; number++) {
        unsigned long times = 0;
        for (int export = 0; export < COUNT; export++) {
            times += tally.numbers[export][number];
            pairs += (exports[export].numbers & N(number)) != 0;
            seen += tally.numbers[export][number] > 0;
        }
        if (times > 0)
            printf(" %d: %lu", number, times);
    }
    printf("; %u of %u pairs of export and number\n", seen, pairs);
}

static void say_damages(void)
{
    static const char *const names[DAMAGES] = {
        [FLIPPED] = "bits flipped", [REPLACED] = "blocks replaced", [RESIZED] = "by more or fewer",
        [INSERTED] = "inserted",    [REMOVED] = "removed",          [NEW_START] = "start block",
        [FIELD] = "length field",   [VERSION] = "version",          [CUT] = "cut short",
        [LONGER] = "bytes added"};
    int seen = 0;
    printf("hostile: damages:");
    for (int i = 0; i < DAMAGES; i++) {
        printf(" %s %lu,", names[i], tally.damages[i]);
        seen += tally.damages[i] > 0;
    }
    printf(" %d of %d kinds\n", seen, DAMAGES);
}

static void say_all(unsigned long cases)
{
    say_numbers();
    say_damages();
    printf("hostile: %lu calls in %lu cases (cipher steps %lu, chains %lu, frames %lu, windows %lu, events %lu, "
           "searches %lu), %lu checks, nothing wrong\n",
           tally.calls, cases, calls_of(e_expand_key, e_decrypt_block), calls_of(e_encrypt_chain, e_decrypt_chain),
           calls_of(e_open_frame, e_frame_length), calls_of(e_read_window, e_read_window),
           calls_of(e_read_event, e_event_sequence), calls_of(e_search, e_search_sequence), tally.checks);
}

/* Whether a check ends the program where that text stands in place of the right one. What it says is not shown. */
static int found_exchanged(size_t place, size_t other)
{
    int status = 0;
    pid_t child = fork();
    if (child == 0) {
        fclose(stderr);
        check_exchanged(place, other);
        _exit(0);
    }
    return child > 0 && waitpid(child, &status, 0) == child && WIFEXITED(status) && WEXITSTATUS(status) == 1;
}

/* Place 3 is damaged, place 4 comes first behind the damage and was place 5, place 5 was place 6. */
static int self_test(void)
{
    int found = !found_exchanged(0, 0); /* a right text is not found at fault */
    found += !found_exchanged(5, 6);
    found += found_exchanged(2, 1);
    found += found_exchanged(3, 3);
    found += found_exchanged(4, 5);
    found += found_exchanged(5, 5);
    found += found_exchanged(6, 6);
    printf("hostile: self-test: %d of 7 found\n", found);
    return found == 7 ? 0 : 1;
}

int main(int count, char **words)
{
    struct option options[] = {{"--calls", 300000, 0}, {"--seed", 1, 0}, {"--case", 0, 0}};
    unsigned long cases = 0;
    if (count == 2 && strcmp(words[1], "--self-test") == 0) {
        prepare();
        return self_test();
    }
    read_options(count, words, options, 3);
    tally.seed = options[1].number;
    printf("hostile: seed %" PRIu64 "\n", tally.seed);
    fflush(stdout);
    prepare();
    if (options[2].given) {
        run_case((unsigned long)options[2].number);
        cases = 1;
    } else {
        while (tally.calls < options[0].number)
            run_case(cases++);
    }
    say_all(cases);
    return 0;
}

#endif
