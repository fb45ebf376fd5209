/*
 * One call of an export, made twice: once flush against the page behind its slices and once flush against the page
 * before them, with null pointers for empty slices in some, and with each byte of the output's room filled otherwise.
 * An input is not compared afterwards: the pages that lend it cannot be written, and a write ends the program.
 */
#define _GNU_SOURCE
#include <stdarg.h>
#include <stdio.h>
#include <stdlib.h>
#include <string.h>
#include <unistd.h>

#include "hostile.h"
#include "rooms.h"

struct tally tally;
static struct call last; /* the call that is made, or was made last */
static enum pass last_pass;
static uint8_t *fillers[2]; /* a room of bytes each; no byte is the same in both */

/* The archive is not instrumented, so libFuzzer is told by these what an input has reached: each pair of an export
 * and a number (of a field: whether it is zero, below or above), and each kind of damage. */
#ifdef LIBFUZZER
__attribute__((section("__libfuzzer_extra_counters"))) static uint8_t reached[COUNT * NUMBERS + DAMAGES];

static void reach(size_t at)
{
    if (reached[at] < UINT8_MAX)
        reached[at]++;
}
#else
static void reach(size_t at)
{
    (void)at;
}
#endif

void count_damage(enum damage damage)
{
    tally.damages[damage]++;
    reach(COUNT * NUMBERS + damage);
}

static void count_call(enum export export, int64_t value)
{
    tally.calls++;
    tally.of[export]++;
    if (exports[export].numbers == 0) {
        reach(export * NUMBERS + (value == 0 ? 0 : value < 0 ? 1 : 2));
    } else if (value >= 0 && value < NUMBERS) {
        tally.numbers[export][value]++;
        reach(export * NUMBERS + (size_t)value);
    }
}

/* ---- Faults ---- */

/* An input with its first bytes, which still stand in its room. */
static void describe_input(int room)
{
    size_t length = last.in[room].length;
    const uint8_t *bytes = rooms[room].own + place_in_room(length, last_pass);
    fprintf(stderr, "  input %d of %zu bytes:", room + 1, length);
    for (size_t i = 0; i < length && i < 48; i++)
        fprintf(stderr, " %02x", bytes[i]);
    fprintf(stderr, "%s\n", length > 48 ? " ..." : "");
}

static void describe_call(void)
{
    fprintf(stderr, "  the call was of barkmottle_%s, with each slice %s:\n", exports[last.export].name,
            pass_names[last_pass]);
    for (int i = 0; i < exports[last.export].inputs; i++)
        describe_input(i);
    if (last.export == e_apply_s || last.export == e_apply_s_inv)
        fprintf(stderr, "  index %zu\n", last.number[0]);
    if (last.export == e_read_window || last.export >= e_search)
        fprintf(stderr, "  place %zu\n", last.number[0]);
    if (last.export == e_read_window)
        fprintf(stderr, "  count %zu\n", last.number[1]);
    if (exports[last.export].writes)
        fprintf(stderr, "  an output buffer of %zu bytes\n", last.out);
}

_Noreturn static void end_at_fault(void)
{
    describe_call();
#ifdef LIBFUZZER
    abort();
#else
    const unsigned long long seed = tally.seed;
    fprintf(stderr, "  to see it again: hostile --seed %llu --case %lu\n", seed, tally.cases);
    fprintf(stderr, "  or, where it depends on the cases before: hostile --seed %llu\n", seed);
    _exit(1);
#endif
}

void check(int good, const char *format, ...)
{
    tally.checks++;
    if (good)
        return;
    va_list words;
    va_start(words, format);
    fprintf(stderr, "wrong: %s: ", exports[last.export].name);
    vfprintf(stderr, format, words);
    fprintf(stderr, "\n");
    va_end(words);
    end_at_fault();
}

/* What was touched, by its address. */
static const char *touch(int room, const uint8_t *at)
{
    const uint8_t *begin = rooms[room].lent, *end = begin + room_size;
    if (at < begin - page_size || at >= end + page_size)
        return NULL;
    if (at < begin)
        return "a byte before its beginning was touched";
    return at >= end ? "a byte behind its end was touched" : "it was written";
}

static void touched(int signal, siginfo_t *about, void *context)
{
    static const char *const names[ROOMS] = {"input 1", "input 2", "input 3", "the output buffer"};
    (void)signal, (void)context;
    for (int i = 0; i < ROOMS; i++) {
        const char *what = touch(i, about->si_addr);
        if (what != NULL)
            check(0, "%s: %s", names[i], what);
    }
    check(0, "memory was touched that was not lent, at %p", about->si_addr);
}

/* ---- Calls ---- */

void prepare(void)
{
    make_rooms();
    catch_touches(touched);
    for (int i = 0; i < 2; i++) {
        fillers[i] = malloc(room_size);
        if (fillers[i] == NULL)
            exit(2);
        for (size_t at = 0; at < room_size; at++)
            fillers[i][at] = (uint8_t)(i == 0 ? filler(at) : ~filler(at));
    }
}

static void lend(const struct call *call, enum pass pass, const uint8_t *filling, struct lent *lent)
{
    for (int i = 0; i < exports[call->export].inputs; i++) {
        lent->in_length[i] = call->in[i].length;
        lent->in[i] = lend_bytes(i, call->in[i].bytes, call->in[i].length, pass);
    }
    memcpy(rooms[OUT_ROOM].own, filling, room_size);
    lent->out_length = call->out;
    lent->out = lend_room(OUT_ROOM, call->out, pass);
    memcpy(lent->number, call->number, sizeof lent->number);
}

static void check_same(const uint8_t *got, const uint8_t *want, size_t length, const char *where, const char *why)
{
    size_t at = 0;
    if (length > 0 && memcmp(got, want, length) != 0)
        while (got[at] == want[at])
            at++;
    else
        at = length;
    check(at == length, "%s: byte %zu is 0x%02x in place of 0x%02x, %s", where, at, at == length ? 0 : got[at],
          at == length ? 0 : want[at], why);
}

/* The whole of the output's room: the answer, where it is known, and all around it as it was before. */
static void check_room(const struct call *call, const struct due *due, const uint8_t *filling, enum pass pass)
{
    const uint8_t *room = rooms[OUT_ROOM].own;
    size_t begin = place_in_room(call->out, pass), end = begin + due->length;
    check_same(room, filling, begin, "before the output buffer", "as it was before the call");
    if (due->bytes != NULL)
        check_same(room + begin, due->bytes, due->length, "the answer", due->why);
    check_same(room + end, filling + end, room_size - end, due->length > 0 ? "past the answer" : "the output buffer",
               "as it was before the call");
}

static void run(const struct call *call, const struct due *due, const uint8_t *filling, enum pass pass)
{
    struct lent lent = {.out = NULL};
    last = *call;
    last_pass = pass;
    lend(call, pass, filling, &lent);
    int64_t got = invoke(call->export, &lent);
    count_call(call->export, got);
    unsigned numbers = exports[call->export].numbers;
    if (numbers != 0)
        check(got >= 0 && got < NUMBERS && (numbers & N(got)) != 0, "returned %lld, no number of its order",
              (long long)got);
    check(got == due->value, "returned %lld in place of %lld", (long long)got, (long long)due->value);
    check_room(call, due, filling, pass);
}

const uint8_t *ask(struct decisions *d, const struct call *call, struct due due)
{
    static const enum pass passes[4][2] = {{BEHIND, BEFORE}, {BEFORE, BEHIND}, {NULLS, BEFORE}, {BEFORE, NULLS}};
    static uint8_t answer[(MOST + 1) * BLOCK];
    const enum pass *pass = passes[below(d, 4)];
    run(call, &due, fillers[0], pass[0]);
    memcpy(answer, rooms[OUT_ROOM].own + place_in_room(call->out, pass[0]), due.length);
    if (due.bytes == NULL) {
        due.bytes = answer;
        due.why = "as the same call answered before";
    }
    run(call, &due, fillers[1], pass[1]);
    return answer;
}
