#!/bin/sh
# Feeds the exports hostile input: tests/hostile.sh [ARCHIVE [PART WORDS...]]. What is built goes to target/c/hostile/.
# CALLS, SEED and RUNS change how many calls are made, from which seed, and how many inputs libFuzzer makes.
# It calls itself for its parts, which run side by side.
set -eu
cd "$(dirname "$0")/.."
archive=${1:-target/staticlib/libbarkmottle.a}
cc=${CC:-cc}
calls=${CALLS:-1000000}
seed=${SEED:-1}
runs=${RUNS:-20000}
out=target/c/hostile
strict="-Wall -Wextra -Werror -std=c11 -Iinclude -Itests"

fail() {
    echo "hostile: $1"
    exit 1
}
there() { command -v "$1" >/dev/null 2>&1; }
beside() { tests/beside.sh tests/hostile.sh "$archive" "$@"; }

# Every wrong export is found, and said in words.
finds() {
    work=$out/wrong/$(basename "$1" .c)
    mkdir -p "$work"
    tests/wrong/build.sh "$archive" "$1" "$work/archive.a" || fail "$1 is not built"
    $cc "$out"/*.o "$work/archive.a" -o "$work/hostile" || fail "$1 is not linked"
    status=0
    "$work/hostile" --calls 300000 --seed "$seed" >"$work/out" 2>"$work/err" || status=$?
    if [ "$status" -ne 1 ] || ! grep -q '^wrong: ' "$work/err"; then fail "$1 is not found: status $status"; fi
}
wrong() {
    if there objcopy; then
        set -- tests/wrong/hostile/*.c
        printf '%s\n' "$@" | beside finds || fail "not every wrong export is found"
        echo "hostile: each of $# wrong exports is found"
    else
        echo "hostile: no wrong exports are tried, as objcopy is not on this machine"
    fi
}

# The sanitizers watch the test program, valgrind what the archive does as well.
sanitized() {
    sanitize=$(tests/sanitizers.sh)
    if [ -n "$sanitize" ]; then
        # shellcheck disable=SC2086
        $cc $strict -O1 -g $sanitize tests/hostile/*.c "$archive" -o "$out/sanitized" || fail "it is not built"
        "$out/sanitized" --calls "$calls" --seed "$seed" >"$out/sanitized.out" || fail "the sanitizers find a fault"
        cmp "$out/sanitized.out" "$out/plain.out" || fail "with the sanitizers an export answers something else"
        echo "hostile: the same with the sanitizers for addresses and undefined behaviour"
    else
        echo "hostile: the compiler has no sanitizers on this machine"
    fi
}
under_valgrind() {
    if there valgrind; then
        "$out/hostile" --calls 50000 --seed "$seed" >"$out/fewer.out" || fail "an export answers something else"
        valgrind -q --error-exitcode=9 "$out/hostile" --calls 50000 --seed "$seed" >"$out/valgrind.out" ||
            fail "valgrind finds a fault"
        cmp "$out/valgrind.out" "$out/fewer.out" || fail "under valgrind an export answers something else"
        echo "hostile: no error under valgrind: $(grep -o '[0-9]* calls' "$out/valgrind.out"), and the same answers"
    else
        echo "hostile: valgrind is not on this machine"
    fi
}

# libFuzzer makes inputs from those that reached something new. It finds the last of the wrong exports, too.
# fuzz FOLDER ARCHIVE: from nothing, that many inputs, or up to the first fault.
fuzz() {
    rm -rf "$1/corpus"
    mkdir -p "$1/corpus"
    clang -fsanitize=fuzzer "$out"/fuzzed/*.o "$2" -o "$1/fuzzer" || fail "libFuzzer's program is not linked"
    (cd "$1" && ./fuzzer -seed="$seed" -runs="$runs" -max_len=400 corpus) >"$1/out" 2>&1
}
fuzz_wrong() {
    work=$out/fuzzed/wrong
    mkdir -p "$work"
    for fault in tests/wrong/hostile/*.c; do last=$fault; done
    tests/wrong/build.sh "$archive" "$last" "$work/archive.a" || fail "$last is not built"
    if fuzz "$work" "$work/archive.a"; then fail "libFuzzer does not find a wrong export"; fi
    grep -q '^wrong: ' "$work/out" || fail "libFuzzer's program ends without a word"
}
fuzz_right() {
    work=$out/fuzzed/right
    fuzz "$work" "$archive" || fail "libFuzzer finds a fault: $(grep '^wrong: ' "$work/out")"
    echo "hostile: nothing wrong in $runs inputs that libFuzzer made; it kept $(find "$work/corpus" -type f | wc -l)"
}
fuzzed() {
    mkdir -p "$out/fuzzed"
    cat >"$out/fuzzed/nothing.c" <<'C'
#include <stddef.h>
int LLVMFuzzerTestOneInput(const unsigned char *data, size_t size);
int LLVMFuzzerTestOneInput(const unsigned char *data, size_t size) { return data != NULL && size > 9999; }
C
    if there clang && clang -fsanitize=fuzzer "$out/fuzzed/nothing.c" -o "$out/fuzzed/nothing" 2>/dev/null; then
        rm -f "$out"/fuzzed/*.o
        for source in tests/hostile/*.c; do
            # shellcheck disable=SC2086
            clang $strict -O1 -g -DLIBFUZZER -fsanitize=fuzzer -c "$source" \
                -o "$out/fuzzed/$(basename "$source" .c).o" || fail "$source is not built for libFuzzer"
        done
        set -- fuzz_right
        if there objcopy; then set -- fuzz_wrong fuzz_right; fi
        printf '%s\n' "$@" | beside || fail "a part with libFuzzer fails"
    else
        echo "hostile: libFuzzer is not on this machine"
    fi
}

test -f "$archive" || fail "there is no $archive; run make lib first"
mkdir -p "$out"
if [ $# -gt 1 ]; then
    shift
    "$@"
    exit
fi

# Each source is compiled once, and linked to the archive and then to those with a wrong export.
rm -f "$out"/*.o
for source in tests/hostile/*.c; do
    # shellcheck disable=SC2086
    $cc $strict -O2 -c "$source" -o "$out/$(basename "$source" .c).o" || fail "$source is not built"
done
$cc "$out"/*.o "$archive" -o "$out/hostile" || fail "it is not linked"
"$out/hostile" --self-test || fail "the checks of damaged logs do not find every fault"
"$out/hostile" --calls "$calls" --seed "$seed" >"$out/plain.out" || fail "an export answers something else"
cat "$out/plain.out"
# all_seen FILE: every number of every export was answered, and every kind of damage was done.
all_seen() { grep -q ' \([0-9]*\) of \1 pairs' "$1" && grep -q ' \([0-9]*\) of \1 kinds' "$1"; }
all_seen "$out/plain.out" || fail "not every number or damage was seen"
"$out/hostile" --case 0 --seed "$seed" >"$out/one.out" || fail "an export answers something else"
if all_seen "$out/one.out"; then fail "one case is taken for all"; fi

printf '%s\n' wrong sanitized under_valgrind fuzzed | beside || fail "a part of the tests fails"
