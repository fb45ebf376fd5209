#!/bin/sh
# Tests the exports one by one: tests/exports.sh [ARCHIVE [PART WORDS...]]. What is built goes to target/c/one_by_one/.
# It calls itself for its parts, which run side by side.
set -eu
cd "$(dirname "$0")/.."
archive=${1:-target/staticlib/libbarkmottle.a}
cc=${CC:-cc}
out=target/c/one_by_one
strict="-Wall -Wextra -Werror -std=c11 -Iinclude"

fail() {
    echo "exports: $1"
    exit 1
}
there() { command -v "$1" >/dev/null 2>&1; }
beside() { tests/beside.sh tests/exports.sh "$archive" "$@"; }

# An archive with a wrong object in it must be found.
finds() {
    work=$out/wrong/$(basename "$1" .c)
    mkdir -p "$work"
    tests/wrong/build.sh "$archive" "$1" "$work/archive.a" || fail "$1 is not built"
    $cc "$out/exports.o" "$work/archive.a" -o "$work/exports" || fail "$1 is not linked"
    if "$work/exports" >"$work/out" 2>&1; then fail "the tests of the exports do not find $1"; fi
    grep -q '^wrong: ' "$work/out" || fail "the tests end for another reason: $(cat "$work/out")"
}
wrong() {
    if there objcopy; then
        set -- tests/wrong/exports/*.c
        printf '%s\n' "$@" | beside finds || fail "not every wrong object is found"
        echo "exports: each of $# wrong objects is found"
    else
        echo "exports: no wrong objects are tried, as objcopy is not on this machine"
    fi
}
# The sanitizers watch the test program, valgrind what the archive does as well.
sanitized() {
    sanitize=$(tests/sanitizers.sh)
    if [ -n "$sanitize" ]; then
        # shellcheck disable=SC2086
        $cc $strict -O1 -g $sanitize tests/exports.c "$archive" -o "$out/sanitized" || fail "it is not built"
        "$out/sanitized" >"$out/sanitized.out" || fail "the sanitizers find a fault"
        cmp "$out/sanitized.out" "$out/plain.out" || fail "with the sanitizers an export answers something else"
        echo "exports: the same with the sanitizers for addresses and undefined behaviour"
    else
        echo "exports: the compiler has no sanitizers on this machine"
    fi
}
under_valgrind() {
    if there valgrind; then
        valgrind -q --error-exitcode=9 "$out/exports" >"$out/valgrind.out" || fail "valgrind finds a fault"
        cmp "$out/valgrind.out" "$out/plain.out" || fail "under valgrind an export answers something else"
        echo "exports: the same under valgrind"
    else
        echo "exports: valgrind is not on this machine"
    fi
}

test -f "$archive" || fail "there is no $archive; run make lib first"
mkdir -p "$out"
if [ $# -gt 1 ]; then
    shift
    "$@"
    exit
fi

# The source is compiled once, and linked to the archive and then to those with a wrong object.
# shellcheck disable=SC2086
$cc $strict -O2 -c tests/exports.c -o "$out/exports.o" || fail "tests/exports.c is not built"
$cc "$out/exports.o" "$archive" -o "$out/exports" || fail "it is not linked"
"$out/exports" --self-test || fail "the tests of the exports do not find every fault"
"$out/exports" >"$out/plain.out" || fail "an export answers something else: $(cat "$out/plain.out")"
cat "$out/plain.out"
printf '%s\n' wrong sanitized under_valgrind | beside || fail "a part of the tests fails"
