#!/bin/sh
# Holds the archive against the Rust crate: tests/differential.sh [ARCHIVE]. KEYS and SEED say how many keys and which.
# Where the crate is not at hand, the list of its answers stands in. What is built goes to target/c/differential/.
# It calls itself for the wrong objects, which are tried side by side: tests/differential.sh ARCHIVE PART FAULT.c.
set -eu
cd "$(dirname "$0")/.."
archive=${1:-target/staticlib/libbarkmottle.a}
keys=${KEYS:-10000}
seed=${SEED:-1}
strict="-Wall -Wextra -Werror -std=c11 -O2 -Iinclude -Itests -Itests/compare"
out=target/c/differential
list=crates/check_data/data

fail() {
    echo "differential: $1"
    exit 1
}
# build PROGRAM SOURCES AND ARCHIVES...
build() {
    program=$1
    shift
    # shellcheck disable=SC2086
    ${CC:-cc} $strict "$@" -lpthread -ldl -lm -o "$out/$program" || fail "$program is not built"
}
# lists PROGRAM: whether it makes the list that stands in the repository. It must end well, whatever the list.
lists() {
    rm -rf "$out/list"
    mkdir -p "$out/list"
    "$out/$1" "$out/list" || fail "$1 makes no list"
    for file in "$out/list"/*; do
        cmp -s "$file" "$list/$(basename "$file")" || return 1
    done
}

# An archive with a wrong object in it must be found: by the list, and by the comparison. Each has a folder of its own.
list_finds() {
    out=$out/listed/$(basename "$1" .c)
    mkdir -p "$out"
    tests/wrong/build.sh "$archive" "$1" "$out/wrong.a" || fail "$1 is not built"
    build make_list tests/oracle/make_list.c tests/compare/archive.c "$out/wrong.a"
    if lists make_list; then fail "the list does not find $1"; fi
}
comparison_finds() {
    objects=$out
    out=$out/compared/$(basename "$1" .c)
    mkdir -p "$out"
    tests/wrong/build.sh "$archive" "$1" "$out/wrong.a" || fail "$1 is not built"
    build compare "$objects/compare.o" "$objects/crate.o" "$out/wrong.a" "$objects/oracle/liboracle.a"
    if "$out/compare" --keys 10000 --seed 1 >"$out/wrong.out" 2>&1; then fail "the comparison does not find $1"; fi
    grep -q '^different: ' "$out/wrong.out" || fail "the comparison ends for another reason: $(cat "$out/wrong.out")"
}
beside() { tests/beside.sh tests/differential.sh "$archive" "$@"; }

test -f "$archive" || fail "there is no $archive; run make lib first"
mkdir -p "$out"
if [ $# -gt 1 ]; then
    shift
    "$@"
    exit
fi
status=0
tests/oracle/build.sh "$out/oracle" || status=$?
case $status in
0) crate=yes ;;
3) crate=no ;;
*) fail "the Rust crate is not built" ;;
esac

# The list, made by the archive and, where it is at hand, by the crate.
build make_list tests/oracle/make_list.c tests/compare/archive.c "$archive"
lists make_list || fail "the archive does not give the answers of the list in $list"
answers=$(cd "$out/list" && cat crate-patterns.txt crate-single_bits.txt crate-drawn_?.txt | grep -vc '^#')
echo "differential: the archive gives the $answers answers of the list"
if [ $crate = yes ]; then
    build make_list_crate tests/oracle/make_list.c tests/oracle/crate.c "$out/oracle/liboracle.a"
    lists make_list_crate || fail "the crate does not give the answers of the list in $list"
    echo "differential: so does the crate"
    # The sources are compiled once, and linked to the archive and then to those with a wrong object.
    for source in tests/compare/compare.c tests/oracle/crate.c; do
        # shellcheck disable=SC2086
        ${CC:-cc} $strict -c "$source" -o "$out/$(basename "$source" .c).o" || fail "$source is not built"
    done
    build compare "$out/compare.o" "$out/crate.o" "$archive" "$out/oracle/liboracle.a"
    "$out/compare" --keys "$keys" --seed "$seed" || fail "the archive and the crate differ"
fi

if ! command -v objcopy >/dev/null 2>&1; then
    echo "differential: no wrong objects are tried, as objcopy is not on this machine"
    exit 0
fi
set -- tests/wrong/listed/*.c
printf '%s\n' "$@" | beside list_finds || fail "the list does not find every wrong object"
echo "differential: the list finds each of $# wrong objects"
if [ $crate = no ]; then exit 0; fi
set -- tests/wrong/listed/*.c tests/wrong/compared/*.c
printf '%s\n' "$@" | beside comparison_finds || fail "the comparison does not find every wrong object"
echo "differential: the comparison finds each of $# wrong objects"
