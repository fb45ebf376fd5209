#!/bin/sh
# Tests the header, the archive's symbols, the samples and the host: tests/run.sh [ARCHIVE]. What is built goes to
# target/c/.
set -eu
cd "$(dirname "$0")/.."
archive=${1:-target/staticlib/libbarkmottle.a}
cc=${CC:-cc}
cxx=${CXX:-c++}
out=target/c
strict="-Wall -Wextra -Werror -Iinclude"
sanitize=$(tests/sanitizers.sh)

fail() {
    echo "C: $1"
    exit 1
}
# build NAME SOURCE FLAGS...: compiles one file and links it to the archive.
build() {
    name=$1
    source=$2
    shift 2
    # shellcheck disable=SC2086
    $cc $strict "$@" "$source" "$archive" -o "$out/$name" || fail "$source is not built"
}
there() { command -v "$1" >/dev/null 2>&1; }

test -f "$archive" || fail "there is no $archive; run make lib first"
mkdir -p "$out"

# The header against the source, and as C99, C11 and C++.
tests/header.sh || fail "the header and the source differ"
tests/thin.sh || fail "an export is not the library's function"
cat >"$out/twice.c" <<'C'
#include "barkmottle.h"
#include "barkmottle.h"
int main(void) { return barkmottle_open_frame(NULL, 0) == BARKMOTTLE_FRAME_LENGTH ? 0 : 1; }
C
for standard in c99 c11; do
    build twice "$out/twice.c" -std=$standard -pedantic
    "$out/twice" || fail "a program in $standard gets another number"
done
if there "$cxx"; then
    # shellcheck disable=SC2086
    $cxx $strict -pedantic -x c++ "$out/twice.c" -x none "$archive" -o "$out/twice" || fail "the header is not C++"
    "$out/twice" || fail "a program in C++ gets another number"
    echo "languages: C99, C11 and C++ take the header"
else
    echo "languages: C99 and C11 take the header; there is no C++ compiler on this machine"
fi

# The archive has the functions of the header and no other, calls nothing that could allocate, and keeps no data.
# shellcheck disable=SC2016
strange='$2 == "U" && $1 !~ /^mem(cpy|move|set|cmp)$/ { print "calls " $1 }
    $2 ~ /^[BbCcDdGgSs]$/ { print "keeps " $1 }
    $2 ~ /^[TWV]$/ && $1 !~ /^barkmottle_/ { print "defines " $1 }'
if there nm; then
    nm -P "$archive" >"$out/symbols"
    awk "$strange" "$out/symbols" >"$out/strange"
    test ! -s "$out/strange" || fail "the archive $(cat "$out/strange")"
    awk '$2 == "T" { print $1 }' "$out/symbols" | sort >"$out/defined"
    grep -o 'barkmottle_[a-z_]*(' include/barkmottle.h | tr -d '(' | sort >"$out/declared"
    diff "$out/declared" "$out/defined" || fail "the archive does not have the header's functions"
    for other in 'malloc U' 'counter b 0 8' 'other T 0 8'; do
        test -n "$(echo "$other" | awk "$strange")" || fail "the test of the archive takes '$other'"
    done
    echo "archive: $(wc -l <"$out/defined") functions, nothing allocated, no data that is kept"
else
    echo "archive: not looked into, as nm is not on this machine"
fi

# The sample logs are what make_samples makes, and differ in one bit: byte 120, 0x10.
build make_samples examples/make_samples.c -std=c99 -pedantic
mkdir -p "$out/samples"
rm -f "$out/samples"/*
"$out/make_samples" "$out/samples" || fail "the samples are not made"
for sample in key.txt healthy.frame damaged.frame; do
    cmp "$out/samples/$sample" "examples/$sample" || fail "examples/$sample is not what make_samples makes"
done
cmp -l examples/healthy.frame examples/damaged.frame >"$out/flipped" || true
# shellcheck disable=SC2016
one_bit='function value(octal) { return int(octal / 100) * 64 + int(octal / 10) % 10 * 8 + octal % 10 }
    { a = value($2); b = value($3) }
    $1 != 120 || a == b || a % 16 != b % 16 || int(a / 32) != int(b / 32) { other = 1 }
    END { exit NR != 1 || other }'
awk "$one_bit" "$out/flipped" || fail "the samples do not differ in that one bit"
for other in '119 1 21' '120 20 40' '120 1 1' '120 1 22' ''; do
    if echo "$other" | awk "$one_bit"; then fail "the test for one bit takes '$other'"; fi
done
echo "samples: made again, the same"

# So are the files of the program that runs the command on many cases.
build make_cases tests/make_cases.c -std=c99 -pedantic
mkdir -p "$out/cases"
rm -f "$out/cases"/*
(cd "$out/cases" && ../make_cases) || fail "the cases are not made"
diff -r "$out/cases" crates/check_gatelog/data || fail "crates/check_gatelog/data is not what make_cases makes"
cmp "$out/cases/spots.frame" crates/check_gatelog/stdin || fail "crates/check_gatelog/stdin is another log"
echo "cases: made again, the same"

# So are the lines that document 01 says, which the plain cipher and the law work out without the archive.
# shellcheck disable=SC2086
$cc $strict -Itests -std=c11 -O2 tests/make_lines.c tests/hostile/law.c -o "$out/make_lines" ||
    fail "make_lines is not built"
mkdir -p "$out/lines"
rm -f "$out/lines"/*
(cd "$out/lines" && ../make_lines) || fail "the lines are not made"
for lines in "$out/lines"/*; do
    cmp "$lines" "crates/check_data/data/$(basename "$lines")" || fail "$lines is not what crates/check_data/data has"
done
echo "lines: made again, the same"

# The host on the samples, and on what it must refuse.
# shellcheck disable=SC2086
build host examples/host.c -std=c99 -pedantic $sanitize
# lists NAME KEYFILE FRAMEFILE: the host writes what tests/host.NAME.expected has.
lists() {
    "$out/host" "$2" "$3" >"$out/$1.out" || fail "the host refuses the log: $1"
    diff "tests/host.$1.expected" "$out/$1.out" || fail "the host lists something else: $1"
}
lists healthy examples/key.txt examples/healthy.frame
lists damaged examples/key.txt examples/damaged.frame
# A wrong key is not noticed; most blocks are unreadable, the last ones among them.
printf '%064d\n' 0 >"$out/wrong.txt"
lists wrong_key "$out/wrong.txt" examples/healthy.frame
# refuses SENTENCE WORDS...: the host says so on standard error and ends with status 1.
refusals=0
refuses() {
    sentence=$1
    shift
    status=0
    "$out/host" "$@" >"$out/refused.out" 2>"$out/refused.err" || status=$?
    test "$status" -eq 1 || fail "the host ends with status $status where it should say: $sentence"
    grep -q "$sentence" "$out/refused.err" || fail "the host does not say: $sentence"
    refusals=$((refusals + 1))
}
cut_to() { dd if="$1" bs=1 count="$2" 2>/dev/null; }
for length in 0 20 21 212; do
    cut_to examples/healthy.frame "$length" >"$out/cut.frame"
    refuses "number 6, it is cut off" examples/key.txt "$out/cut.frame"
done
{ cat examples/healthy.frame && echo; } >"$out/long.frame"
refuses "number 6, it is cut off" examples/key.txt "$out/long.frame"
{ printf '\000\000\000\021\002' && cut_to examples/key.txt 16; } >"$out/version.frame"
refuses "number 7, its version" examples/key.txt "$out/version.frame"
{ printf '\000\000\000\022\001' && cut_to examples/key.txt 17; } >"$out/ragged.frame"
refuses "number 2, it does not end" examples/key.txt "$out/ragged.frame"
dd if=/dev/zero of="$out/huge.frame" bs=5000 count=1 2>/dev/null
refuses "longer than any frame" examples/key.txt "$out/huge.frame"
cut_to examples/key.txt 30 >"$out/short.txt"
refuses "number 1, the key is not 16 to 32 bytes" "$out/short.txt" examples/healthy.frame
{ cat examples/key.txt && echo 00; } >"$out/long.txt"
refuses "number 1, the key is not 16 to 32 bytes" "$out/long.txt" examples/healthy.frame
cut_to examples/key.txt 31 >"$out/odd.txt"
refuses "cannot be read as a key" "$out/odd.txt" examples/healthy.frame
refuses "cannot be read as a key" examples/healthy.frame examples/healthy.frame
refuses "cannot be read as a key" "$out/none" examples/healthy.frame
refuses "cannot be opened" examples/key.txt "$out/none"
refuses "usage" examples/key.txt
if [ -c /dev/full ]; then
    if "$out/host" examples/key.txt examples/healthy.frame >/dev/full 2>/dev/null; then
        fail "the host does not notice that nothing could be written"
    fi
fi
echo "host: both samples, and one under a wrong key, listed as expected; $refusals refusals said"

if there groff; then
    groff -man -ww -z man/gatelog.1 >"$out/man.log" 2>&1 || fail "groff refuses the manual page"
    test ! -s "$out/man.log" || fail "the manual page: $(cat "$out/man.log")"
    echo "manual: no complaint of groff"
else
    echo "manual: groff is not on this machine"
fi

echo "C: all passed"
