#!/bin/sh
# Runs the command as a person would: tests/command.sh [GATELOG]. What it leaves goes to target/c/command/.
set -eu
cd "$(dirname "$0")/.."
gatelog=${1:-target/gatelog}
out=target/c/command
key=examples/key.txt
frame=examples/healthy.frame
calls=0

fail() {
    echo "command: $1"
    exit 1
}
# run STATUS WORDS...: what it writes is kept in $out/command.out and $out/command.err.
run() {
    wanted=$1
    shift
    got=0
    "$gatelog" "$@" >"$out/command.out" 2>"$out/command.err" || got=$?
    test "$got" -eq "$wanted" || fail "status $got and not $wanted with arguments: $*"
    calls=$((calls + 1))
}
wrote() { diff "$1" "$out/command.out" >"$out/command.diff"; }
# lists EXPECTED WORDS...: the listing, and nothing on standard error.
lists() {
    expected=$1
    shift
    run 0 "$@"
    wrote "$expected" || fail "another listing: $(cat "$out/command.diff")"
    test ! -s "$out/command.err" || fail "a complaint: $(cat "$out/command.err")"
}
# One sentence on standard error that has these words.
said() {
    test "$(wc -l <"$out/command.err")" -eq 1 || fail "not one sentence: $(cat "$out/command.err")"
    grep -q "^gatelog: .*$1" "$out/command.err" || fail "it does not say '$1': $(cat "$out/command.err")"
}
# refuses SENTENCE WORDS...: status 1, the sentence, and not a byte of a listing.
refuses() {
    sentence=$1
    shift
    run 1 "$@"
    test ! -s "$out/command.out" || fail "something is listed before: $sentence"
    said "$sentence"
}

test -x "$gatelog" || fail "there is no $gatelog; run make gatelog first"
mkdir -p "$out"

lists tests/gatelog.healthy.expected "$key" "$frame"
if wrote tests/gatelog.damaged.expected; then fail "the comparison takes another listing"; fi
lists tests/gatelog.damaged.expected "$key" examples/damaged.frame
lists tests/gatelog.healthy.expected "$key" - <"$frame"

# The manual page and README show lines of that listing.
# shown FILE: the lines of a listing in it, one of each kind at least, stand in the listing as they are.
shown() {
    grep -E '^ *(place  UTC|[0-9]+  (unreadable|20))' "$1" | sed -E 's/^    (place|    [ 0-9])/\1/' >"$out/command.shown"
    test "$(wc -l <"$out/command.shown")" -ge 4 || fail "$1 shows no listing"
    while IFS= read -r line; do
        grep -qxF -- "$line" "$2" || return 1
    done <"$out/command.shown"
}
for text in man/gatelog.1 README.md; do
    shown "$text" tests/gatelog.damaged.expected || fail "$text shows a line that the command does not list"
    if shown "$text" tests/gatelog.healthy.expected; then fail "the test of $text takes another listing"; fi
done

# The usage, asked for and not.
run 0 --help
grep -q '^usage: gatelog KEYFILE FRAMEFILE$' "$out/command.out" || fail "--help shows no usage"
test ! -s "$out/command.err" || fail "--help complains"
for words in "" "$key" "--version" "$key $frame $frame"; do
    # shellcheck disable=SC2086
    run 2 $words
    test ! -s "$out/command.out" || fail "the usage goes to standard output"
    grep -q '^usage: gatelog KEYFILE FRAMEFILE$' "$out/command.err" || fail "no usage with arguments: $words"
done

# What it refuses. The program check_gatelog has the other sentences.
refuses "there is no such file" "$out/none" "$frame"
refuses "there is no such file" "$key" "$out/none"
refuses "it is a folder" "$key" examples
refuses "is no hexadecimal digit" "$frame" "$frame"
refuses "number 6" "$key" "$key"
refuses "number 6" "$key" - </dev/null
dd if=/dev/zero of="$out/huge.frame" bs=65536 count=1 2>/dev/null
refuses "65536 bytes or more" "$key" "$out/huge.frame"
# A name that is not UTF-8 text, and the same log on standard input.
strange=$(printf '%s/\377.frame' "$out")
cp "$frame" "$strange"
LC_ALL=C
export LC_ALL
refuses "its name is not UTF-8 text" "$key" "$strange"
lists tests/gatelog.healthy.expected "$key" - <"$strange"
refuses "too long for a file's name" "$(printf '%05000d' 0)" "$frame"
if [ "$(id -u)" -ne 0 ]; then
    cp "$key" "$out/hidden.txt"
    chmod 000 "$out/hidden.txt"
    refuses "you may not read it" "$out/hidden.txt" "$frame"
    rm -f "$out/hidden.txt"
fi

# A full disk, a reader that has gone, and no standard output at all.
ends() {
    test "$(cat "$out/command.status")" -eq 1 || fail "status $(cat "$out/command.status") where not all is written"
    said "$1"
    calls=$((calls + 1))
}
listed_to() {
    got=0
    "$gatelog" "$key" "$frame" 2>"$out/command.err" || got=$?
    echo "$got" >"$out/command.status"
}
if [ -c /dev/full ]; then
    listed_to >/dev/full
    ends "the disk is full"
fi
rm -f "$out/command.status"
{ sleep 1 && listed_to; } | true
while [ ! -s "$out/command.status" ]; do sleep 1; done
ends "its reader has closed it"
listed_to >&-
ends "not all lines could be written"

if command -v valgrind >/dev/null; then
    valgrind -q --error-exitcode=9 "$gatelog" "$key" examples/damaged.frame >"$out/command.out" || fail "valgrind finds a fault"
    wrote tests/gatelog.damaged.expected || fail "another listing under valgrind"
    echo "command: $calls calls, each with its status and its words; the same listing under valgrind"
else
    echo "command: $calls calls, each with its status and its words; valgrind is not on this machine"
fi
