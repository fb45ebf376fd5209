#!/bin/sh
# Calls a command once for every line that it reads, as many at a time as there are processors: tests/beside.sh COMMAND
# WORDS... calls COMMAND WORDS... LINE. What each call writes is shown whole, in the order of the lines, when all have
# ended. A call that does not end well, or was never made, is named, and the status is 1.
set -eu
work=$(mktemp -d)
trap 'rm -rf "$work"' EXIT
failed=0

cat >"$work/lines"
test -s "$work/lines" || { echo "beside: nothing is asked for: $*"; exit 1; }
# Each call gets its line by the line's number. Only one that ends well leaves a file NUMBER.passed.
# shellcheck disable=SC2016
call='line=$(sed -n "$2p" "$1/lines") && file=$1/$2 && shift 2 || exit 1
    "$@" "$line" >"$file.out" 2>&1 && : >"$file.passed" || exit 1'
awk '{ print NR }' "$work/lines" |
    xargs -P "$(nproc 2>/dev/null || echo 1)" -I '{}' sh -c "$call" sh "$work" '{}' "$@" || failed=1

number=0
while IFS= read -r line; do
    number=$((number + 1))
    if [ -f "$work/$number.out" ]; then cat "$work/$number.out"; fi
    if [ ! -f "$work/$number.passed" ]; then
        echo "beside: failed: $* $line"
        failed=1
    fi
done <"$work/lines"
exit "$failed"
