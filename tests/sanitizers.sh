#!/bin/sh
# Prints the compiler's flags for the sanitizers of addresses and undefined behaviour, or nothing where it has none.
set -eu
flags="-fsanitize=address,undefined -fno-sanitize-recover=all"
work=$(mktemp -d)
trap 'rm -rf "$work"' EXIT
echo 'int main(void) { return 0; }' >"$work/empty.c"
# shellcheck disable=SC2086
if ${CC:-cc} $flags "$work/empty.c" -o "$work/empty" 2>/dev/null && "$work/empty"; then echo "$flags"; fi
