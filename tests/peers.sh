#!/bin/sh
# Holds the archive against other libraries that have Serpent: tests/peers.sh [ARCHIVE]. KEYS and SEED say how many
# keys and which. A library that is missing is installed by apt-get, if that may; if not, it is said and left out.
set -eu
cd "$(dirname "$0")/.."
archive=${1:-target/staticlib/libbarkmottle.a}
keys=${KEYS:-100000}
seed=${SEED:-1}
cc=${CC:-cc}
cxx=${CXX:-c++}
strict="-Wall -Wextra -Werror -O2 -Iinclude -Itests -Itests/compare"
out=target/c/peers
compared=0
absent=

fail() {
    echo "peers: $1"
    exit 1
}
# there HEADER FLAGS...: whether the compiler finds it.
there() {
    echo "#include <$1>" >"$out/header.cc"
    shift
    $cxx "$@" -fsyntax-only "$out/header.cc" 2>/dev/null
}
install() {
    command -v apt-get >/dev/null 2>&1 || return 0
    echo "peers: installing $1"
    apt-get install -y "$1" >"$out/$1.log" 2>&1 || true
}
# hold SOURCE PACKAGE HEADER FLAGS...: holds the archive against one library, and shows that a wrong one is found.
hold() {
    name=$(basename "$1" | sed 's/\.c*$//')
    source=$1
    package=$2
    header=$3
    shift 3
    there "$header" "$@" || install "$package"
    if ! there "$header" "$@"; then
        absent="$absent $package"
        return 0
    fi
    # shellcheck disable=SC2086
    case $source in
    *.cc) $cxx $strict -std=c++17 "$@" -c "$source" -o "$out/$name.o" ;;
    *) $cc $strict -std=c11 "$@" -c "$source" -o "$out/$name.o" ;;
    esac || fail "$source is not compiled"
    $cxx "$out/compare.o" "$out/$name.o" "$archive" "$@" -o "$out/$name" || fail "$name is not linked"
    $cxx "$out/compare.o" "$out/$name.o" "$out/wrong.a" "$@" -o "$out/$name.wrong" || fail "$name is not linked"
    if command -v dpkg-query >/dev/null 2>&1; then
        dpkg-query -W -f 'peers: package ${Package} ${Version}\n' "$package" 2>/dev/null || true
    fi
    "$out/$name" --keys "$keys" --seed "$seed" || fail "the archive and $name differ"
    if "$out/$name.wrong" --keys 1000 --seed 1 >"$out/$name.log" 2>&1; then
        fail "$name does not find a wrong object"
    fi
    grep -q '^different: a block enciphered' "$out/$name.log" ||
        fail "$name ends for another reason: $(cat "$out/$name.log")"
    compared=$((compared + 1))
}

test -f "$archive" || fail "there is no $archive; run make lib first"
mkdir -p "$out"
# shellcheck disable=SC2086
$cc $strict -std=c11 -c tests/compare/compare.c -o "$out/compare.o" || fail "compare.c is not compiled"
tests/wrong/build.sh "$archive" tests/wrong/listed/encrypt_block-big_endian.c "$out/wrong.a"

hold tests/peers/nettle.c nettle-dev nettle/serpent.h -lnettle
hold tests/peers/libgcrypt.c libgcrypt20-dev gcrypt.h -lgcrypt
hold tests/peers/botan.c libbotan-2-dev botan/ffi.h -I/usr/include/botan-2 -lbotan-2
hold tests/peers/cryptopp.cc libcrypto++-dev cryptopp/serpent.h -lcryptopp
hold tests/peers/libmcrypt.c libmcrypt-dev mcrypt.h -lmcrypt

test -z "$absent" || echo "peers: not compared, as they are not on this machine and could not be installed:$absent"
test "$compared" -gt 0 || fail "there is no library to compare with"
echo "peers: $compared libraries agree with the archive, and each finds a wrong object"
