#!/bin/sh
# How much the tests from C would notice: tests/flipped.sh [ARCHIVE]. Of FLIPS copies of the archive, each with one bit
# of its machine code or constants flipped, it counts those that the tests of the exports, hostile input and the
# comparison with the Rust crate find. Some flips change nothing that can be seen, so there is no count to reach.
set -eu
cd "$(dirname "$0")/.."
archive=${1:-target/staticlib/libbarkmottle.a}
flips=${FLIPS:-100}
seed=${SEED:-1}
cc=${CC:-cc}
strict="-Wall -Wextra -Werror -std=c11 -O2 -Iinclude -Itests -Itests/compare"
out=target/c/flips

fail() {
    echo "flipped: $1"
    exit 1
}
# compile FOLDER SOURCES...: objects to link with one archive after the other.
compile() {
    folder=$out/$1
    shift
    mkdir -p "$folder"
    for source; do
        # shellcheck disable=SC2086
        $cc $strict -c "$source" -o "$folder/$(basename "$source" .c).o" || fail "$source is not built"
    done
}
# notices FOLDER WORDS...: whether the program ends otherwise than well, or not in time.
notices() {
    folder=$out/$1
    shift
    $cc "$folder"/*.o "$out/flipped.a" ${oracle:+"$oracle"} -lpthread -ldl -lm -o "$folder/program" ||
        fail "it is not linked"
    ! timeout 20 "$folder/program" "$@" >"$folder/output" 2>&1
}

test -f "$archive" || fail "there is no $archive; run make lib first"
rm -rf "$out"
mkdir -p "$out"
$cc -Wall -Wextra -Werror -std=c11 -O2 -Itests tests/flipped/flip.c -o "$out/flip" || fail "flip.c is not built"
compile exports tests/exports.c
compile hostile tests/hostile/*.c
oracle=$out/oracle/liboracle.a
if tests/oracle/build.sh "$out/oracle"; then
    compile compare tests/compare/compare.c tests/oracle/crate.c
    crate=yes
else
    oracle=
    crate=no
fi

# A copy with no bit flipped is not noticed.
cp "$archive" "$out/flipped.a"
if notices exports || notices hostile || { [ $crate = yes ] && notices compare; }; then
    fail "the archive itself is found at fault"
fi
by_exports=0
by_hostile=0
by_compare=0
not_found=0
number=0
echo "flipped: seed $seed"
while [ "$number" -lt "$flips" ]; do
    where=$("$out/flip" "$archive" "$out/flipped.a" --seed "$seed" --number "$number") || fail "no bit is flipped"
    if notices exports; then
        by_exports=$((by_exports + 1))
    elif notices hostile --calls 300000; then
        by_hostile=$((by_hostile + 1))
    elif [ $crate = yes ] && notices compare --keys 6000; then
        by_compare=$((by_compare + 1))
    else
        not_found=$((not_found + 1))
        echo "flipped: not found: $where"
    fi
    number=$((number + 1))
done
echo "flipped: of $flips archives with one bit flipped $by_exports are found by the tests of the exports," \
    "$by_hostile more by hostile input, $by_compare more by the comparison, $not_found by none"
