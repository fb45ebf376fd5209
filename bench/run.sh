#!/bin/sh
# Times the library beside the Rust crate and the other libraries that are installed: bench/run.sh [ARCHIVE] [TIMED].
# SAMPLES and RUNS say how often. The tables are printed, and stand in docs/SPEED.md then, with two plots beside it.
# A ratio never makes it fail; a wrong answer does. What is built goes to target/c/bench.
set -eu
cd "$(dirname "$0")/.."
archive=${1:-target/staticlib/libbarkmottle.a}
timed=${2:-target/staticlib/libtimed.a}
samples=${SAMPLES:-101}
runs=${RUNS:-2}
cc=${CC:-cc}
cxx=${CXX:-c++}
strict="-Wall -Wextra -Werror -O2 -Iinclude -Itests -Itests/compare -Ibench"
out=target/c/bench
document=docs/SPEED.md
objects=
libraries=
sides=
link=$cc

fail() {
    echo "bench: $1"
    exit 1
}
# compiled NAME SOURCE FLAGS...
compiled() {
    object=$out/$1.o
    source=$2
    shift 2
    # shellcheck disable=SC2086
    case $source in
    *.cc) $cxx $strict -std=c++17 "$@" -c "$source" -o "$object" ;;
    *) $cc $strict -std=c11 "$@" -c "$source" -o "$object" ;;
    esac || fail "$source is not compiled"
    objects="$objects $object"
}
# side NAME SOURCE HOST FLAGS...: a table of an implementation, under a name of its own, and its way to be a host.
side() {
    name=$1
    source=$2
    host=$3
    shift 3
    compiled "$name" "$source" "$@"
    objcopy --redefine-sym other="other_$name" "$out/$name.o" || fail "$name.o is not renamed"
    sides="$sides $name:$host"
}
# there SOURCE HEADER FLAGS...: whether the compiler of such a source finds the header.
there() {
    case $1 in
    *.cc) check="$cxx -x c++" ;;
    *) check="$cc -x c" ;;
    esac
    header=$2
    shift 2
    echo "#include <$header>" | $check "$@" -fsyntax-only - 2>/dev/null
}
# library SOURCE HEADER LINKED FLAGS...: takes a library in, if it is installed.
library() {
    source=$1
    header=$2
    linked=$3
    shift 3
    name=$(basename "$source" | sed 's/\.c*$//')
    if ! there "$source" "$header" "$@"; then
        echo "bench: $name is not installed and is left out"
        return 0
    fi
    side "$name" "$source" by_other "$@"
    libraries="$libraries $linked"
    case $source in *.cc) link=$cxx ;; esac
}

test -f "$archive" || fail "there is no $archive; run make lib first"
test -f "$timed" || fail "there is no $timed; run make bench, which builds it"
command -v objcopy >/dev/null 2>&1 || fail "objcopy is not on this machine"
if ! test "$samples" -ge 1 || ! test "$runs" -ge 1; then fail "SAMPLES and RUNS are numbers from 1 on"; fi
rm -rf "$out"
mkdir -p "$out"

# The implementations.
side ours bench/ours.c by_exports
status=0
tests/oracle/build.sh "$out/oracle" >"$out/oracle.log" || status=$?
case $status in
0)
    crate=1
    cat "$out/oracle.log"
    side crate tests/oracle/crate.c by_other
    libraries="$out/oracle/liboracle.a -lpthread -ldl -lm"
    ;;
3)
    crate=0
    echo "bench: the Rust crate or its compiler is not at hand: times only, no ratios, and $document stays as it is"
    ;;
*) fail "the Rust crate is not built" ;;
esac
library tests/peers/nettle.c nettle/serpent.h -lnettle
library tests/peers/libgcrypt.c gcrypt.h -lgcrypt
library tests/peers/botan.c botan/ffi.h -lbotan-2 -I/usr/include/botan-2
library tests/peers/cryptopp.cc cryptopp/serpent.h -lcryptopp
{
    echo '#include "tasks.h"'
    for each in $sides; do echo "extern const struct other other_${each%:*};"; done
    echo 'const struct side sides[] = {'
    for each in $sides; do echo "    {&other_${each%:*}, &${each#*:}},"; done
    echo '};'
    echo 'const size_t side_count = sizeof sides / sizeof *sides;'
    echo "const size_t has_crate = $crate;"
} >"$out/sides.c"

# The program.
counting=
if [ $crate = 1 ]; then
    if command -v valgrind >/dev/null 2>&1 && there bench/bench.c valgrind/callgrind.h; then
        counting=-DWITH_CALLGRIND
    else
        echo "bench: valgrind or its header is not on this machine, so instructions are not counted"
    fi
fi
compiled sides "$out/sides.c"
for part in host tasks clock; do compiled $part bench/$part.c; done
# shellcheck disable=SC2086
compiled bench bench/bench.c $counting
# shellcheck disable=SC2086
$link $objects "$archive" "$timed" $libraries -o "$out/bench" || fail "the program is not linked"

# The runs.
load=$(cut -d " " -f 1 /proc/loadavg 2>/dev/null || echo unknown)
run=1
measured=
while [ "$run" -le "$runs" ]; do
    echo "bench: run $run of $runs, $samples samples of each task and implementation"
    "$out/bench" --samples "$samples" >"$out/run.$run" || exit 1
    measured="$measured $out/run.$run"
    run=$((run + 1))
done
: >"$out/counts"
if [ -n "$counting" ]; then
    echo "bench: one run under valgrind, for the instructions"
    mkdir -p "$out/dumps"
    valgrind -q --tool=callgrind --collect-atstart=no --callgrind-out-file="$out/dumps/dump" "$out/bench" --count 1 \
        >"$out/counted" 2>"$out/valgrind.log" || fail "valgrind does not run it: $(cat "$out/valgrind.log")"
    awk -f bench/counts.awk "$out"/dumps/dump.* >"$out/counts"
fi

# What was found.
{
    echo "- date: $(date -u +%Y-%m-%d); runs: $runs, of $samples samples each"
    echo "- processor: $(sed -n 's/^model name[^:]*: *//p' /proc/cpuinfo 2>/dev/null | head -n 1)"
    echo "- load of the machine in the minute before: $load, on $(getconf _NPROCESSORS_ONLN) processors"
    echo "- compilers: $(rt version 2>/dev/null); $($cc --version | head -n 1)$(
        if [ $crate = 1 ]; then printf '; %s' "$(rustc --version)"; fi)"
    awk -F '\t' '$1 == "side" { list = list (list == "" ? "" : ", ") $2 ($3 == "" ? "" : " " $3) }
        END { print "- in one program: " list }' "$out/run.$runs"
    echo
    # shellcheck disable=SC2086
    awk -f bench/tables.awk -v crate=$crate $measured "$out/counts"
} >"$out/measured.md"
cat "$out/measured.md"
if [ $crate = 0 ]; then exit 0; fi
awk -v file="$out/measured.md" '
    /^<!-- measured: begin/ { print; print ""; while ((getline line < file) > 0) print line; inside = 1; found++ }
    /^<!-- measured: end/ { inside = 0; found++ }
    !inside { print }
    END { exit found != 2 }' "$document" >"$out/SPEED.md" || fail "$document does not have its two lines with 'measured:'"
cp "$out/SPEED.md" "$document"
awk -f bench/plot_chain.awk "$out/run.$runs" >docs/speed-chain.svg
awk -f bench/plot_ratios.awk "$out/run.$runs" >docs/speed-ratios.svg
echo "bench: $document, docs/speed-chain.svg and docs/speed-ratios.svg are written"
