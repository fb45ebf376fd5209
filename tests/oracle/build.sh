#!/bin/sh
# Builds the Rust crate for the tests to call: tests/oracle/build.sh OUT writes OUT/liboracle.a. The crate's three
# files are compiled where they stand, unchanged: in the folder that SERPENT_SOURCE names, or in its src/. Where they
# or the compiler are missing it says so in one line, and its status is 3.
set -eu
here=$(cd "$(dirname "$0")" && pwd)
source=${SERPENT_SOURCE:-$here/../../../shared/docs/src}
out=$1
missing() {
    echo "oracle: $1, so the crate is not run; the list of its answers stands in for it"
    exit 3
}

test -f "$source/lib.rs" || source=$source/src
for file in lib.rs bitslice.rs unroll.rs; do
    test -f "$source/$file" || missing "the Rust crate's $file is not at hand (SERPENT_SOURCE names its folder)"
done
rustc --edition 2024 --print cfg >/dev/null 2>&1 || missing "there is no rustc for Rust 2024 on this machine"
source=$(cd "$source" && pwd)
mkdir -p "$out"

# compile KIND NAME FILE WORDS...
compile() {
    kind=$1
    name=$2
    file=$3
    shift 3
    rustc --edition 2024 -C opt-level=3 -C panic=abort --crate-type "$kind" --crate-name "$name" -L "$out" "$@" \
        --out-dir "$out" "$file"
}
compile rlib cipher "$here/cipher.rs"
compile rlib serpent "$source/lib.rs" --extern cipher
# The boxes are private to the crate. They are compiled again, under a root of two lines.
cat >"$out/boxes.rs" <<RUST
type Words = [u32; 4];
#[path = "$source/bitslice.rs"] pub mod bitslice;
RUST
compile rlib boxes "$out/boxes.rs"
compile staticlib oracle "$here/oracle.rs" --extern serpent --extern boxes

if (cd "$source" && sha256sum -c --status "$here/serpent-0.6.0.sha256"); then
    echo "oracle: crate serpent 0.6.0, the files that the list of answers was made from, with $(rustc --version)"
else
    echo "oracle: NOT the files that the list of answers was made from, with $(rustc --version)"
fi
