#!/bin/sh
# Installs to a temporary folder, builds the example host from what is installed there, runs it, uninstalls, and
# looks for what is left: tests/install.sh [ARCHIVE].
set -eu
cd "$(dirname "$0")/.."
archive=${1:-target/staticlib/libbarkmottle.a}
work=$(mktemp -d)
trap 'rm -rf "$work"' EXIT
fail() {
    echo "install: $1"
    exit 1
}

tool=target/gatelog
if [ ! -f "$tool" ]; then
    tool=$work/stand-in
    echo '#!/bin/sh' >"$tool"
fi

# run_make TARGET WORDS...
run_make() {
    make -s --no-print-directory "$@" ARCHIVE="$archive" GATELOG="$tool" >"$work/make.log" 2>&1 ||
        fail "make $1 fails: $(cat "$work/make.log")"
}

# The files below a folder must be those that are named.
files_are() {
    folder=$1
    shift
    (cd "$folder" && find . ! -type d | sort) >"$work/there"
    for file; do echo "./$file"; done | sort >"$work/wanted"
    diff "$work/wanted" "$work/there" >"$work/differences"
}
ours="lib/libbarkmottle.a include/barkmottle.h lib/pkgconfig/barkmottle.pc bin/gatelog share/man/man1/gatelog.1"

# Under a prefix, beside a file of someone else's.
root=$work/root
mkdir -p "$root/lib/pkgconfig"
echo theirs >"$root/lib/pkgconfig/theirs.pc"
run_make install PREFIX="$root"
# shellcheck disable=SC2086
files_are "$root" $ours lib/pkgconfig/theirs.pc || fail "other files are installed: $(cat "$work/differences")"
test -x "$root/bin/gatelog" || fail "the command cannot be run"

# The host is built in another folder, so that only what is installed is found.
if command -v pkg-config >/dev/null; then
    export PKG_CONFIG_PATH="$root/lib/pkgconfig"
    flags=$(pkg-config --cflags --libs barkmottle)
    test "$(pkg-config --modversion barkmottle)" = 0.1.0 || fail "pkg-config says another version"
    how="with the flags of pkg-config"
else
    flags="-I$root/include -L$root/lib -lbarkmottle"
    how="with plain flags, as pkg-config is not on this machine"
fi
cp examples/host.c "$work/host.c"
# shellcheck disable=SC2086
(cd "$work" && ${CC:-cc} -std=c99 host.c -o host $flags) || fail "the host is not built $how"
"$work/host" examples/key.txt examples/healthy.frame | cmp -s - tests/host.healthy.expected ||
    fail "the installed library's host lists something else"

# The check for what is left must find the files while they are there.
if files_are "$root" lib/pkgconfig/theirs.pc; then fail "installed files are not found"; fi
run_make uninstall PREFIX="$root"
files_are "$root" lib/pkgconfig/theirs.pc || fail "not all is removed, or too much: $(cat "$work/differences")"

# Staged below DESTDIR, for a prefix elsewhere.
run_make install DESTDIR="$work/stage" PREFIX=/usr
# shellcheck disable=SC2086
files_are "$work/stage/usr" $ours || fail "other files are staged: $(cat "$work/differences")"
grep -q '^prefix=/usr$' "$work/stage/usr/lib/pkgconfig/barkmottle.pc" || fail "the staged prefix is not /usr"
run_make uninstall DESTDIR="$work/stage" PREFIX=/usr
files_are "$work/stage" || fail "not all that was staged is removed"

# Without an archive nothing is installed.
if make -s install PREFIX="$work/none" ARCHIVE="$work/none.a" >"$work/make.log" 2>&1 || [ -e "$work/none" ]; then
    fail "something is installed without an archive"
fi

echo "install: five files installed and removed, the host built $how"
