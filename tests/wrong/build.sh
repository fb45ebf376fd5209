#!/bin/sh
# Makes an archive with one wrong object in it: tests/wrong/build.sh ARCHIVE FAULT.c OUT.a.
# FAULT.c is named after the export that it stands in for: tests/wrong/WHERE/EXPORT-WHAT.c. In the archive's
# own object that export gets another name, right_EXPORT, so that the wrong one can call it.
set -eu
archive=$1
fault=$2
out=$3
export=$(basename "$fault" .c)
export=${export%%-*}
here=$(dirname "$0")
object=${out%.a}.o
objcopy --redefine-sym "barkmottle_$export=right_$export" "$archive" "$out"
${CC:-cc} -Wall -Wextra -Werror -std=c11 -O2 -I"$here/../../include" -I"$here" -c "$fault" -o "$object"
ar rs "$out" "$object" 2>/dev/null
