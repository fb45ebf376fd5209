#!/bin/sh
# Holds the crates that export to C against the libraries of which the theorems speak: each export has the name, the
# parameters and the clauses of the library's function, with the same imports, and only calls it. Then shows that it can
# fail, on altered copies.
set -eu
cd "$(dirname "$0")/.."
work=$(mktemp -d)
trap 'rm -rf "$work"' EXIT

# Each public function of some files: its name, parameters and clauses in one line.
heads() {
    awk '/^pub (extern "C" )?fn / { sub(/extern "C" /, ""); inside = 1; head = "" }
        inside && /^\{$/ { print head; inside = 0 }
        inside { sub(/^ +/, ""); head = head (head == "" ? "" : " ") $0 }' "$@" | sed 's/( /(/; s/, )/)/' | sort
}
# The exports whose body is not one call of the function LIBRARY::..::NAME of the same name, with the same arguments.
strays() {
    awk -v library="$1" '
        /^pub extern "C" fn / { item = ""; body = ""; inside = 0; is_export = 1 }
        is_export && /^\}$/ {
            match(item, /fn [a-z0-9_]+\(/)
            call = substr(item, RSTART + 3, RLENGTH - 3)
            list = substr(item, RSTART + RLENGTH)
            sub(/\).*/, "", list)
            count = split(list, parts, ",")
            given = ""
            for (i = 1; i <= count; i++)
                if (parts[i] !~ /^ *$/) {
                    sub(/:.*/, "", parts[i])
                    gsub(/ /, "", parts[i])
                    given = given (given == "" ? "" : ", ") parts[i]
                }
            sub(/;$/, "", body)
            if (sub("^ *" library "::([a-z_]+::)?", "", body) != 1 || body != call given ")") print call ")"
            is_export = 0
        }
        is_export && inside { body = body $0 }
        is_export && /^\{$/ { inside = 1 }
        is_export && !inside { item = item " " $0 }' "$2"/*.rt
}
# thin LIBRARY FOLDER FOLDER-OF-EXPORTS: says nothing and succeeds where each export is the library's function.
thin() {
    for file in "$3"/*.rt; do
        of=$2/$(basename "$file")
        heads "$of" >"$work/heads"
        heads "$file" >"$work/exported"
        diff "$work/heads" "$work/exported" || return 1
        cat "$work/exported" >>"$work/all"
        grep '^ghost use ' "$file" >"$work/used" || continue
        if grep -vxFf "$of" "$work/used"; then return 1; fi
    done
    marks=$(cat "$3"/*.rt | grep -c '^#\[unsafe(no_mangle)\]$')
    test "$marks" -eq "$(cat "$3"/*.rt | grep -c '^pub extern "C" fn ')" || return 1
    strays "$1" "$3" >"$work/strays"
    test ! -s "$work/strays"
}

: >"$work/all"
for library in barkmottle timed; do
    thin $library crates/$library/src "crates/${library}_c/src" >&2 || {
        cat "$work/strays" >&2 2>/dev/null || true
        echo "thin: ${library}_c does not export $library as it stands (< the library, > the exports)"
        exit 1
    }
done
exports=$(wc -l <"$work/all")

# must_fail WHAT FILE SED: the altered copy must differ from what it was made of, and must be found at fault.
tried=0
must_fail() {
    rm -rf "$work/s"
    cp -r crates/barkmottle_c/src "$work/s"
    sed "$3" "crates/barkmottle_c/src/$2" >"$work/s/$2"
    if cmp -s "$work/s/$2" "crates/barkmottle_c/src/$2"; then
        echo "thin: the alteration '$1' alters nothing"
        exit 1
    fi
    if thin barkmottle crates/barkmottle/src "$work/s" >"$work/differences"; then
        echo "thin: the alteration '$1' is not found"
        exit 1
    fi
    tried=$((tried + 1))
}
must_fail "a clause dropped" cipher.rt '/^    ensures number { result ≡ setup_number (length key.now) (length out.old) 32 }/d'
must_fail "a clause weakened" cipher.rt 's/setup_number (length key.now) (length out.old) 32/result/'
must_fail "a clause of another place" searches.rt 's/\.event\.wall\.0/.event.utc.0/'
must_fail "a duty of the caller" log.rt '/fn barkmottle_open_frame/s/$/ requires { length frame.now ≡ 0 }/'
must_fail "another definition imported" log.rt 's/chain\.specs\.Slices/chain.specs.Other/'
must_fail "another function called" events.rt 's/::barkmottle_event_wall(event)$/::barkmottle_event_utc(event)/'
must_fail "two arguments exchanged" log.rt 's/(key, frame, place, count, out)/(key, frame, count, place, out)/'
must_fail "a call of another library" cipher.rt 's/barkmottle::cipher::barkmottle_encrypt/slices::barkmottle_encrypt/'
must_fail "a body of its own" events.rt 's/^    barkmottle::events::barkmottle_event_kind(event)$/    0/'
must_fail "an export no longer marked" cipher.rt '/^\/\/ The padded key/{n;d;}'
must_fail "an export that is missing" searches.rt '/fn barkmottle_search_tries/,/^}/d'

echo "thin: $exports exports only call the library's function, under its clauses; each of $tried altered copies is found"
