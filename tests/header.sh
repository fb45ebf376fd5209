#!/bin/sh
# Holds include/barkmottle.h against the source: every export is declared as it stands, nothing else is, and the
# numbers and classes agree. Then shows that it can fail, on altered copies.
set -eu
cd "$(dirname "$0")/.."
work=$(mktemp -d)
trap 'rm -rf "$work"' EXIT

# The exports of Rattle sources as C declarations, one to a line.
cat >"$work/exports.awk" <<'AWK'
function c_type(type) {
    if (type == "usize") return "size_t"
    if (type ~ /^[iu](8|16|32|64)$/) {
        width = substr(type, 2)
        return (type ~ /^u/ ? "uint" : "int") width "_t"
    }
    return "UNKNOWN(" type ")"
}
function c_parameter(text,    at, name, type) {
    at = index(text, ":")
    name = substr(text, 1, at - 1)
    type = substr(text, at + 1)
    gsub(/ /, "", name)
    gsub(/^ +| +$/, "", type)
    if (type == "&[u8]") return "const uint8_t *" name ", size_t " name "_length"
    if (type == "&mut [u8]") return "uint8_t *" name ", size_t " name "_length"
    return c_type(type) " " name
}
{ sub(/\/\/.*/, ""); all = all " " $0 }
END {
    gsub(/[ \t]+/, " ", all)
    while (match(all, /#\[unsafe\(no_mangle\)\] pub extern "C" fn [a-z0-9_]+ ?\([^()]*\) -> [a-z0-9]+/)) {
        item = substr(all, RSTART, RLENGTH)
        all = substr(all, RSTART + RLENGTH)
        sub(/^.* fn /, "", item)
        name = substr(item, 1, index(item, "(") - 1)
        sub(/ $/, "", name)
        inside = substr(item, index(item, "(") + 1)
        result = inside
        sub(/^.*-> /, "", result)
        sub(/\).*/, "", inside)
        count = split(inside, parts, ",")
        line = ""
        for (i = 1; i <= count; i++)
            if (parts[i] !~ /^ *$/) line = line (line == "" ? "" : ", ") c_parameter(parts[i])
        print c_type(result) " " name "(" line ")"
    }
}
AWK

# The declarations of a C header, one to a line, in the same layout.
cat >"$work/declared.awk" <<'AWK'
/^[ \t]*#/ { next }
{ all = all " " $0 }
END {
    while ((from = index(all, "/*")) > 0) {
        rest = substr(all, from + 2)
        all = substr(all, 1, from - 1) " " substr(rest, index(rest, "*/") + 2)
    }
    gsub(/extern "C" \{/, "", all)
    gsub(/enum [a-z_]+ \{[^}]*\};/, "", all)
    gsub(/[ \t]+/, " ", all)
    count = split(all, parts, ";")
    for (i = 1; i <= count; i++) {
        gsub(/^[ }]+|[ }]+$/, "", parts[i])
        if (parts[i] != "") print parts[i]
    }
}
AWK

# The entries of one enum of a header, as "NAME value".
entries() {
    awk -v want="enum $1 {" '
        index($0, want) { inside = 1; next }
        /}/ { inside = 0 }
        inside { gsub(/\/\*.*\*\/|,|=/, " "); sub(/^ *BARKMOTTLE_/, ""); print $1, $2 }' "$2"
}

# The cases of one enum of a Rattle source, as "NAME value".
cases() {
    awk -v want="pub enum $1 {" '
        $0 == want { inside = 1; next }
        /^}/ { inside = 0 }
        inside && /^ +[A-Za-z]+ = [0-9]+,$/ {
            gsub(/[,=]/, " "); name = $1
            while (match(name, /[a-z][A-Z]/)) name = substr(name, 1, RSTART) "_" substr(name, RSTART + 1)
            print toupper(name), $2 }' "$2"
}
# The number of what is done and those of crate answers' refusals, and those of crate event's classes that leave it.
numbers() {
    awk '/^ +Ok\(_\) => [0-9]+,$/ { gsub(/,/, ""); print "DONE", $3 }' "$1"
    cases Refusal "$1"
}
classes() { cases Class "$1" | grep -v '^UNREADABLE '; }

# agree HEADER FOLDER-OF-EXPORTS FILE-OF-NUMBERS: says nothing and succeeds where all agrees.
agree() {
    awk -f "$work/exports.awk" "$2"/*.rt | sort >"$work/exported"
    awk -f "$work/declared.awk" "$1" | sort >"$work/declared"
    numbers "$3" >"$work/numbers"
    entries barkmottle_number "$1" >"$work/number_entries"
    classes crates/event/src/lib.rt >"$work/classes"
    entries barkmottle_class "$1" >"$work/class_entries"
    test -s "$work/exported" && test -s "$work/numbers" && test -s "$work/classes" || return 1
    # A form that the pattern above does not know must not be passed over.
    test "$(cat "$2"/*.rt | grep -c '^pub extern "C" fn ')" -eq "$(wc -l <"$work/exported")" || return 1
    diff "$work/exported" "$work/declared" && diff "$work/numbers" "$work/number_entries" &&
        diff "$work/classes" "$work/class_entries"
}

header=include/barkmottle.h
exports=crates/barkmottle_c/src
answers=crates/answers/src/lib.rt
if ! agree "$header" "$exports" "$answers" >&2; then
    echo "header: $header does not agree with the source (< the source, > the header)"
    exit 1
fi
count() { wc -l <"$work/$1"; }
result="$(count exported) exports, $(count numbers) numbers and $(count classes) classes agree"

# must_fail WHAT: the altered copy must differ from what it was made of, and must be found at fault.
tried=0
must_fail() {
    if cmp -s "$work/h" "$header" && cmp -s "$work/a" "$answers" &&
        cat "$exports"/*.rt | cmp -s - "$work/s/all.rt"; then
        echo "header: the alteration '$1' alters nothing"
        exit 1
    fi
    if agree "$work/h" "$work/s" "$work/a" >"$work/differences"; then
        echo "header: the alteration '$1' is not found"
        exit 1
    fi
    tried=$((tried + 1))
    fresh
}
fresh() {
    mkdir -p "$work/s"
    cp "$header" "$work/h"
    cp "$answers" "$work/a"
    cat "$exports"/*.rt >"$work/s/all.rt"
}

fresh
sed '/barkmottle_open_frame(/d' "$header" >"$work/h"
must_fail "a declaration dropped"
echo 'uint32_t barkmottle_unheard(const uint8_t *key, size_t key_length);' >>"$work/h"
must_fail "a declaration added"
key='const uint8_t \*key, size_t key_length'
out='uint8_t \*out, size_t out_length'
sed "/barkmottle_expand_key(/s/$key, $out/$out, $key/" "$header" >"$work/h"
must_fail "two parameters exchanged"
sed 's/size_t place, size_t count/size_t count, size_t place/' "$header" >"$work/h"
must_fail "two parameters of one type exchanged"
sed '/barkmottle_apply_s(/s/size_t index/uint32_t index/' "$header" >"$work/h"
must_fail "a parameter's width changed"
sed 's/^int64_t barkmottle_event_wall/int32_t barkmottle_event_wall/' "$header" >"$work/h"
must_fail "a result's width changed"
sed 's/^int32_t barkmottle_event_value/uint32_t barkmottle_event_value/' "$header" >"$work/h"
must_fail "a result's sign changed"
sed '/barkmottle_open_frame(/s/const uint8_t/uint8_t/' "$header" >"$work/h"
must_fail "a slice that is written"
sed 's/BARKMOTTLE_BEYOND = 9/BARKMOTTLE_BEYOND = 19/' "$header" >"$work/h"
must_fail "a number changed in the header"
sed 's/^    Version = 7,/    Version = 17,/' "$answers" >"$work/a"
must_fail "a number changed in the source"
sed 's/BARKMOTTLE_DISCONNECT = 3/BARKMOTTLE_DISCONNECT = 4/' "$header" >"$work/h"
must_fail "a class changed"
printf '#[unsafe(no_mangle)]\npub extern "C" fn barkmottle_added(key: &[u8]) -> u32 {\n    0\n}\n' >>"$work/s/all.rt"
must_fail "an export added"
awk '/#\[unsafe\(no_mangle\)\]/ && !done { done = 1; next } { print }' "$exports"/*.rt >"$work/s/all.rt"
must_fail "an export no longer marked"

echo "header: $result; each of $tried altered copies is found at fault"
