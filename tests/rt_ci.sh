#!/usr/bin/env bash
# Runs rt ci on the whole repository, and fails where it fails. rt ci passes wrong edits that could not be applied, so
# this also fails where it does not say that each edit was refused. Its last line, 'N passed, 0 failed', stands last.
set -eu -o pipefail
cd "$(dirname "$0")/.."
said=target/rt_ci.out

fail() {
    echo "rt_ci: $1"
    exit 1
}
# all_refused COUNT: whether what is read ends in rt's two closing lines, with that many edits refused and none bad.
all_refused() {
    tail -n 2 | awk -v count="$1" '
        BEGIN { edits = "; must-fail edits: " count " refused(, [0-9]+ of them only by a limit)?; " }
        NR == 1 { refused = /^rt: ok; / && $0 ~ edits }
        NR == 2 { passed = /^[1-9][0-9]* passed, 0 failed$/ }
        END { exit !(refused && passed) }'
}

# It takes the two lines as they are, and no altered ones.
ok='rt: ok; handles allowed: none; must-fail edits: 99 refused'
rest='; done in this run: 3 of the 40 proofs (of crates and of their tests) and 5 of the 99 must-fail edits; the others'
anew='; every proof and must-fail edit was done in this run'
passed='147 passed, 0 failed'
alone=' (chain and the crates below alone: not the gate)'
taken() { printf '%s\n' "$@" | all_refused 99; }
for right in "$ok$rest" "$ok, 2 of them only by a limit$rest" "$ok$anew"; do
    taken "rt: gatelog ran" "$right" "$passed" || fail "the right line is not taken: $right"
done
for wrong in "$ok, 1 bad$rest" "$ok, 2 of them only by a limit, 1 bad$rest" "${ok/99 refused/98 refused}$rest" \
    "${ok/99 refused/98 refused, 1 bad}$rest" "${ok/99 refused/199 refused}$rest" "${ok%; must-fail*}$rest" \
    "rt: FAILED: chain" ""; do
    if taken "$wrong" "$passed"; then fail "a wrong line is taken: $wrong"; fi
done
for wrong in "146 passed, 1 failed" "0 passed, 0 failed" "$passed$alone" "$ok$rest"; do
    if taken "$ok$rest" "$wrong"; then fail "a wrong last line is taken: $wrong"; fi
done
if taken "$passed"; then fail "the last line is taken alone"; fi

mkdir -p target
edits=$(find crates -name out -prune -o -path 'crates/*/must-fail/*.edit' -print | wc -l)
rt ci 2>&1 | tee "$said"
all_refused "$edits" <"$said" || fail "rt ci passes, but does not say that each of $edits wrong edits is refused"
