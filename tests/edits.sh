#!/bin/sh
# tests/edits.sh [NAME..]
# Tries the edits of tests/edits/NAME on a copy of the tree, for the crates that are named or for all. Each is a wrong
# body, which the prover has to refuse by a clause of a contract; those that matter most stand in the crate's must-fail/
# and are tried by the gate. To be run for a crate whenever its contracts change. Prints what became of each edit. Bad is
# one that doesn't compile, that wasn't tried to its end, or that is refused only since a proof names what it takes away.
# The last line is 'N refused, M proved, K bad', and the status is 0 where all were refused.

top=$(cd "$(dirname "$0")/.." && pwd) || exit 1
copy=$(mktemp -d) || exit 1
trap 'rm -rf "$copy"' EXIT

[ $# -gt 0 ] || set -- $(ls "$top/tests/edits")
cp "$top/crates.txt" "$top/HANDLES" "$copy" || exit 1
# What was proved so far comes along, so that of each crate only what an edit changes is proved again.
cp -al "$top/crates" "$copy/crates" 2>/dev/null || cp -a "$top/crates" "$copy" || exit 1
for name in "$copy"/crates/*; do
    rm -rf "$name/must-fail"
done
for name in "$@"; do
    cp -r "$top/tests/edits/$name" "$copy/crates/$name/must-fail" || exit 1
done

(cd "$copy" && rt must-fail "$@") 2>&1 | awk '
    /must-fail/ && /only because a proof file names|BAD EDIT: |NOT TRIED: / { bad++; print; next }
    /must-fail/ && / NOT REFUSED: / { proved++; print; next }
    / refused, as it must be/ { refused++; print; next }
    { print }
    END {
        printf "%d refused, %d proved, %d bad\n", refused, proved, bad
        exit proved + bad > 0
    }'
