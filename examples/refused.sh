#!/bin/sh
# Shows what a proof refuses. In a copy of the crates a donor forgets, when a clone begins, which pages are being
# written (the edit of must-fail/open_writes_not_tracked.edit in clone_session). The script refused/clone.steps runs with
# the program as it is, and with that donor, built without proofs: its clone misses a commit. Then the prover gets the
# copy, and says which clause of Cloning::open doesn't hold.
# Where the tree is built, by `./clone --prove` or by `.ci/run`, it takes about a minute and a half, else some more.

top=$(cd "$(dirname "$0")/.." && pwd) || exit 1
copy=$(mktemp -d) || exit 1
trap 'rm -rf "$copy"' EXIT
cp -a "$top/crates" "$top/crates.txt" "$top/HANDLES" "$copy" || exit 1

edit=$top/crates/clone_session/must-fail/open_writes_not_tracked.edit
file=$copy/crates/clone_session/$(sed -n 's/^file: //p' "$edit")
awk -v old="$(sed -n 's/^old: //p' "$edit")" -v new="$(sed -n 's/^new: //p' "$edit")" '
    at = index($0, old) { $0 = substr($0, 1, at - 1) new substr($0, at + length(old)); edits++ }
    { print }
    END { exit edits != 1 }
' "$file" >"$copy/edited" || exit 1
cp "$copy/edited" "$file" || exit 1

echo '== the donor as it is'
"$top/clone" steps <"$top/examples/refused/clone.steps" 2>/dev/null | tail -n 3

echo '== the donor that forgets the open writes, unproved'
(cd "$copy/crates/clone_prog" && rt try -- steps) <"$top/examples/refused/clone.steps" 2>/dev/null | tail -n 3

echo '== what the prover says of it'
if (cd "$copy/crates/clone_session" && rt check --only cloning::Cloning::open) >"$copy/log" 2>&1; then
    echo 'it is proved, which it must not be'
    exit 1
fi
grep -E '^note: .*it is not proved' "$copy/log" || exit 1
sed -n '/ensures opened/,/}/ { p; /}/q; }' "$top/crates/clone_session/src/starting.rt"
