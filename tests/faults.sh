#!/bin/sh
# Makes each call of the recipient's disk fail, one in each run of the built program over the plainest clone with its
# rows, until a run makes no such call. How many calls there are is the program's own. The runs come in this order:
#
#   the clone ends with the fault and its disk is incomplete, in each call up to the complete mark;
#   the clone ends with the fault and its rows are there, in the one sync behind that mark;
#   the clone is complete and its rows meet the fault, in each call of recovery and of the look at its rows;
#   nothing fails.
#
# The last line is 'N passed, M failed'; a run that answers otherwise, or out of that order, has failed, and is the last.

top=$(cd "$(dirname "$0")/.." && pwd) || exit 1
program=$top/crates/clone_prog/out/clone_prog
work=$(mktemp -d) || exit 1
trap 'rm -rf "$work"' EXIT

printf 'commit 0 0 1\n1 7 6869\n' >"$work/binlog"
# The answers from the `clone` on, and the status.
answers() {
    printf 'created\ncommitted 1\nnoted\n%s\n' "$1" >"$work/$2"
    echo "$3" >>"$work/$2"
}
answers 'recipient disk fault
incomplete' 1 7
answers 'recipient disk fault
1 7 6869
rows 1' 2 7
answers 'complete position 1
recipient disk fault' 3 7
answers 'complete position 1
1 7 6869
rows 1' 4 0

# Runs the clone with this call failing.
run() {
    printf 'create 1 4\nset 0 1 7 6869\nfail recipient %s\nclone\nrows\n' "$1" >"$work/source"
    "$program" steps <"$work/source" >"$work/out" 2>"$work/err"
    echo $? >>"$work/out"
}

# Whether the run answered as the phase so far, or as the next one, which begins then. The first phase has a call at
# least, and the second has one.
is_right() {
    cmp -s "$work/err" "$work/binlog" || return 1
    if [ "$phase" -ne 2 ] && cmp -s "$work/out" "$work/$phase"; then return; fi
    [ "$call" -gt 1 ] && cmp -s "$work/out" "$work/$((phase + 1))" && phase=$((phase + 1))
}

phase=1
call=1
failed=0
while [ "$phase" -lt 4 ] && [ "$failed" -eq 0 ]; do
    run "$call"
    if is_right; then
        call=$((call + 1))
    else
        failed=1
        echo "call $call: status $(tail -n 1 "$work/out"), and it wrote:"
        sed '$d' "$work/out"
        cat "$work/err"
    fi
done
echo "$((call - 1)) passed, $failed failed"
[ "$failed" -eq 0 ]
