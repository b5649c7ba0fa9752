#!/bin/sh
# Runs the built program over the hostile corpus: tests/hostile/make.py makes its scripts, each with the answers and
# the status that are due, and tests/program.sh runs them. The last line is 'N passed, M failed'.

top=$(cd "$(dirname "$0")/.." && pwd) || exit 1
work=$(mktemp -d) || exit 1
trap 'rm -rf "$work"' EXIT

if ! python3 -B "$top/tests/hostile/make.py" "$work"; then
    echo '0 passed, 1 failed'
    exit 1
fi
"$top/tests/program.sh" --built "$work"
