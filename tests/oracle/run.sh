#!/bin/sh
# run.sh N [PROGRAM]: runs the built program over scripts that are drawn, one by each seed from 1 to N, and compares
# output, binlog and status with what the oracle says. Where they differ it tells the seed, the script, which stays,
# and the first line that differs. The last line is 'N passed, M failed'.
top=$(cd "$(dirname "$0")/../.." && pwd) || exit 1
exec python3 -B "$top/tests/oracle/draw.py" "${2:-$top/crates/clone_prog/out/clone_prog}" "$1"
