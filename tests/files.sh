#!/bin/sh
# tests/files.sh
# Tries a disk of files, a connection over TCP, a crew and the buffered output from outside, by the program of
# bench/programs/real.rt.in: what one process wrote another reads, files of wrong lengths, a full disk, no room for a
# thread, and 10 MiB each way through one connection while both sides read slowly. A case that the machine doesn't let
# be made is told and counts for nothing. The last line is 'N passed, M failed'.

top=$(cd "$(dirname "$0")/.." && pwd) || exit 1
work=$(mktemp -d) || exit 1
mounted=
finish() {
    [ -z "$mounted" ] || umount "$mounted"
    rm -rf "$work"
}
trap finish EXIT

program=$work/real
(cd "$top/bench" && python3 - "$program" <<'PYTHON'
import shutil
import sys

import built

names = ["clone_base", "clone_outside", "clone_real"]
shutil.copy(built.build(built.own_crate(names), "real", " ".join(names)), sys.argv[1])
PYTHON
) || exit 1

passed=0
failed=0

# Counts a case: what it is, the status that is wanted, and the command.
expect() {
    what=$1
    wanted=$2
    shift 2
    "$@"
    found=$?
    if [ "$found" -eq "$wanted" ]; then
        passed=$((passed + 1))
    else
        failed=$((failed + 1))
        echo "$what: status $found, and not $wanted"
    fi
}

sizes() {
    [ "$(cd "$1" && wc -c ./* | awk '{ print $1, $2 }' | tr '\n' ' ')" = "$2" ]
}

# Starts a thread with more and more room, up to the first that is enough for the program and not for the thread.
start_without_room() {
    for room in $(seq 4000 1000 60000); do
        (ulimit -v "$room" && exec "$program" crew 7) 2>/dev/null
        [ $? -ne 1 ] || return 1
    done
    return 0
}

disk=$work/above/disk
expect 'a missing directory has no pages' 1 "$program" read "$disk"
expect 'reading makes no directory' 1 test -e "$work/above"
expect 'pages are written' 0 "$program" write "$disk"
expect 'another process reads them' 0 "$program" read "$disk"
expect 'files have their exact lengths' 0 sizes "$disk" '64 ./mark 8388608 ./space_1.pages 8388672 total '
# Which files and directories a write of a disk in a new directory syncs, by what the system is asked.
if command -v strace >/dev/null; then
    traced=$work/traced/disk
    strace -f -y -e trace=fsync,fdatasync -o "$work/syncs" "$program" write "$traced"
    synced() {
        grep -q "sync([0-9]*<$1>) *= 0" "$work/syncs"
    }
    expect 'the pages are synced' 0 synced "$traced/space_1.pages"
    expect 'the mark is synced before it takes its name' 0 synced "$traced/mark.new"
    expect 'the directory is synced' 0 synced "$traced"
    expect 'so is the one that got an entry for it' 0 synced "$work/traced"
    expect 'and the one above that' 0 synced "$work"
else
    echo 'there is no strace: what is synced is left out'
fi

: >"$disk/space_01.pages"
: >"$disk/notes"
expect 'foreign files are left alone' 0 "$program" read "$disk"
expect 'a space is made anew' 0 "$program" write "$disk"
expect 'and read' 0 "$program" read "$disk"

cp "$disk/mark" "$work/mark"
printf x >>"$disk/mark"
expect 'a mark of 65 bytes is a fault' 1 "$program" read "$disk"
head -c 63 "$work/mark" >"$disk/mark"
expect 'a mark of 63 bytes is a fault' 1 "$program" read "$disk"
cp "$work/mark" "$disk/mark"
printf x >>"$disk/space_1.pages"
expect 'a file that is no whole pages is a fault' 1 "$program" read "$disk"
truncate -s 8384512 "$disk/space_1.pages"
expect 'a page that is not there is a fault' 1 "$program" read "$disk"
expect 'a path that is a file is a fault' 1 "$program" write "$disk/mark"

if [ "$(id -u)" -ne 0 ]; then
    mkdir "$work/closed" && chmod 555 "$work/closed"
    expect 'a directory that is read-only is a fault' 1 "$program" write "$work/closed"
else
    expect 'a directory that takes no files is a fault' 1 "$program" write /proc/self/disk
fi

mkdir "$work/small"
if mount -t tmpfs -o size=1m none "$work/small" 2>/dev/null; then
    mounted=$work/small
    expect 'a full disk is a fault' 1 "$program" write "$work/small/disk"
    mount -o remount,ro "$mounted" 2>/dev/null &&
        expect 'a file system that is read-only is a fault' 1 "$program" write "$work/small/other"
else
    echo 'no file system can be mounted: the full disk is left out'
fi

expect 'output is taken' 0 sh -c '"$1" out 100000 >"$2"' sh "$program" "$work/out"
expect 'and is whole' 0 test "$(wc -c <"$work/out")" -eq 2100000
expect 'a device without room is a fault' 1 sh -c '"$1" out 100000 >/dev/full' sh "$program"
expect 'so is the last flush' 1 sh -c '"$1" out 1 >/dev/full' sh "$program"

expect 'a job runs in a thread' 0 "$program" crew 7
expect 'no room for a thread is a fault' 1 start_without_room

expect '100 MiB go one way' 0 "$program" pour 3200
expect '10 MiB go each way to slow readers' 0 "$program" both 320

echo "$passed passed, $failed failed"
[ "$failed" -eq 0 ]
