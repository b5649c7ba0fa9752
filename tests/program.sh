#!/bin/sh
# Runs the built program over each case of tests/program, and compares its output, its binlog and its
# status with the case's files. The last line is 'N passed, M failed'. With the word --built it takes the
# program as it stands built; without it, `rt` proves and builds it first. Where there is no program then,
# each case has failed. A folder that is named behind that word holds the cases in the place of tests/program.
# A case is a folder with some of these files:
#
#   words    the words of the command line, one a line; without it they are `steps`
#   source   what the program reads
#   length   in the place of source: it reads so many bytes of `#`
#   streams  lines `source`, `output` or `binlog`, each with `closed`, `full` or `folder`: the stream is
#            closed, takes nothing, or is a folder, which can't be read
#   stdout   the output that is due, and stderr the binlog; without the file, nothing
#   commits  in the place of stderr, where the order of commits differs between runs: how many there are
#   head     in the place of stdout, where what follows differs between runs: the lines that come first
#   status   the status that is due
#   left     how many bytes of the source the program is to leave unread

top=$(cd "$(dirname "$0")/.." && pwd) || exit 1
cases=${2:-$top/tests/program}
program=$top/crates/clone_prog/out/clone_prog
work=$(mktemp -d) || exit 1
trap 'rm -rf "$work"' EXIT
mkdir "$work/folder"

# Proves and builds the program, which stays where it is built. What it then says without words is of no
# account here: that is a case.
build() {
    [ "$1" != --built ] || { [ -x "$program" ]; return; }
    rm -f "$program"
    (cd "$top/crates/clone_prog" && rt run </dev/null >"$work/built" 2>&1)
    [ -x "$program" ]
}

# The stream of this name in a case, or nothing where it is as ever.
stream() {
    [ ! -f "$1/streams" ] || sed -n "s/^$2 //p" "$1/streams"
}

# Opens the case's streams, and becomes the program.
start() {
    set --
    if [ -f "$case/words" ]; then
        while IFS= read -r word; do set -- "$@" "$word"; done <"$case/words"
    else
        set -- steps
    fi
    case $(stream "$case" source) in
    closed) exec <&- ;;
    folder) exec <"$work/folder" ;;
    esac
    case $(stream "$case" output) in
    closed) exec >&- ;;
    full) exec >/dev/full ;;
    esac
    case $(stream "$case" binlog) in
    closed) exec 2>&- ;;
    full) exec 2>/dev/full ;;
    esac
    exec "$program" "$@"
}

# Puts the case's source into the work folder.
make_source() {
    if [ -f "$case/length" ]; then
        head -c "$(cat "$case/length")" /dev/zero | tr '\0' '#' >"$work/source"
    elif [ -f "$case/source" ]; then
        cp "$case/source" "$work/source"
    else
        : >"$work/source"
    fi
}

# Whether the file has the bytes of the case's file of this name, or none where the case has no such file.
is_same() {
    if [ -f "$case/$2" ]; then cmp -s "$1" "$case/$2"; else [ ! -s "$1" ]; fi
}

# Whether the output is the case's, or begins with its head.
is_output() {
    if [ -f "$case/head" ]; then
        head -n "$(wc -l <"$case/head")" "$work/stdout" | cmp -s - "$case/head"
    else
        is_same "$work/stdout" stdout
    fi
}

# Whether the binlog is the case's, or has as many commits.
is_binlog() {
    if [ -f "$case/commits" ]; then
        [ "$(grep -c '^commit ' "$work/stderr")" -eq "$(cat "$case/commits")" ]
    else
        is_same "$work/stderr" stderr
    fi
}

# Runs a case. The source is open here, so what the program leaves of it can be counted.
is_right() {
    make_source
    {
        (start >"$work/stdout" 2>"$work/stderr")
        echo $? >"$work/status"
        wc -c >"$work/left"
    } <"$work/source"
    is_output && is_binlog && is_same "$work/status" status &&
        { [ ! -f "$case/left" ] || [ "$(cat "$work/left")" -eq "$(cat "$case/left")" ]; }
}

passed=0
failed=0
if build "$1"; then
    for case in "$cases"/*; do
        if is_right; then
            passed=$((passed + 1))
        else
            failed=$((failed + 1))
            echo "$(basename "$case"): status $(cat "$work/status"), and it wrote:"
            cat "$work/stdout" "$work/stderr"
        fi
    done
else
    failed=$(find "$cases" -mindepth 1 -maxdepth 1 | wc -l)
    echo "the program is not built"
fi
echo "$passed passed, $failed failed"
[ "$failed" -eq 0 ]
