#!/usr/bin/env python3
"""Tries `recover` and `dump` of the built program over directories that are made here, byte by byte, as docs/FORMATS.md
says: the clone of its worked example, and what comes of it without its mark, with other marks and with less redo.
The last line is 'N passed, M failed'."""

import shutil
import subprocess
import sys
import tempfile
from pathlib import Path

TOP = Path(__file__).resolve().parent.parent
PROGRAM = TOP / "crates" / "clone_prog" / "out" / "clone_prog"
PAGE = 4096
REDO_SPACE = 4_294_967_040
FIRST_LSN = 8_192
IN_PROGRESS, COMPLETE, RECOVERED = 1, 2, 3


def number(value, size):
    return value.to_bytes(size, "big")


def write(space, page, offset, body):
    return b"\x02" + number(space, 4) + number(page, 4) + number(offset, 2) + number(len(body), 2) + body


def init(space, page, kind):
    return b"\x01" + number(space, 4) + number(page, 4) + number(kind, 2)


def create(space, pages):
    return b"\x04" + number(space, 4) + number(pages, 4)


def undo_header(writer):
    return write(0, 1, 40, b"\x01\0" + number(0, 2) + number(writer, 4) + number(0, 8))


def undo_record(state, length, value):
    """The record of a change of key 7 on page 3 of table 1, with what the row was."""
    body = number(1, 4) + number(3, 4) + number(0, 2) + bytes([state, length]) + number(0, 4) + number(7, 8)
    return write(0, 1, 64, (body + value).ljust(96, b"\0")) + write(0, 1, 42, number(1, 2))


def row(value):
    return write(1, 3, 48, (bytes([1, len(value)]) + bytes(6) + number(7, 8) + value).ljust(80, b"\0"))


END = b"\x06"
# `create 1 4`, `set 0 1 7 6869`, `begin 5` and `put 0 1 7 -`, each mini-transaction on a line
REDO = b"".join(
    mini_transaction + END
    for mini_transaction in (
        create(0, 257) + init(0, 0, 1),
        create(1, 4) + write(0, 0, 64, number(1, 4) + number(4, 4) + number(4, 4) + number(0, 4)),
        init(0, 1, 2) + undo_header(0),
        undo_record(2, 0, b"") + init(1, 3, 3) + row(b"hi"),
        write(0, 1, 40, bytes(16)) + write(0, 0, 40, number(1, 8)),
        undo_header(5),
        undo_record(1, 2, b"hi") + row(b""),
    )
)
assert len(REDO) == 629, len(REDO)


def mark(kind, lsn=FIRST_LSN + len(REDO), position=1):
    numbers = (1, 0, 0, 0) if kind == IN_PROGRESS else (1, FIRST_LSN, lsn, position)
    return b"CLONMARK" + bytes([kind]) + bytes(7) + b"".join(number(n, 8) for n in numbers) + bytes(16)


def make(place, of_mark):
    """The recipient's disk of the worked example, with this mark or none."""
    disk = Path(place) / "recipient"
    disk.mkdir(parents=True)
    (disk / "space_0.pages").write_bytes(bytes(257 * PAGE))
    (disk / "space_1.pages").write_bytes(bytes(4 * PAGE))
    (disk / f"space_{REDO_SPACE}.pages").write_bytes(REDO.ljust(PAGE, b"\0"))
    if of_mark is not None:
        (disk / "mark").write_bytes(of_mark)
    return disk


def held(place):
    """All files below a place, with what they hold."""
    return {str(path): path.read_bytes() for path in Path(place).rglob("*") if path.is_file()}


def run(command, place):
    ran = subprocess.run(
        [PROGRAM, command, "--dir", place], stdin=subprocess.DEVNULL, capture_output=True, timeout=60, check=False
    )
    return ran.returncode, ran.stdout.decode(), ran.stderr.decode()


PASSED = FAILED = 0


def expect(what, found, due):
    global PASSED, FAILED
    if found == due:
        PASSED += 1
    else:
        FAILED += 1
        print(f"{what}: {found!r}, and not {due!r}")


def unchanged(what, place, due):
    """Both commands end so, and what is there stays."""
    before = held(place)
    for command in ("recover", "dump"):
        expect(f"{command} of {what}", run(command, place), due)
    expect(f"what {what} holds", held(place), before)


def incomplete(work):
    due = (12, "incomplete\n", "")
    unchanged("a missing directory", work / "missing" / "clone", due)
    expect("a missing directory is made", (work / "missing").exists(), False)
    make(work / "unmarked", None)
    unchanged("a disk without a mark", work / "unmarked", due)
    make(work / "begun", mark(IN_PROGRESS))
    unchanged("a clone under way", work / "begun", due)
    make(work / "other", b"CLONMARK".ljust(64, b"\xff"))
    unchanged("a disk with other bytes as its mark", work / "other", due)


def damaged(work):
    disk = make(work / "short", mark(COMPLETE))
    (disk / f"space_{REDO_SPACE}.pages").unlink()
    unchanged("a clone without its redo", work / "short", (13, f"damaged {REDO_SPACE} 0 redo\n", ""))
    make(work / "longer", mark(COMPLETE, lsn=FIRST_LSN + len(REDO) + PAGE))
    unchanged("a clone with less redo", work / "longer", (13, f"damaged {REDO_SPACE} 0 redo\n", ""))


def failing(work):
    due = (7, "recipient disk fault\n", "")
    make(work / "mark", mark(COMPLETE)[:63])
    unchanged("a mark of 63 bytes", work / "mark", due)
    (work / "file").write_bytes(b"")
    unchanged("a path that is a file", work / "file", due)


def recovered(work):
    disk = make(work / "clone", mark(COMPLETE))
    due = (0, "recovered lsn 8821 position 1\n", "")
    expect("recover of the clone", run("recover", work / "clone"), due)
    expect("its mark", (disk / "mark").read_bytes(), mark(RECOVERED))
    page = (disk / "space_1.pages").read_bytes()[3 * PAGE :]
    head = bytes.fromhex("DEADBEEF 00000003 FFFFFFFF FFFFFFFF 0000000000002275 0003 0000000000000000 00000001")
    expect("the page of its row", page[:38], head)
    expect("its row", page[48:66], bytes.fromhex("0102 000000000000 0000000000000007 6869"))
    expect("recover of the recovered clone", run("recover", work / "clone"), due)
    unchanged_rows = held(work / "clone")
    expect("dump of it", run("dump", work / "clone"), (0, "1 7 6869\nrows 1\n", ""))
    expect("what it holds then", held(work / "clone"), unchanged_rows)
    make(work / "another", mark(COMPLETE))
    expect("dump of the clone", run("dump", work / "another"), (0, "1 7 6869\nrows 1\n", ""))
    expect("the donor's directory is made", (work / "another" / "donor").exists(), False)


def main():
    work = Path(tempfile.mkdtemp())
    try:
        for cases in (incomplete, damaged, failing, recovered):
            cases(work)
    finally:
        shutil.rmtree(work)
    print(f"{PASSED} passed, {FAILED} failed")
    return FAILED != 0


if __name__ == "__main__":
    sys.exit(main())
