#!/usr/bin/env python3
"""tests/broken.py [SEED]

Tries `run` of the built program where the machine fails: over directories that can't be written or hold something, with a
full disk from some call on, with sockets that are shut down or can't be made, and without a thread. A library that is
compiled here takes the place of some calls of the C library, and breaks those whose numbers are drawn from the seed. Each
status and text has to be that of docs/OPERATING.md, what a clone holds that of a plain fold. The last line is
'N passed, M failed'."""

import os
import random
import re
import shutil
import struct
import subprocess
import sys
import tempfile
from pathlib import Path

import runs
from recover import COMPLETE, PAGE, held

# The kinds of calls: `room`, which make, lengthen, write, sync or rename a file below a path; `send` and `receive`, the
# latter where bytes came; `socket`; `thread`. The numbers of those to break come as spans, as in 3-3,7-9.
LIBRARY = r"""
#define _GNU_SOURCE
#include <dlfcn.h>
#include <errno.h>
#include <fcntl.h>
#include <pthread.h>
#include <stdarg.h>
#include <stdlib.h>
#include <string.h>
#include <sys/mman.h>
#include <sys/socket.h>
#include <unistd.h>
#define REAL(name) __typeof__(&name) real = (__typeof__(&name))dlsym(RTLD_NEXT, #name)
#define CALL(type, name, takes, given, asked, cause, counts) \
    type name takes { REAL(name); return (counts) && fails(asked, cause) ? -1 : real given; }
static const char *kind, *below;
static unsigned long spans[64][2], count;
static unsigned long *tally; /* how many calls of the kind came, and how many of them were broken */
static char is_ours[65536];  /* whether the file of a descriptor is below the path */
__attribute__((constructor)) static void begin(void) {
    char *at = getenv("BROKEN_AT");
    kind = getenv("BROKEN_KIND");
    below = getenv("BROKEN_BELOW");
    for (; *at && count < 64; count++, at += *at == ',') {
        spans[count][0] = strtoul(at, &at, 10);
        spans[count][1] = strtoul(at + 1, &at, 10);
    }
    tally = mmap(0, 16, PROT_READ | PROT_WRITE, MAP_SHARED, open(getenv("BROKEN_TALLY"), O_RDWR), 0);
}
static int fails(const char *asked, int cause) {
    if (!tally || strcmp(kind, asked)) return 0;
    unsigned long number = __atomic_add_fetch(&tally[0], 1, __ATOMIC_SEQ_CST);
    int is_due = 0;
    for (unsigned long i = 0; i < count; i++) is_due |= spans[i][0] <= number && number <= spans[i][1];
    if (is_due) __atomic_add_fetch(&tally[1], 1, __ATOMIC_SEQ_CST), errno = cause;
    return is_due;
}
static int is_below(const char *path) { return tally && !strncmp(path, below, strlen(below)); }
static int has_ours(int fd) { return fd >= 0 && fd < (int)sizeof is_ours && is_ours[fd]; }
static int is_longer(int fd, off_t length) { return has_ours(fd) && length > lseek(fd, 0, SEEK_END); }
int open(const char *path, int flags, ...) {
    REAL(open);
    va_list rest;
    va_start(rest, flags);
    int mode = flags & O_CREAT ? va_arg(rest, int) : 0;
    va_end(rest);
    if (is_below(path) && flags & O_CREAT && access(path, F_OK) && fails("room", ENOSPC)) return -1;
    int fd = real(path, flags, mode);
    if (fd >= 0 && fd < (int)sizeof is_ours) is_ours[fd] = is_below(path);
    return fd;
}
CALL(int, mkdir, (const char *path, mode_t mode), (path, mode), "room", ENOSPC, is_below(path))
CALL(int, rename, (const char *from, const char *to), (from, to), "room", ENOSPC, is_below(from))
CALL(int, ftruncate, (int fd, off_t length), (fd, length), "room", ENOSPC, is_longer(fd, length))
CALL(int, fsync, (int fd), (fd), "room", ENOSPC, has_ours(fd))
CALL(ssize_t, write, (int fd, const void *from, size_t size), (fd, from, size), "room", ENOSPC, has_ours(fd))
CALL(ssize_t, pwrite, (int fd, const void *from, size_t size, off_t at), (fd, from, size, at), "room", ENOSPC, has_ours(fd))
CALL(int, socket, (int domain, int type, int protocol), (domain, type, protocol), "socket", EMFILE, 1)
ssize_t send(int fd, const void *from, size_t length, int flags) {
    REAL(send);
    if (fails("send", 0)) shutdown(fd, SHUT_RDWR);
    return real(fd, from, length, flags);
}
ssize_t recv(int fd, void *into, size_t length, int flags) {
    REAL(recv);
    ssize_t got = real(fd, into, length, flags);
    if (got > 0 && fails("receive", 0)) shutdown(fd, SHUT_RDWR);
    return got;
}
int pthread_create(pthread_t *made, const pthread_attr_t *with, void *(*body)(void *), void *of) {
    REAL(pthread_create);
    return fails("thread", EAGAIN) ? EAGAIN : real(made, with, body, of);
}
"""
FOREVER = 2**64 - 1
FULL = {"donor": (6, ["donor disk fault"], []), "recipient": (7, ["recipient disk fault"], [])}
# How many calls come at least: those that make the donor's first file, and two for each page of the system's at the clone.
LEAST = {"donor": 3, "recipient": 514}
NOT_EMPTY, CREW_FAULT, INCOMPLETE = (9, ["not empty"], []), (11, ["crew fault"], []), (12, ["incomplete"], [])
# A mark is written four times, by four calls on `mark.new`. So this is the kind of the mark that is there while each one
# is written, and whether it has the numbers of the clone's end.
MARKS = [(0, False), (1, False), (1, True), (2, True)]
PLAIN = {"seed": 7, "writers": 1, "transactions": 150, "tables": 2, "buckets": 32, "tasks": 2}
LOADED = {"seed": 7, "writers": 4, "transactions": 60, "tables": 4, "buckets": 64, "tasks": 4}


def words_of(given, place):
    """The words of a run with these options in this directory."""
    options = [word for name, value in given.items() for word in (f"--{name}", value)]
    return ["run", *options, "--report", "--tcp", "--dir", place]


def mark_in(place):
    """The kind of the clone's mark, or 0 where there is none, and whether it has an LSN."""
    path = place / "recipient" / "mark"
    mark = path.read_bytes() if path.exists() else bytes(64)
    return mark[8], any(mark[32:40])


def is_same(found, due):
    assert found == due, f"{found!r}"[:300] + ", and not " + f"{due!r}"[:300]


def check_left(given, place, is_sound):
    """`recover` and `dump` of what a run with one writer left are as its mark promises, in a disk that kept what it took.
    Otherwise its recovery failed in its midst, and no more is promised than that the command ends."""
    kind, _ = mark_in(place)
    if kind < COMPLETE:
        before = held(place)
        is_same([runs.program([command, "--dir", place]) for command in ("recover", "dump")], [INCOMPLETE] * 2)
        is_same(held(place), before)
        return "it is incomplete" if kind else "it has no mark"
    status, out, _ = runs.program(["recover", "--dir", place])
    if not is_sound and kind == COMPLETE:
        assert status in (0, 13) and re.fullmatch(r"recovered lsn \d+ position \d+|damaged \d+ \d+ \w+", out[0]), out
        return f"it is complete, and recovery ends with {status}"
    position = int(re.fullmatch(r"recovered lsn \d+ position (\d+)", out[0]).group(1))
    assert status == 0 and position <= given["transactions"], out
    commits = [(0, index, runs.generated(given["seed"], 0, index, given["tables"])) for index in range(position)]
    is_same(runs.program(["dump", "--dir", place]), (0, runs.rows_of(commits), []))
    return f"it is complete, and has the first {position} commits"


class Broken:
    """The cases that were tried, with a folder for them and for the library."""

    def __init__(self, work, seed):
        self.work = work
        self.drawn = random.Random(seed)
        self.passed = self.failed = 0
        (work / "broken.c").write_text(LIBRARY)
        subprocess.run(["cc", "-O1", "-shared", "-fPIC", "-o", work / "broken.so", work / "broken.c", "-ldl"], check=True)

    def case(self, what, test, *words):
        """Tries a case in a place of its own, which isn't there yet."""
        place = self.work / "place"
        try:
            said = test(place, *words) or "as promised"
            self.passed += 1
        except (AssertionError, ValueError, IndexError, AttributeError, subprocess.TimeoutExpired) as fault:
            said = f"failed: {fault}"
            self.failed += 1
        print(f"{what}: {said}", flush=True)
        shutil.rmtree(place, ignore_errors=True)

    def run(self, place, given, kind, spans, below=""):
        """Runs while these calls are broken. Says how it ended, how many calls came, and how many were broken."""
        tally = self.work / "tally"
        tally.write_bytes(bytes(16))
        env = {"LD_PRELOAD": str(self.work / "broken.so"), "BROKEN_TALLY": str(tally), "BROKEN_KIND": kind}
        env |= {"BROKEN_AT": ",".join(f"{first}-{last}" for first, last in spans), "BROKEN_BELOW": str(place / below)}
        ended = runs.program(words_of(given, place), os.environ | env)
        return ended, *struct.unpack("QQ", tally.read_bytes())

    def count(self, given, kind, below=""):
        """How many calls of the kind a run makes of which none is broken. It has to be right."""
        ended, came, _ = self.run(self.work / "counted", given, kind, [], below)
        runs.check_ended(given, ended, self.work / "counted")
        shutil.rmtree(self.work / "counted")
        return came

    def full(self, place, given, whose, first, last, surely, below=""):
        """The disk of one side has no room from one call to another."""
        ended, came, broken = self.run(place, given, "room", [(first, last)], below or whose)
        if not broken and not surely:
            runs.check_ended(given, ended, place)
            return f"the clone is complete, since only {came} calls came"
        is_same(ended, FULL[whose])
        if below:
            is_same(mark_in(place), MARKS[(first - 1) // 4])
        return check_left(given, place, whose == "donor")

    def lost(self, place, given, kind, spans, due=None):
        """The clone is complete, and right; or the run ends as is given, and the clone is incomplete."""
        ended, came, broken = self.run(place, given, kind, spans)
        if due is None:
            _, commits, position, _, rows = runs.check_ended(given, ended, place)
            return f"{broken} of {came} broken, a clone of the first {position} of {commits} commits with {rows} rows"
        is_same((broken > 0, ended), (True, due))
        is_same(runs.program(["recover", "--dir", place]), INCOMPLETE)
        return f"{broken} of {came} broken, {due[1][0]}"


def full_disks(_, tests):
    for whose in FULL:
        count = tests.count(PLAIN, "room", whose)
        drawn = {tests.drawn.randint(1, count) for _ in range(6)}
        for first in sorted({1, 2, 3, *drawn, count - count // 20, count}):
            what = f"the {whose}'s disk is full from call {first} of {count} on"
            tests.case(what, tests.full, PLAIN, whose, first, FOREVER, first <= LEAST[whose])
        for call in (tests.drawn.randint(1, count // 2) for _ in range(3)):
            what = f"call {call} of {count} of the {whose}'s disk fails"
            tests.case(what, tests.full, PLAIN, whose, call, call, call <= LEAST[whose])
    for call in range(1, 4 * len(MARKS) + 1):
        what = f"no room from call {call} of the marks on"
        tests.case(what, tests.full, PLAIN, "recipient", call, FOREVER, True, "recipient/mark.new")


def sockets(_, tests):
    for kind in ("send", "receive"):
        count = tests.count(LOADED | {"limit": 0}, kind)
        for cuts in ([1], [count], *([tests.drawn.randint(1, count) for _ in range(many)] for many in (1, 1, 2, 3, 5, 8))):
            what = f"sockets shut down at {kind} {sorted(cuts)} of {count}, as many losses allowed"
            tests.case(what, tests.lost, LOADED | {"limit": len(cuts)}, kind, [(call, call) for call in cuts])
        for first, limit in ((1, 0), (1, 16), *((tests.drawn.randint(1, count // 4), limit) for limit in (0, 1, 5, 100))):
            given, due = LOADED | {"limit": limit}, (8, [f"restarts spent {limit + 1}"], [])
            what = f"each socket shut down from {kind} {first} of {count} on, {limit} losses allowed"
            tests.case(what, tests.lost, given, kind, [(first, FOREVER)], due)
            if limit == 0:
                what = f"a socket shut down at {kind} {first} of {count}, no loss allowed"
                tests.case(what, tests.lost, given, kind, [(first, first)], due)
    for kind in ("socket", "thread"):
        count = 2 if kind == "socket" else tests.count(LOADED, kind)
        for first in sorted({1, 2, tests.drawn.randint(1, count), count}):
            tests.case(f"no {kind} from {first} of {count} on", tests.lost, LOADED, kind, [(first, FOREVER)], CREW_FAULT)


def put(place, name, body):
    (place / name).parent.mkdir(parents=True, exist_ok=True)
    (place / name).write_bytes(body)


def refused(place, name, body, below, due):
    """A run over what one file makes of a place ends so at its first look, and changes nothing."""
    put(place, name, body)
    before = held(place)
    is_same(runs.program(words_of(PLAIN, place / below)), due)
    is_same(held(place), before)


def taken(place):
    """Directories that are missing are made, and foreign files stay. A second run leaves the first one's clone."""
    place = place / "above" / "clone"
    runs.check_ended(PLAIN, runs.program(words_of(PLAIN, place)), place)
    for side in FULL:
        shutil.rmtree(place / side)
        for name in ("mark.new", "notes", "space_01.pages"):
            put(place, f"{side}/{name}", b"x")
    runs.check_ended(PLAIN, runs.program(words_of(PLAIN, place)), place)
    is_same({(place / side / name).read_bytes() for side in FULL for name in ("notes", "space_01.pages")}, {b"x"})
    before = held(place)
    is_same(runs.program(words_of(PLAIN, place)), NOT_EMPTY)
    is_same(held(place), before)


def directories(_, tests):
    for what, *case in (
        ("a directory below a file", "file", b"", "file/clone", FULL["donor"]),
        ("a directory that is a file", "file", b"", "file", FULL["donor"]),
        ("a directory of the system", "file", b"", "/proc/self/none", FULL["donor"]),
        ("a donor's disk that is a file", "donor", b"", "", FULL["donor"]),
        ("a recipient's disk that is a file", "recipient", b"", "", FULL["recipient"]),
        ("a recipient's disk with 63 bytes as its mark", "recipient/mark", bytes(63), "", FULL["recipient"]),
        ("a donor's disk with a space", "donor/space_1.pages", bytes(PAGE), "", NOT_EMPTY),
        ("a donor's disk with a mark", "donor/mark", bytes(64), "", NOT_EMPTY),
        ("a recipient's disk with a space", "recipient/space_9.pages", bytes(PAGE), "", NOT_EMPTY),
        ("a recipient's disk with a mark", "recipient/mark", bytes(64), "", NOT_EMPTY),
    ):
        tests.case(what, refused, *case)
    tests.case("directories that are missing, foreign files, and a second run", taken)


def main():
    if not shutil.which("cc"):
        print("there is no cc, so nothing can be broken\n0 passed, 1 failed")
        return 1
    with tempfile.TemporaryDirectory() as work:
        tests = Broken(Path(work), int(sys.argv[1]) if len(sys.argv) > 1 else 1)
        for cases in (directories, full_disks, sockets):
            tests.case(f"all runs for {cases.__name__} in which nothing is broken", cases, tests)
    print(f"{tests.passed} passed, {tests.failed} failed")
    return 1 if tests.failed else 0


if __name__ == "__main__":
    sys.exit(main())
