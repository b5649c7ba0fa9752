#!/usr/bin/env python3
"""Times a clone of 62 tables of 1,024 buckets, 63,745 pages, through both ends of a connection over lists of
bytes in memory: of one task, which speaks version 1, with no loss. Each end takes a step in turn, and what it
sent is copied to what the other has received. Beside it as many pages are copied plainly, each read from the
one disk in memory and written to the other; and as many bytes are copied from lists to new lists. Prints for
each way the seconds of processor time above those that making the tables takes, the megabytes a second, and
how many times the plain copy's time it takes, which is to be at most 3 for the clone; the least of nine runs
that are taken in turn. Then the millions of instructions of each, counted by valgrind where that is there:
they are the same on every machine, where the seconds depend on what else runs. At the end the peak memory above
the plain copy's, over few tables and many: less the donor's ring and pool, which the plain copy has given back,
it is that of the ends and of what is under way between them, and is to be at most 1 MiB.

Before that a copy that is made while the donor works is recovered, and its rows have to be those of the
commits before its stop. `bench/ends.py --instructions` leaves out the times. The program that is timed is
built in a copy of the crates, since it is no part of what is proved."""

import os
import re
import shutil
import subprocess
import sys

import built

CRATES = (
    "clone_base clone_outside clone_memdisk clone_model clone_page clone_plain clone_chunk clone_session "
    "clone_calls clone_engine clone_donor clone_lay clone_recover clone_wire clone_stream clone_tasks "
    "clone_recipient clone_fetch clone_serve"
)
WAYS = {
    "plain": "each page from disk to disk",
    "lists": "as many bytes from list to list",
    "ends": "a clone through both ends",
}
TABLES, FEW = 62, 31
RING, POOL = 8_388_608, 1024 * 4096  # as the program opens its donor
TIMES = 9
MOST = 3


def build():
    """The path of the program, whose loop has an invariant."""
    crate = built.own_crate()
    proofs = crate / "proofs" / "clone_through"
    proofs.mkdir(parents=True)
    shutil.copy(built.PROGRAMS / "ends.antt.in", proofs / "Invariants.antt")
    return built.build(crate, "ends", CRATES)


def bytes_of(program, way, tables):
    """How many bytes a run copies: of a clone, those that go through both ends."""
    return int(subprocess.run([program, way, str(tables)], check=True, stdout=subprocess.PIPE).stdout)


def seconds(program, way):
    """The processor time of a run."""
    words = [program, way, str(TABLES)]
    quiet = [(os.POSIX_SPAWN_OPEN, 1, os.devnull, os.O_WRONLY, 0)]
    child = os.posix_spawn(program, words, os.environ, file_actions=quiet)
    _, status, used = os.wait4(child, 0)
    if status != 0:
        sys.exit(f"{way} ended with {status}")
    return used.ru_utime + used.ru_stime


def peak(program, way, tables):
    """The most memory that a run has at a time, in bytes."""
    quiet = [(os.POSIX_SPAWN_OPEN, 1, os.devnull, os.O_WRONLY, 0)]
    child = os.posix_spawn(program, [program, way, str(tables)], os.environ, file_actions=quiet)
    _, status, used = os.wait4(child, 0)
    if status != 0:
        sys.exit(f"{way} ended with {status}")
    return used.ru_maxrss * 1024


def print_memory(program):
    """Prints what a clone has at most above the plain copy, and how much of that isn't the donor's."""
    for tables in (FEW // 4, FEW, TABLES):
        more = peak(program, "ends", tables) - peak(program, "plain", tables)
        own = more - RING - POOL
        print(f"over {tables:>2} tables {more / 2**20:>6.2f} MiB above the plain copy, "
              f"{own / 2**20:>6.2f} MiB without the donor's ring and pool, wanted at most 1: {own <= 2**20}")


def instructions(program, way):
    """The millions of instructions of a run."""
    words = ["valgrind", "--tool=callgrind", "--callgrind-out-file=/dev/null", program, way, str(TABLES)]
    ran = subprocess.run(words, capture_output=True)
    collected = re.search(rb"Collected : (\d+)", ran.stderr)
    if ran.returncode != 0 or collected is None:
        sys.exit(f"{way} ended with {ran.returncode}, last lines {ran.stderr.splitlines()[-1:]}")
    return int(collected[1]) / 1e6


def above(costs):
    """What each way costs above the making of the tables."""
    return {way: costs[way] - costs["none"] for way in WAYS}


def print_times(program, megabytes):
    """Prints the seconds of each way, the megabytes a second, and how many times the plain copy's they are."""
    rounds = [{way: seconds(program, way) for way in ("none", *WAYS)} for _ in range(TIMES)]
    took = above({way: min(times[way] for times in rounds) for way in rounds[0]})
    print(f"{'way':>6}  {'which is':<32} {'MB':>7} {'seconds':>8} {'MB/second':>10} {'times the plain copy':>21}")
    for way, meaning in WAYS.items():
        rate, times = megabytes[way] / took[way], took[way] / took["plain"]
        print(f"{way:>6}  {meaning:<32} {megabytes[way]:>7.1f} {took[way]:>8.3f} {rate:>10.0f} {times:>21.2f}")
    times = took["ends"] / took["plain"]
    print(f"the clone's time is {times:.2f} times the plain copy's, wanted at most {MOST}: {times <= MOST}")


def print_instructions(program, megabytes):
    """Prints the millions of instructions of each way, those a byte, and how many times the plain copy's they are."""
    took = above({way: instructions(program, way) for way in ("none", *WAYS)})
    print(f"{'way':>6}  {'which is':<32} {'million instructions':>21} {'a byte':>8} {'times the plain copy':>21}")
    for way, meaning in WAYS.items():
        each, times = took[way] / megabytes[way], took[way] / took["plain"]
        print(f"{way:>6}  {meaning:<32} {took[way]:>21.1f} {each:>8.3f} {times:>21.2f}")


def main(program, *words):
    bytes_of(program, "check", FEW)
    megabytes = {way: bytes_of(program, way, TABLES) / 1e6 for way in WAYS}
    if words != ("--instructions",):
        print_times(program, megabytes)
        print()
    if shutil.which("valgrind") is None:
        print("no valgrind is there to count instructions")
    else:
        print_instructions(program, megabytes)
    print()
    print_memory(program)


main(build(), *sys.argv[1:])
