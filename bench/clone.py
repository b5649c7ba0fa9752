#!/usr/bin/env python3
"""Times a clone in stages between disks in memory: of 62 tables of 1,024 buckets, 63,745 pages, and of 31. A
requester claims chunks, reads their blocks, and writes each page and the redo to its disk; it does so once
with nothing beside, and once with a row set, a page flushed and redo archived between any two blocks. Beside
them as many pages are copied plainly, each read from the one disk and written to the other. Prints the
seconds of processor time above those that making the tables takes, the pages a second, and the memory above
that of the plain copy, which has both disks: medians of five runs, which are made in turn; and how these
times compare. Before that a copy that is made while the donor works is recovered, and its rows have to be those
of the commits before its stop. The program that is timed is built in a copy of the crates, since it is no part of what is
proved."""

import os
import statistics
import sys

import built

CRATES = (
    "clone_base clone_outside clone_memdisk clone_model clone_page clone_plain "
    "clone_chunk clone_session clone_calls clone_engine clone_donor clone_lay clone_recover"
)
WAYS = ("none", "plain", "idle", "busy")
TABLES = (31, 62)
TIMES = 5


def run(program, way, tables):
    """The processor time of a run, and the memory that it has in use at most, in KiB."""
    child = os.fork()
    if child == 0:
        os.execv(program, [program, way, str(tables)])
    _, status, usage = os.wait4(child, 0)
    if status != 0:
        sys.exit(f"{way} {tables}: status {os.waitstatus_to_exitcode(status)}")
    return usage.ru_utime + usage.ru_stime, usage.ru_maxrss


def main(program):
    run(program, "check", TABLES[0])
    kinds = [(way, tables) for tables in TABLES for way in WAYS]
    runs = [{kind: run(program, *kind) for kind in kinds} for _ in range(TIMES)]
    median = {kind: [statistics.median(r[kind][i] for r in runs) for i in (0, 1)] for kind in kinds}
    seconds = {}
    print(f"{'way':>6} {'tables':>7} {'pages':>7} {'seconds':>8} {'pages/s':>9} {'KiB above':>10}")
    for tables in TABLES:
        pages = 257 + 1024 * tables
        for way in WAYS[1:]:
            taken = median[way, tables][0] - median["none", tables][0]
            above = median[way, tables][1] - median["plain", tables][1]
            seconds[way, tables] = taken
            print(f"{way:>6} {tables:>7} {pages:>7} {taken:>8.3f} {pages / taken:>9.0f} {above:>10.0f}")
    for way in WAYS[2:]:
        print(f"{way} to plain: {seconds[way, 62] / seconds['plain', 62]:.2f}")
        print(f"{way}, 62 tables to 31: {seconds[way, 62] / seconds[way, 31]:.2f}")


main(built.program("clone", CRATES))
