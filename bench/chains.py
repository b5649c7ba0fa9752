#!/usr/bin/env python3
"""Times the walk along a chain. Puts 51,200 keys of one table over a disk in memory: in one bucket, where
they make a chain of 1,024 pages, and in 1,024 buckets, where each has its page; and half of them there.
A put walks each page of its chain, so that the puts along the chain walk 26 million pages. Prints the
nanoseconds of processor time of a page walked, and those of a hit in a pool over as many pages; and those
of a put over 1,024 buckets, for all keys and for half of them, as medians of the times. The pool has a
frame for each page, and the ring room for all the redo. The program that is timed is built in a copy of
the crates, since it is no part of what is proved."""

import os
import statistics
import sys

import built

KEYS, SLOTS, BUCKETS = 51_200, 50, 1_024
HITS = 26_000_000
TIMES = 3


def seconds(program, way, first, second):
    """The processor time of a run."""
    child = os.fork()
    if child == 0:
        os.execv(program, [program, way, str(first), str(second)])
    _, status, usage = os.wait4(child, 0)
    if status != 0:
        sys.exit(f"{way} {first} {second}: status {os.waitstatus_to_exitcode(status)}")
    return usage.ru_utime + usage.ru_stime


def walked(keys):
    """How many pages are walked while so many keys get their slots on one chain."""
    return sum(max(1, -(-key // SLOTS)) for key in range(keys))


def medians(program):
    """The median seconds of each run. All are timed in turn, so that a slow time of the machine falls on
    each."""
    runs = {
        "chain": ("put", 1, KEYS),
        "all": ("put", BUCKETS, KEYS),
        "half": ("put", BUCKETS, KEYS // 2),
        "none": ("put", BUCKETS, 0),
        "hits": ("hit", BUCKETS, HITS // 1_000),
        "no hits": ("hit", BUCKETS, 0),
    }
    times = [{name: seconds(program, *run) for name, run in runs.items()} for _ in range(TIMES)]
    return {name: statistics.median(taken[name] for taken in times) for name in runs}


def main(program):
    taken = medians(program)
    # each of the other puts walks the one page of its bucket
    page = (taken["chain"] - taken["all"]) / (walked(KEYS) - KEYS) * 1e9
    hit = (taken["hits"] - taken["no hits"]) / HITS * 1e9
    print(f"{KEYS:,} keys on one chain: {taken['chain']:.2f} seconds, {walked(KEYS):,} pages walked")
    print(f"a page walked: {page:.0f} ns")
    print(f"a hit in a pool over {BUCKETS:,} pages: {hit:.0f} ns")
    costs = {name: (taken[name] - taken["none"]) / keys * 1e9 for name, keys in (("all", KEYS), ("half", KEYS // 2))}
    print(f"a put over {BUCKETS:,} buckets, {KEYS:,} keys: {costs['all']:.0f} ns")
    print(f"a put over {BUCKETS:,} buckets, {KEYS // 2:,} keys: {costs['half']:.0f} ns")
    print(f"all keys to half of them: {costs['all'] / costs['half']:.2f}")


main(
    built.program(
        "chains",
        "clone_outside clone_memdisk clone_page clone_mtr clone_pool clone_model clone_plain clone_chunk clone_session"
        " clone_engine clone_donor",
    )
)
