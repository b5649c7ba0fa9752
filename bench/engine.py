#!/usr/bin/env python3
"""Times a put of a donor over a disk in memory, in one open transaction and in each of 64, over 1 table
and over 62. A round commits 64 transactions of 160 changes each, either one after the other or all at a
time; its puts are on the same 10,240 rows in the same order either way, and over about as many pages.
The pool has a frame for each page, and the ring room for six rounds and more; behind each sixth round all
pages are flushed and a checkpoint is taken. Prints the nanoseconds of processor time that a put costs,
with its share of begin and commit and of the flushes, as the median of seven times, and how the costs
compare. The program that is timed is built in a copy of the crates, since it is no part of what is proved."""

import os
import statistics
import sys

import built

CRATES = (
    "clone_outside clone_memdisk clone_model clone_plain clone_chunk "
    "clone_session clone_engine clone_donor"
)
PUTS = 64 * 160
# three times six rounds lie between them, and behind each six of these the pages are flushed once
FEW, MANY = 2, 20
TIMES = 7


def seconds(program, way, tables, rounds):
    """The processor time of a run."""
    child = os.fork()
    if child == 0:
        os.execv(program, [program, way, str(tables), str(rounds)])
    _, status, usage = os.wait4(child, 0)
    if status != 0:
        sys.exit(f"{way} {tables} {rounds}: status {os.waitstatus_to_exitcode(status)}")
    return usage.ru_utime + usage.ru_stime


def put_cost(program, way, tables):
    """The nanoseconds of a put: what many rounds take above few, so that opening isn't in it."""
    many, few = (seconds(program, way, tables, rounds) for rounds in (MANY, FEW))
    return (many - few) / (PUTS * (MANY - FEW)) * 1e9


def put_costs(program):
    """The medians, by how the transactions are open and the number of tables. All are timed in turn, so
    that a slow time of the machine falls on each."""
    kinds = [(way, tables) for way in ("apart", "together") for tables in (1, 62)]
    times = [{kind: put_cost(program, *kind) for kind in kinds} for _ in range(TIMES)]
    return {kind: statistics.median(costs[kind] for costs in times) for kind in kinds}


def main(program):
    costs = put_costs(program)
    print(f"{'':>14} {'1 open':>9} {'64 open':>9} {'64 to 1':>9}")
    for tables in (1, 62):
        one, all_open = costs["apart", tables], costs["together", tables]
        print(f"{f'tables: {tables}':>14} {one:>9.0f} {all_open:>9.0f} {all_open / one:>9.2f}")
    ratios = [costs[way, 62] / costs[way, 1] for way in ("apart", "together")]
    print(f"{'62 to 1':>14} {ratios[0]:>9.2f} {ratios[1]:>9.2f}")


main(built.program("engine", CRATES))
