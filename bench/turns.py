#!/usr/bin/env python3
"""Times calls on a machine that adds one, by 1, 2, 4 and 8 threads that take turns, beside as many additions
under a mutex of the standard library. Prints for each number of threads the millions of calls a second of
both, as the median of seven times that are taken in turn, and how the times compare. The program that is
timed is built in a copy of the crates, since it is no part of what is proved."""

import shutil
import statistics
import subprocess
import time

import built

# The folders of the proofs that the threads' closures need.
TURNS = "+add_by_threads+fn-add_by_threads-join+arg2+fn-add_by_threads-join+arg3"
LOCKS = "+fn-lock_by_threads-join+arg2+fn-lock_by_threads-join+arg3+lock_by_threads"
OF_TESTS = ("clone_turn.proofs.tests", "clone_bench.proofs")

TIMES = 7
MANY, FEW = 400000, 40000


def renamed(text, *changes):
    """The text, in each line of which the first of these words is changed to the second."""
    lines = text.splitlines(keepends=True)
    for word, other in changes:
        lines = [line.replace(word, other, 1) for line in lines]
    return "".join(lines)


def lay_proofs(crate):
    """Lays what the program needs of proofs: the threads' own are those of the tests of `clone_turn`."""
    proofs = crate / "proofs"
    for folder in ("add", TURNS, LOCKS):
        (proofs / folder).mkdir(parents=True)
    shutil.copy(built.PROGRAMS / "turns.antt.in", proofs / "add" / "Invariants.antt")
    of_tests = built.TOP / "crates" / "clone_turn" / "proofs" / "tests" / TURNS
    invariants = (of_tests / "Invariants.antt").read_text()
    answers = (of_tests / "Answers.antt").read_text()
    (proofs / TURNS / "Invariants.antt").write_text(renamed(invariants, OF_TESTS))
    of_locks = renamed(invariants, OF_TESTS, (TURNS, LOCKS)).replace("add_by_threads", "lock_by_threads")
    (proofs / LOCKS / "Invariants.antt").write_text(of_locks)
    sent = "(shr_send _ _ _ number)"
    wider = [("u32", "u64"), ("{four_send}", "{five_send}"), ("four_send", "five_send _"), (sent, f"{sent} {sent}")]
    (proofs / TURNS / "Answers.antt").write_text(renamed(answers, OF_TESTS, *wider))


def build():
    """The path of the program."""
    crate = built.own_crate()
    lay_proofs(crate)
    return built.build(crate, "turns", "clone_turn")


def seconds(program, way, halvings, calls):
    """The time of a run in which all threads together make so many calls."""
    start = time.perf_counter()
    subprocess.run([program, way, str(halvings), str(calls >> halvings)], check=True)
    return time.perf_counter() - start


def call_cost(program, way, halvings):
    """The nanoseconds of a call: what many calls take above few, so that opening isn't in it."""
    many, few = (seconds(program, way, halvings, calls) for calls in (MANY, FEW))
    return (many - few) / (MANY - FEW) * 1e9


def call_costs(program):
    """The medians, by the way and the number of threads. All are timed in turn, so that a slow time of the
    machine falls on each."""
    kinds = [(way, halvings) for halvings in range(4) for way in ("turns", "mutex")]
    times = [{kind: call_cost(program, *kind) for kind in kinds} for _ in range(TIMES)]
    return {kind: statistics.median(costs[kind] for costs in times) for kind in kinds}


def main(program):
    costs = call_costs(program)
    print(f"{'threads':>8} {'turns, M/s':>12} {'mutex, M/s':>12} {'turns to mutex':>15}")
    for halvings in range(4):
        turns, mutex = costs["turns", halvings], costs["mutex", halvings]
        print(f"{2 ** halvings:>8} {1e3 / turns:>12.2f} {1e3 / mutex:>12.2f} {turns / mutex:>15.2f}")


main(build())
