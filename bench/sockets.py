#!/usr/bin/env python3
"""Times how pieces of 32 KiB go from one thread to another through a connection of the system, beside a program in C
that sends as many through a bare socket on the loopback address. Prints the megabytes a second of both, as the median of
seven times that are taken in turn, and how the times compare: at most 1.3 is wanted."""

import statistics
import subprocess
import tempfile
import time
from pathlib import Path

import built

TIMES = 7
MANY, FEW = 32000, 3200
PIECE = 32768
CRATES = "clone_base clone_outside clone_real"


def bare(folder):
    """The path of the program in C."""
    program = folder / "bare_sockets"
    subprocess.run(["gcc", "-O2", "-pthread", "-o", program, built.PROGRAMS / "bare_sockets.c"], check=True)
    return str(program)


def seconds(program, pieces):
    start = time.perf_counter()
    subprocess.run([program, "pour", str(pieces)], check=True)
    return time.perf_counter() - start


def cost(program):
    """The seconds of a piece: what many take above few, so that connecting isn't in it."""
    many, few = (seconds(program, pieces) for pieces in (MANY, FEW))
    return (many - few) / (MANY - FEW)


def main():
    program = built.program("real", CRATES)
    with tempfile.TemporaryDirectory() as name:
        plain = bare(Path(name))
        pairs = [(cost(program), cost(plain)) for _ in range(TIMES)]
    own, other = (statistics.median(costs) for costs in zip(*pairs))
    print(f"{'end, MB/s':>12} {'bare, MB/s':>12} {'end to bare':>14}")
    print(f"{PIECE / own / 1e6:>12.0f} {PIECE / other / 1e6:>12.0f} {own / other:>14.2f}")


main()
