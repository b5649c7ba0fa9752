#!/usr/bin/env python3
"""Times reads of pages and half writes of a disk of files, beside a program in C that makes the same calls of the
system on the same file and nothing else. The file has 2,048 pages and is in memory after the first run. Prints for each
the thousands of calls a second of both, as the median of seven times that are taken in turn, and how the times compare:
at most 1.3 is wanted."""

import statistics
import subprocess
import tempfile
import time
from pathlib import Path

import built

TIMES = 7
MANY, FEW = 400000, 40000
CRATES = "clone_base clone_outside clone_real"


def bare(folder):
    """The path of the program in C."""
    program = folder / "bare_files"
    subprocess.run(["gcc", "-O2", "-o", program, built.PROGRAMS / "bare_files.c"], check=True)
    return str(program)


def seconds(program, way, place, calls):
    start = time.perf_counter()
    subprocess.run([program, way, place, str(calls)], check=True)
    return time.perf_counter() - start


def cost(program, way, place):
    """The seconds of a call: what many calls take above few, so that opening isn't in it."""
    many, few = (seconds(program, way, place, calls) for calls in (MANY, FEW))
    return (many - few) / (MANY - FEW)


def main():
    program = built.program("real", CRATES)
    with tempfile.TemporaryDirectory() as name:
        folder = Path(name)
        disk = folder / "disk"
        plain = bare(folder)
        subprocess.run([program, "write", disk], check=True)
        print(f"{'call':>12} {'disk, K/s':>12} {'bare, K/s':>12} {'disk to bare':>14}")
        for way in ("reads", "halves"):
            pairs = [
                (cost(program, way, str(disk)), cost(plain, way, str(disk / "space_1.pages"))) for _ in range(TIMES)
            ]
            own, other = (statistics.median(costs) for costs in zip(*pairs))
            print(f"{way:>12} {1e-3 / own:>12.0f} {1e-3 / other:>12.0f} {own / other:>14.2f}")


main()
