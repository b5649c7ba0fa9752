#!/usr/bin/env python3
"""bench/gate.py [WORD..]: runs `rt ci` with these words (`--anew` for a run that proves all from nothing), and prints
where its processor time went: seconds of each crate for its proof, for the proof of its tests and for its must-fail
edits; what building, running and reading took; and all of it, in minutes, beside the minutes that passed.
It reads the process table twice a second while `rt ci` runs, so of a process that ends between two looks up to half a
second is missing from its crate's row, and counted as other."""

import collections
import os
import re
import subprocess
import sys
import time
from pathlib import Path

TOP = Path(__file__).resolve().parent.parent
TICKS = os.sysconf("SC_CLK_TCK")
KINDS = ("proof", "tests", "edits")


def processes():
    """The processes that there are now: number, parent, start and seconds of processor time of each."""
    for folder in os.listdir("/proc"):
        if folder.isdigit():
            try:
                fields = Path(f"/proc/{folder}/stat").read_text().rpartition(")")[2].split()
            except OSError:
                continue
            yield int(folder), int(fields[1]), fields[19], (int(fields[11]) + int(fields[12])) / TICKS


def below(root, table):
    """The processes of the table that stand below this one."""
    children = collections.defaultdict(list)
    for number, (parent, _, _) in table.items():
        children[parent].append(number)
    found, left = [], [root]
    while left:
        found.append(left.pop())
        left += children[found[-1]]
    return set(found)


def work_of(number):
    """The crate that a process checks, and what it checks of it; or nothing."""
    try:
        words = Path(f"/proc/{number}/cmdline").read_bytes().decode(errors="replace").split("\0")
        folder = os.readlink(f"/proc/{number}/cwd")
    except OSError:
        return None
    if "--crate-name" not in words or "fmt" in words[1:2]:
        return None
    crate = words[words.index("--crate-name") + 1]
    if re.search(r"/rt-edit-", folder):
        return crate, "edits"
    return crate, "tests" if "--test" in words else "proof"


def watched(words):
    """The seconds of each crate and kind of `rt ci` with these words, all its seconds, and its minutes and status."""
    begun = time.monotonic()
    run = subprocess.Popen(["rt", "ci", *words], cwd=TOP)
    works, seconds = {}, {}
    while run.poll() is None:
        table = {number: (parent, start, used) for number, parent, start, used in processes()}
        for number in below(run.pid, table) & table.keys():
            key = number, table[number][1]
            if works.get(key) is None:
                works[key] = work_of(number)
            seconds[key] = table[number][2]
        time.sleep(0.5)
    spent = collections.Counter()
    for key, work in works.items():
        if work is not None:
            spent[work] += seconds[key]
    times = os.times()
    return spent, times.children_user + times.children_system, (time.monotonic() - begun) / 60, run.returncode


def main():
    spent, whole, minutes, status = watched(sys.argv[1:])
    crates = sorted({crate for crate, _ in spent}, key=lambda crate: -sum(spent[crate, kind] for kind in KINDS))
    print("| crate | proof | tests | edits | all |")
    print("|---|---|---|---|---|")
    for crate in crates:
        parts = [spent[crate, kind] for kind in KINDS]
        print("| `%s` | %s | %.0f |" % (crate, " | ".join("%.0f" % part if part else "" for part in parts), sum(parts)))
    parts = [sum(spent[crate, kind] for crate in crates) for kind in KINDS]
    print("| all | %s | %.0f |" % (" | ".join("%.0f" % part for part in parts), sum(parts)))
    print(f"\nother: {whole - sum(parts):.0f} seconds; all: {whole / 60:.1f} processor minutes in {minutes:.1f} minutes")
    sys.exit(status)


main()
