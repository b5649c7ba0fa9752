#!/usr/bin/env python3
"""Times scripts of 2,000, 8,000 and 32,000 lines: `set` lines, and transactions of 1, 16 and 160 changes
each with their `begin`, `put` and `commit` lines. All are over one table of 1,024 buckets with at most
32 keys a bucket, and end with a clone and its rows. Head lines give the pool a frame for each page and
the ring room for the whole log. Prints for each script the median of the seconds of processor time of
five runs, in which the program waits for nothing, and the memory that is in use at most; and then how
the cost of a change grows with the script, and how it differs between the kinds.

It then times two scripts of 32,000 `set` lines: the one of above, and one with a pool of 64 frames and a
`clean` and a `checkpoint` behind each 40 sets. An older program, built of a commit before there were such
lines, may be given as `bench/steps.py PROGRAM`: it gets the same sets without them, and both are timed in
turn. Prints the medians of five runs of each, and how many times the older program's they are.

`bench/steps.py --instructions` counts the instructions of three scripts by valgrind instead, which are the same on
every machine, and prints them in millions. All have a pool of 1,024 frames, a ring of 4 MiB, a table of 1,024 buckets,
and a `clean` and a `checkpoint` behind each 40 sets: 4,000 sets of scattered keys with a clone at the end, 12,000 sets
of ascending keys, and the same with a clone and its rows."""

import os
import re
import resource
import statistics
import subprocess
import sys
import tempfile

TOP = os.path.dirname(os.path.dirname(os.path.abspath(__file__)))

KINDS = {"set lines": None, "1 a transaction": 1, "16 a transaction": 16, "160 a transaction": 160}
COUNTS = [2000, 8000, 32000]
KEYS = 32768
RUNS = 5
POOL, SMALL_POOL = "pool 4096", "pool 64"
RING = "ring 16777216"
SETS_TO_CLEAN = 40
NEWER_WORDS = {"pool", "ring", "clean", "checkpoint"}
COUNTED_HEAD = ["pool 1024", "ring 4194304", "create 1 1024"]
SCATTERED, ASCENDING = 4000, 12000


def changes_of(count, size):
    """How many changes there are in so many lines, and how many each transaction makes."""
    if size is None:
        return count, []
    whole, rest = divmod(count, size + 2)
    sizes = [size] * whole + [rest - 2] * (rest > 2)
    return sum(sizes), sizes


def script(count, size):
    """A script with so many lines that change rows, in transactions of this size or each a `set` line."""
    changes, sizes = changes_of(count, size)
    keys = (change % KEYS for change in range(changes))
    lines = [POOL, RING, "create 1 1024"]
    for own in sizes:
        lines += ["begin 0", *(f"put 0 1 {next(keys)} 61" for _ in range(own)), "commit 0"]
    lines += [f"set 0 1 {key} 61" for key in keys]
    return "\n".join([*lines, "clone", "rows", ""])


def flushed_sets(keys):
    """A `set` line for each key, with a `clean` and a `checkpoint` behind each 40."""
    for first in range(0, len(keys), SETS_TO_CLEAN):
        yield from (f"set 0 1 {key} 61" for key in keys[first : first + SETS_TO_CLEAN])
        yield from ("clean", "checkpoint")


def flushing_script(count):
    """A script with so many `set` lines over few frames, whose pages are flushed again and again."""
    keys = [key % KEYS for key in range(count)]
    return "\n".join([SMALL_POOL, RING, "create 1 1024", *flushed_sets(keys), "clone", "rows", ""])


def older_script(text):
    """The script without the lines that an older program doesn't know."""
    return "\n".join(line for line in text.split("\n") if line.split(" ")[0] not in NEWER_WORDS)


def test(program, path, changes):
    """Runs a script once, and stops unless each of its changes is a row of the clone."""
    with open(path, "rb") as source:
        ran = subprocess.run([program, "steps"], stdin=source, capture_output=True)
    if ran.returncode != 0 or not ran.stdout.endswith(b"\nrows %d\n" % min(changes, KEYS)):
        sys.exit(f"{path}: status {ran.returncode}, last line {ran.stdout.splitlines()[-1:]}")


def processor_time():
    """The seconds of processor time of the runs that have ended."""
    usage = resource.getrusage(resource.RUSAGE_CHILDREN)
    return usage.ru_utime + usage.ru_stime


def time_of(program, path):
    """The seconds of processor time that a run takes."""
    before = processor_time()
    with open(path, "rb") as source:
        subprocess.run([program, "steps"], stdin=source, stdout=subprocess.DEVNULL, stderr=subprocess.DEVNULL, check=True)
    return processor_time() - before


def peak_of(program, path):
    """The KiB that a run has in use at most.

    They are read while the program waits in its last write, that of the binlog, since the pipe takes no more."""
    with open(path, "rb") as source:
        child = subprocess.Popen(
            [program, "steps"], stdin=source, stdout=subprocess.DEVNULL, stderr=subprocess.PIPE, bufsize=0, pipesize=4096
        )
    child.stderr.read(1)
    with open(f"/proc/{child.pid}/status") as status:
        peak = next(int(line.split()[1]) for line in status if line.startswith("VmHWM:"))
    child.communicate()
    return peak


def measure(program, path, text, changes):
    """The median of the seconds of a script's runs, and the KiB in use at most."""
    with open(path, "w") as out:
        out.write(text)
    test(program, path, changes)
    return statistics.median(time_of(program, path) for _ in range(RUNS)), peak_of(program, path)


def measure_all(program, path):
    """Prints a row for each script, and gives the seconds and the microseconds a change of each."""
    print(f"{'lines':>8} {'kind':>18} {'changes':>8} {'seconds':>9} {'changes/second':>15} {'us/change':>10} {'peak KiB':>10}")
    costs = {}
    for kind, size in KINDS.items():
        for count in COUNTS:
            changes, _ = changes_of(count, size)
            taken, peak = measure(program, path, script(count, size), changes)
            each = taken / changes * 1e6
            print(f"{count:>8,} {kind:>18} {changes:>8,} {taken:>9.3f} {changes / taken:>15,.0f} {each:>10.2f} {peak:>10,}")
            costs[kind, count] = taken, each
    return costs


def medians_of(runs):
    """The median of the seconds of each program over its script. All are timed in turn, so that a slow
    time of the machine falls on each."""
    times = [[time_of(*run) for run in runs] for _ in range(RUNS)]
    return [statistics.median(column) for column in zip(*times)]


def compare(kind, text, program, folder, older):
    """Prints a row for a script: the seconds of the program, and of the older one where it is given."""
    count = COUNTS[-1]
    runs = [(program, os.path.join(folder, "script"), text)]
    if older is not None:
        runs.append((os.path.abspath(older), os.path.join(folder, "older_script"), older_script(text)))
    for runner, path, lines in runs:
        with open(path, "w") as out:
            out.write(lines)
        test(runner, path, count)
    taken, *beside = medians_of([(runner, path) for runner, path, _ in runs])
    compared = "".join(f" {seconds:>9.3f} {taken / seconds:>6.2f}" for seconds in beside)
    print(f"{count:>8,} {kind:>32} {taken:>9.3f}{compared}")


def compare_all(program, folder, older=None):
    """Prints a row for each of the two long scripts of `set` lines."""
    count = COUNTS[-1]
    compared = "" if older is None else f" {'older':>9} {'ratio':>6}"
    print(f"{'sets':>8} {'with':>32} {'seconds':>9}{compared}")
    compare(f"{POOL}, {RING}", script(count, None), program, folder, older)
    compare(f"{SMALL_POOL}, clean and checkpoint", flushing_script(count), program, folder, older)


def instructions(program, lines):
    """The millions of instructions that a run of a script takes."""
    words = ["valgrind", "--tool=callgrind", "--callgrind-out-file=/dev/null", program, "steps"]
    text = "\n".join([*COUNTED_HEAD, *lines, ""]).encode()
    ran = subprocess.run(words, input=text, capture_output=True)
    collected = re.search(rb"Collected : (\d+)", ran.stderr)
    if ran.returncode != 0 or b"refused" in ran.stdout or collected is None:
        sys.exit(f"status {ran.returncode}, last lines {ran.stdout.splitlines()[-1:]} {ran.stderr.splitlines()[-1:]}")
    return int(collected[1]) / 1e6


def count_all(program):
    """Prints the instructions of each script that is counted."""
    scattered = list(flushed_sets([769 * number % 40000 for number in range(SCATTERED)]))
    ascending = list(flushed_sets(range(ASCENDING)))
    alone = instructions(program, ascending)
    cloned = instructions(program, [*ascending, "clone", "rows"])
    print("| script | million instructions |")
    print("|---|---|")
    print(f"| {SCATTERED:,} sets of scattered keys, and a clone | {instructions(program, [*scattered, 'clone']):.1f} |")
    print(f"| {ASCENDING:,} sets of ascending keys | {alone:.1f} |")
    print(f"| a clone of these with its rows, above them | {cloned - alone:.1f} |")


def main(program, folder, *older):
    costs = measure_all(program, os.path.join(folder, "script"))
    least, middle, most = COUNTS
    cheapest = min(costs[kind, most][1] for kind in KINDS)
    print()
    print(f"{'kind':>18} {f'us/change {most:,} to {least:,}':>27} {f'seconds {most:,} to {middle:,}':>25} {'us/change to the cheapest':>26}")
    for kind in KINDS:
        seconds, each = costs[kind, most]
        print(f"{kind:>18} {each / costs[kind, least][1]:>27.2f} {seconds / costs[kind, middle][0]:>25.2f} {each / cheapest:>26.2f}")
    print()
    compare_all(program, folder, *older)


def build():
    """Proves and builds the program where it isn't built yet."""
    if subprocess.run([os.path.join(TOP, "clone"), "--prove"], stdout=subprocess.DEVNULL).returncode != 0:
        sys.exit(1)
    return os.path.join(TOP, "crates", "clone_prog", "out", "clone_prog")


if sys.argv[1:] == ["--instructions"]:
    count_all(build())
else:
    with tempfile.TemporaryDirectory() as scripts:
        main(build(), scripts, *sys.argv[1:])
