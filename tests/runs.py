#!/usr/bin/env python3
"""tests/runs.py [RUNS] [FIRST SEED]

Runs clones under load whose seeds, writers, tasks, tables, cuts, pools and rings are drawn, every other one over files and
sockets, and checks each from outside. The binlog has each writer's transactions, each once and in their order, as
tests/pcg.py generates them, and no others. The report's rows are those of its first N commits, applied one after the other
by a few lines of Python; N is at least the floor. `recover` and `dump` on the directory of a run say the same. For each run
it writes what it checked. The last line is 'N passed, M failed'."""

import random
import shutil
import subprocess
import sys
import tempfile
from pathlib import Path

import pcg

TOP = Path(__file__).resolve().parent.parent
PROGRAM = TOP / "crates" / "clone_prog" / "out" / "clone_prog"
LONGEST = 300


def program(words, env=None):
    ended = subprocess.run([PROGRAM, *map(str, words)], capture_output=True, text=True, timeout=LONGEST, env=env)
    return ended.returncode, ended.stdout.splitlines(), ended.stderr.splitlines()


def options(drawn, directory):
    """The options of a run, as a dictionary, and the words for them."""
    given = {
        "seed": drawn.getrandbits(64),
        "writers": drawn.choice([1, 2, 3, 4, 8, 16]),
        "transactions": drawn.choice([0, 1, 10, 50, 200]),
        "tables": drawn.choice([1, 2, 4, 8, 62]),
        "buckets": drawn.choice([16, 64]),
        "tasks": drawn.choice([1, 2, 4, 8, 16]),
        "limit": 100,
        "pool": drawn.choice([64, 256, 1024]),
        "ring": drawn.choice([262144, 1048576]),
        "cuts": drawn.choice([0, 0, 1, 2, 5]),
    }
    words = ["run"]
    for name, value in given.items():
        words += [f"--{name}", value]
    words.append("--report")
    if directory is not None:
        words += ["--dir", directory, "--tcp"]
    return given, words


def commits_in(lines):
    """The commits of a binlog: writer, index, and changes as lines."""
    commits = []
    lines = iter(lines)
    for line in lines:
        word, writer, index, count = line.split()
        assert word == "commit", line
        commits.append((int(writer), int(index), [next(lines) for _ in range(int(count))]))
    return commits


def generated(seed, writer, index, tables):
    changes = pcg.transaction(seed, writer, index, tables)
    return [f"{table} {key} {'none' if value is None else value.hex() or '-'}" for table, key, value in changes]


def rows_of(commits):
    """The rows after these commits, as lines: ascending by table and key, with their number."""
    rows = {}
    for _, _, changes in commits:
        for change in changes:
            table, key, value = change.split()
            if value == "none":
                rows.pop((int(table), int(key)), None)
            else:
                rows[int(table), int(key)] = value
    lines = [f"{table} {key} {value}" for (table, key), value in sorted(rows.items())]
    return lines + [f"rows {len(rows)}"]


def check_binlog(given, commits):
    """Each writer's commits are its transactions, in their order, and there are no others."""
    for writer in range(given["writers"]):
        own = [(index, changes) for by, index, changes in commits if by == writer]
        assert [index for index, _ in own] == list(range(given["transactions"])), f"indices of writer {writer}"
        for index, changes in own:
            assert changes == generated(given["seed"], writer, index, given["tables"]), f"commit {writer} {index}"
    assert len(commits) == given["writers"] * given["transactions"], "commits of nobody"


def check_run(drawn, directory):
    given, words = options(drawn, directory)
    return check_ended(given, program(words), directory)


def check_ended(given, ended, directory):
    """A run with these options ended so, and what it wrote is right; so is its directory, if it has one."""
    status, out, errors = ended
    assert status == 0, f"status {status}: {out[:3]}"
    commits = commits_in(errors)
    check_binlog(given, commits)
    summary = [f"seed {given['seed']} writers {given['writers']} transactions {given['transactions']}"]
    summary += [f"writer {writer} commits {given['transactions']}" for writer in range(given["writers"])]
    summary += ["clone complete", "floor met"]
    assert out[: len(summary)] == summary, f"summary {out[:len(summary)]}"
    report, rows = out[len(summary)], out[len(summary) + 1:]
    word, lsn, at, position, of, floor = report.split()
    assert (word, at, of) == ("lsn", "position", "floor"), report
    position = int(position)
    assert int(floor) <= position <= len(commits), report
    assert rows == rows_of(commits[:position]), "rows"
    if directory is not None:
        assert program(["recover", "--dir", directory])[:2] == (0, [f"recovered lsn {lsn} position {position}"]), "recover"
        assert program(["dump", "--dir", directory])[:2] == (0, rows), "dump"
    return given, len(commits), position, int(floor), len(rows) - 1


def main():
    runs = int(sys.argv[1]) if len(sys.argv) > 1 else 100
    first = int(sys.argv[2]) if len(sys.argv) > 2 else 1
    passed = failed = 0
    for seed in range(first, first + runs):
        drawn = random.Random(seed)
        directory = Path(tempfile.mkdtemp()) if seed % 2 == 0 else None
        try:
            given, commits, position, floor, rows = check_run(drawn, directory)
            where = "memory" if directory is None else "files and sockets"
            print(f"run {seed}, {where}: {given['writers']} writers, {given['tasks']} tasks, {given['cuts']} cuts: "
                  f"{commits} commits, clone of the first {position} with {rows} rows, floor {floor}")
            passed += 1
        except (AssertionError, ValueError, IndexError, subprocess.TimeoutExpired) as fault:
            print(f"run {seed}: {fault}")
            failed += 1
        finally:
            if directory is not None:
                shutil.rmtree(directory)
    print(f"{passed} passed, {failed} failed")
    return 1 if failed else 0


if __name__ == "__main__":
    sys.exit(main())
