#!/usr/bin/env python3
"""bench/run.py [--quick] [--program PATH]

Measures clones under load by the command `run`, and draws docs/cost.svg. Each number has a plain one of the same run
beside it.

The program tells no times, but each of its jobs is a thread: those that serve are started first, then the flusher, the
checkpointer and the archiver, then the writers, and last the tasks that fetch. So the script looks at /proc each
millisecond to see which threads are there. A clone goes from the start of the first task to the end of the last one, whose
files are synced then, and the commits to the end of the last writer. Making the tables before, and the recovery of the
clone behind it, are in none of these times.

- Seconds of a clone without writers: beside a `cp` of the files that it left with a `sync` of the copies, and as many
  bytes through a bare socket on the loopback address, by a program in C. With it the memory of the clone beyond the disks:
  the most that is resident while tasks of a run over files fetch, above what was resident when they began. Both ends
  are in one program, so it is that of both.
- Commits a second of all writers, over tables whose pages are all in the pool, so that their calls count and not the
  flusher's. While cloning: of a run whose last commit comes before the clone's end. Without a clone: of a longer run,
  those that are left at the clone's end over the time that they take; what it committed before that is taken to be the
  rate while cloning, times the clone's seconds. Medians of runs.
- Beside them threads that take a mutex of the standard library, by a plain program in Rust. A step under it takes as
  long as a call of one writer in memory without a clone: the seconds of a commit over its calls. Before each step a
  thread takes the mutex once more to read, as a writer asks before each call whether the run is to end.
- Seconds of a clone over files while four writers write, beside those without writers and those of the copy.

The program is taken as it was proved and built, and is proved first where it isn't; --program names another one. --quick
takes fewer pages, runs and kinds, and draws nothing: it is to try the script."""

import argparse
import os
import shutil
import statistics
import subprocess
import sys
import tempfile
import time
from collections import namedtuple
from pathlib import Path

TOP = Path(__file__).resolve().parent.parent
PROGRAMS = TOP / "bench" / "programs"
CHART = TOP / "docs" / "cost.svg"

PAGE = 4096
PIECE = 32768
BUCKETS = 1024
SYSTEM_PAGES = 257
POOL, RING = 4096, 16777216
# the jobs that keep the donor going: flusher, checkpointer and archiver
KEEPERS = 3
LOOK = 0.001
LONGEST = 120
MOST_TRANSACTIONS = 100_000
# a transaction has 1 to 8 changes, and beside them a begin and a commit
CALLS = 6.5
MUTEX_SECONDS = 1.0

WAYS = {"memory": (False, False), "files": (True, False), "files and sockets": (True, True)}
WRITERS = (1, 4, 16)
TASKS = (1, 4)

# tables whose pages are all in the pool, and whose buckets are a page each
POOLED, POOLED_BUCKETS = 28, 128

# How many tables the clones have that are charted, ascending; how often a clone is timed, and how many commits are tried.
Sizes = namedtuple("Sizes", "charted times tasks trial")
WHOLE = Sizes(charted=(16, 31, 62), times=3, tasks=TASKS, trial=2_000)
QUICK = Sizes(charted=(4, 8), times=1, tasks=(1,), trial=2_000)

# The head of the chart. Each line has a colour, another in the dark, and a shape at its points.
HEAD = """\
<svg xmlns="http://www.w3.org/2000/svg" viewBox="0 0 960 400" font-family="sans-serif" font-size="14">
  <title>Seconds over pages: a plain copy, a clone without writers, and one with four writers, over files by one task</title>
  <style>
    .paper { fill: #fff } text { fill: #123 } .grid { fill: none; stroke: #dde4ec } .stroke { fill: none; stroke-width: 2.5 }
    .line0 .stroke { stroke: #5a6572 } .line0 .point, .line0 .name { fill: #5a6572 }
    .line1 .stroke { stroke: #0b62c4 } .line1 .point, .line1 .name { fill: #0b62c4 }
    .line2 .stroke { stroke: #b3480a } .line2 .point, .line2 .name { fill: #b3480a }
    @media (prefers-color-scheme: dark) {
      .paper { fill: #0d1117 } text { fill: #d5dde6 } .grid { stroke: #2b3440 }
      .line0 .stroke { stroke: #a9b4c0 } .line0 .point, .line0 .name { fill: #a9b4c0 }
      .line1 .stroke { stroke: #6cb2ff } .line1 .point, .line1 .name { fill: #6cb2ff }
      .line2 .stroke { stroke: #ff9d5c } .line2 .point, .line2 .name { fill: #ff9d5c }
    }
  </style>
  <rect class="paper" width="960" height="400"/>
  <text x="80" y="34" font-size="16">Seconds over pages, over files by one task</text>"""
CLASS_OF_NAME = ' class="name"'
SHAPES = (
    "M{x:.1f} {y:.1f} m-5 0 a5 5 0 1 0 10 0 a5 5 0 1 0 -10 0",
    "M{x:.1f} {y:.1f} m-5 -5 h10 v10 h-10 z",
    "M{x:.1f} {y:.1f} m0 -6 l6 11 h-12 z",
)

# What was seen of a run: seconds of the clone, seconds from the first writer's start to the clone's end and to the last
# commit, commits in all, and KiB.
Seen = namedtuple("Seen", "clone until writing commits memory")


def pages_of(tables, buckets=BUCKETS):
    return SYSTEM_PAGES + buckets * tables


def resident(process):
    """The KiB of a process that are resident."""
    return int(Path(f"/proc/{process}/statm").read_text().split()[1]) * os.sysconf("SC_PAGE_SIZE") // 1024


class Look:
    """When each thread of a process was seen first and last, and how much was resident at each look."""

    def __init__(self, child):
        self.first, self.last, self.kept = {}, {}, []
        limit = time.perf_counter() + LONGEST
        while child.poll() is None:
            now = time.perf_counter()
            if now > limit:
                child.kill()
            self.take(child.pid, now)
            time.sleep(LOOK)

    def take(self, process, now):
        try:
            threads = os.listdir(f"/proc/{process}/task")
            self.kept.append((now, resident(process)))
        except (FileNotFoundError, ProcessLookupError):
            return
        for thread in map(int, threads):
            self.first.setdefault(thread, now)
            self.last[thread] = now

    def in_order(self):
        """The threads, in the order in which they were started."""
        return sorted(self.first, key=lambda thread: (self.first[thread], thread))

    def seconds(self, threads):
        """From when the first of these was seen first, and up to when the last of them was seen last."""
        return min(self.first[it] for it in threads), max(self.last[it] for it in threads)

    def grown(self, start, end):
        """The most that was resident in this time, above what was resident when it began."""
        before = [kept for now, kept in self.kept if now <= start]
        return max(kept for now, kept in self.kept if start <= now <= end) - before[-1]


def words_of(folder, way, tables, buckets, writers, transactions, tasks):
    files, sockets = WAYS[way]
    words = ["run", "--seed", 7, "--tables", tables, "--buckets", buckets, "--pool", POOL, "--ring", RING]
    words += ["--writers", writers, "--transactions", transactions, "--tasks", tasks]
    words += ["--dir", folder] if files else []
    return [str(word) for word in words + ["--tcp"] * sockets]


def run(program, folder, way, tables, buckets, writers, transactions, tasks):
    """A run in this folder, which is emptied before."""
    shutil.rmtree(folder, ignore_errors=True)
    words = words_of(folder, way, tables, buckets, writers, transactions, tasks)
    with tempfile.TemporaryFile("w+") as out:
        child = subprocess.Popen([program, *words], stdout=out, stderr=subprocess.DEVNULL)
        look = Look(child)
        out.seek(0)
        said = out.read().splitlines()
    if child.returncode != 0 or said[-2:] != ["clone complete", "floor met"]:
        sys.exit(f"{' '.join(words)}: status {child.returncode}, last lines {said[-2:]}")
    threads = look.in_order()
    start, cloned = look.seconds(threads[-tasks:])
    wrote = threads[1 + tasks + KEEPERS : -tasks]
    if transactions and not wrote:
        sys.exit(f"{' '.join(words)}: no writer was seen")
    begun, written = look.seconds(wrote) if transactions else (start, start)
    return Seen(cloned - start, cloned - begun, written - begun, writers * transactions, look.grown(start, cloned))


def copied(folder, to):
    """The seconds of a copy of the files in this folder, with a sync of the copies."""
    start = time.perf_counter()
    subprocess.run(["cp", "-r", "--sparse=never", folder, to], check=True)
    subprocess.run(["sync", to, *Path(to).iterdir()], check=True)
    taken = time.perf_counter() - start
    shutil.rmtree(to)
    return taken


def poured(socket, size):
    """The seconds in which so many bytes go through a bare socket."""
    start = time.perf_counter()
    subprocess.run([socket, "pour", str(-(-size // PIECE))], check=True)
    return time.perf_counter() - start


def compiled(folder, compiler, source):
    made = folder / Path(source).stem
    subprocess.run([*compiler, "-o", made, PROGRAMS / source], check=True)
    return str(made)


def row(*cells):
    print(f"| {' | '.join(cells)} |", flush=True)


def head(title, *names):
    """The title of a table and its head."""
    print(f"\n{title}\n")
    row(*names)
    print("|---" * len(names) + "|", flush=True)


class Bench:
    def __init__(self, program, folder, sizes):
        self.program, self.folder, self.sizes = program, folder, sizes
        self.socket = compiled(folder, ["gcc", "-O2", "-pthread"], "bare_sockets.c")
        self.mutex = compiled(folder, ["rustc", "-O", "--edition", "2021"], "plain_mutex.rs")
        self.trial = sizes.trial
        self.wanted = []

    def run(self, way, tables, writers, commits, tasks, buckets=BUCKETS):
        """A run with about so many commits of all writers."""
        transactions = min(MOST_TRANSACTIONS, -(-round(commits) // writers))
        return run(self.program, self.folder / "run", way, tables, buckets, writers, transactions, tasks)

    def want(self, met, text):
        self.wanted.append(f"{'met' if met else 'NOT MET'}: {text}")

    def idle(self, tables, tasks):
        """What clones without writers take in each way, and what plain copies take: medians of runs that are made in
        turn."""
        rounds = []
        for _ in range(self.sizes.times):
            ways = ("memory", "files and sockets", "files")
            memory, sockets, files = (self.run(way, tables, 1, 0, tasks) for way in ways)
            os.sync()
            left = self.folder / "run" / "recipient"
            size = sum(file.stat().st_size for file in left.iterdir())
            plain = copied(left, self.folder / "copy")
            bare = poured(self.socket, size)
            rounds.append((memory.clone, files.clone, sockets.clone, plain, bare, files.memory, sockets.memory, size))
        return [statistics.median(column) for column in zip(*rounds)]

    def print_idle(self):
        """Prints the clones without writers, and gives the points of two lines of the chart: plain copies and clones."""
        head("Clones without writers, in seconds, and the memory beyond the disks in KiB:", "pages", "MiB", "tasks",
             "in memory", "files", "files and sockets", "cp and sync", "bare socket", "files to cp", "sockets to cp", "KiB",
             "KiB with sockets")
        plain, idle = [], []
        for tables in self.sizes.charted:
            for tasks in self.sizes.tasks if tables == self.sizes.charted[-1] else (1,):
                memory, files, sockets, copy, bare, kept, more, size = self.idle(tables, tasks)
                pages = pages_of(tables)
                taken = (f"{it:.3f}" for it in (memory, files, sockets, copy, bare))
                row(f"{pages:,}", f"{size / 2**20:.0f}", f"{tasks}", *taken, f"{files / copy:.2f}", f"{sockets / copy:.2f}",
                    f"{kept:,.0f}", f"{more:,.0f}")
                if tasks == 1:
                    plain.append((pages, copy))
                    idle.append((pages, files))
                if tables == self.sizes.charted[-1]:
                    about = f"a clone of {size / 2**20:.0f} MiB by {tasks} tasks takes at most 1.3 times the cp"
                    self.want(files <= 1.3 * copy, f"{about}: {files / copy:.2f}")
                    self.want(sockets <= 1.3 * copy, f"{about}, over sockets: {sockets / copy:.2f}")
        return plain, idle

    def pooled(self, way, writers, commits, tasks):
        return self.run(way, POOLED, writers, commits, tasks, POOLED_BUCKETS)

    def within(self, way, writers, tasks):
        """A run whose last commit comes before the clone's end, but not long before."""
        seen = self.pooled(way, writers, self.trial, tasks)
        for _ in range(6):
            if 0.4 * seen.until < seen.writing < 0.95 * seen.until:
                break
            seen = self.pooled(way, writers, 0.7 * seen.commits * seen.until / seen.writing, tasks)
        self.trial = seen.commits
        return seen

    def rates(self, way, writers, tasks):
        """Seconds of a clone under load, and commits a second while cloning and without a clone: medians."""
        rounds = []
        for _ in range(self.sizes.times):
            short = self.within(way, writers, tasks)
            cloning = short.commits / short.writing
            long = self.pooled(way, writers, 4 * cloning * short.until, tasks)
            rounds.append((long.clone, cloning, (long.commits - cloning * long.until) / (long.writing - long.until)))
        return [statistics.median(column) for column in zip(*rounds)]

    def print_rates(self):
        """Prints the rates for each kind of a run, and gives those in memory without a clone by the number of writers."""
        head(f"Commits a second of all writers, {pages_of(POOLED, POOLED_BUCKETS):,} pages:", "way", "tasks", "writers",
             "seconds of the clone", "while cloning", "without a clone", "share", "to one writer")
        found = {}
        for way in WAYS:
            for tasks in self.sizes.tasks:
                for writers in WRITERS:
                    clone, cloning, alone = self.rates(way, writers, tasks)
                    found[way, tasks, writers] = alone
                    to_one = alone / found[way, tasks, 1]
                    share = cloning / alone
                    row(way, f"{tasks}", f"{writers}", f"{clone:.3f}", f"{cloning:,.0f}", f"{alone:,.0f}", f"{share:.2f}",
                        f"{to_one:.2f}")
                    about = f"{way}, {tasks} tasks, {writers} writers"
                    self.want(share >= 0.95, f"{about}: 95 of 100 commits while cloning: {100 * share:.0f}")
                    if writers == 4:
                        self.want(to_one >= 1, f"{about}: as many commits as one writer alone: {to_one:.2f} times")
        return {writers: found["memory", 1, writers] for writers in WRITERS}

    def steps(self, threads, step):
        """Steps a second of so many threads under a mutex, where one takes so many nanoseconds."""
        words = [self.mutex, str(threads), str(step), str(MUTEX_SECONDS)]
        return float(subprocess.run(words, stdout=subprocess.PIPE, text=True, check=True).stdout)

    def print_mutex(self, commits):
        """Prints how many commits threads under a mutex would make, beside those of writers."""
        step = 1e9 / commits[1] / CALLS
        steps = {threads: self.steps(threads, step) for threads in WRITERS}
        head(f"Steps of {step:,.0f} ns under a mutex, {CALLS} to a commit, beside writers in memory without a clone:",
             "threads", "commits a second under a mutex", "to one thread", "of writers", "to one writer")
        for threads in WRITERS:
            row(f"{threads}", f"{steps[threads] / CALLS:,.0f}", f"{steps[threads] / steps[1]:.2f}", f"{commits[threads]:,.0f}",
                f"{commits[threads] / commits[1]:.2f}")

    def print_busy(self, plain, idle):
        """Prints clones over files by one task while four writers write, and gives the points of the chart's third line."""
        head("Clones over files by one task while four writers write, in seconds:", "pages", "clone", "commits a second",
             "without writers", "cp and sync")
        points = []
        for tables, (pages, copy), (_, alone) in zip(self.sizes.charted, plain, idle):
            seen = self.run("files", tables, 4, 10_000 * alone, 1)
            while seen.writing < seen.until and seen.commits < 4 * MOST_TRANSACTIONS:
                seen = self.run("files", tables, 4, 1.5 * seen.commits * seen.until / seen.writing, 1)
            row(f"{pages:,}", f"{seen.clone:.3f}", f"{seen.commits / seen.writing:,.0f}", f"{alone:.3f}", f"{copy:.3f}")
            points.append((pages, seen.clone))
        return points


def marks(most):
    """The marks of an axis up to this number: nine at most, of a round step."""
    steps = (unit * ten / 1000 for ten in (10**power for power in range(9)) for unit in (1, 2, 5))
    step = next(step for step in steps if most <= 8 * step)
    return [number * step for number in range(int(most / step) + 1)]


def text(x, y, words, anchor="middle", more=""):
    return f'<text x="{x:.1f}" y="{y:.1f}" text-anchor="{anchor}"{more}>{words}</text>'


def grid(path, label):
    return f'  <path class="grid" d="{path}"/>{label}'


def chart(lines):
    """A chart of seconds over pages: a line for each name, with a shape of its own at its points."""
    left, right, top, bottom = 80, 700, 60, 340
    across = [pages for _, own in lines for pages, _ in own]
    up = [seconds for _, own in lines for _, seconds in own]
    x_of = lambda pages: left + (right - left) * pages / max(across)
    y_of = lambda seconds: bottom - (bottom - top) * seconds / max(up)
    drawn = [HEAD]
    for pages in marks(max(across)):
        x = x_of(pages)
        drawn.append(grid(f"M{x:.1f} {top} V{bottom}", text(x, bottom + 22, f"{pages:,.0f}")))
    for seconds in marks(max(up)):
        y = y_of(seconds)
        drawn.append(grid(f"M{left} {y:.1f} H{right}", text(left - 10, y + 5, f"{seconds:g}", "end")))
    middle = (top + bottom) / 2
    drawn.append("  " + text((left + right) / 2, bottom + 46, "pages of 4 KiB"))
    drawn.append("  " + text(24, middle, "seconds", more=f' transform="rotate(-90 24 {middle})"'))
    labels = spread([y_of(own[-1][1]) for _, own in lines], 20)
    for number, (name, own) in enumerate(lines):
        at = [(x_of(pages), y_of(seconds)) for pages, seconds in own]
        path = " L".join(f"{x:.1f} {y:.1f}" for x, y in at)
        drawn.append(f'  <g class="line{number}">\n    <path class="stroke" d="M{path}"/>')
        drawn += [f'    <path class="point" d="{SHAPES[number].format(x=x, y=y)}"/>' for x, y in at]
        drawn.append(f"    {text(right + 14, labels[number] + 5, name, 'start', CLASS_OF_NAME)}\n  </g>")
    return "\n".join([*drawn, "</svg>", ""])


def spread(places, apart):
    """These places, moved down where two are closer than that."""
    placed, last = {}, None
    for place in sorted(places):
        last = place if last is None else max(place, last + apart)
        placed[place] = last
    return [placed[place] for place in places]


def program_at(words):
    """The program that is named, or the built one, which is proved first where it isn't built yet."""
    if words.program is not None:
        return str(Path(words.program).resolve())
    if subprocess.run([TOP / "clone", "--prove"], stdout=subprocess.DEVNULL).returncode != 0:
        sys.exit(1)
    return str(TOP / "crates" / "clone_prog" / "out" / "clone_prog")


def main():
    reader = argparse.ArgumentParser(description="Measures clones under load, and draws docs/cost.svg.")
    reader.add_argument("--quick", action="store_true", help="fewer pages, runs and kinds, and nothing is drawn")
    reader.add_argument("--program", help="another program than the one that is built here")
    words = reader.parse_args()
    program = program_at(words)
    load = os.getloadavg()[0]
    print(f"{os.cpu_count()} hardware threads, load average {load:.2f} at the start")
    with tempfile.TemporaryDirectory() as folder:
        bench = Bench(program, Path(folder), QUICK if words.quick else WHOLE)
        plain, idle = bench.print_idle()
        bench.print_mutex(bench.print_rates())
        busy = bench.print_busy(plain, idle)
    print()
    print("\n".join(bench.wanted))
    if not words.quick:
        CHART.write_text(chart([("cp and sync", plain), ("clone, no writers", idle), ("clone, 4 writers", busy)]))


main()
