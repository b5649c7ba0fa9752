"""draw.py PROGRAM COUNT: runs the program over scripts that are drawn, and compares what comes with what is due."""

import subprocess
import sys
import tempfile
from itertools import zip_longest
from pathlib import Path
from random import Random

from clone import World

# What is drawn with how often, at any time and while a clone goes on: lines, or some of them with strokes between.
ANY = {
    "create {table} {buckets}": 4, "drop {table}": 2, "begin {writer}": 5, "put {trx} {table} {key} {value}": 14,
    "del {trx} {table} {key}": 5, "get {trx} {table} {key}": 9, "undo {trx}": 4, "commit {trx}": 5, "clean": 3,
    "set {writer} {table} {key} {value}": 12, "flush {page}/half {page}": 5, "flush {page}": 4, "half {page}": 4,
    "land {page}": 8, "checkpoint": 4, "lsn": 3, "look": 1, "tear 7": 1, "rows": 1, "start": 1, "fail donor {call}": 2,
    "set 1 {table} {each} 61": 0.6, "set 1 {table} {each}000 61": 0.8, "put {trx} {table} 3 {each}{each}": 0.3,
    "begin {each}": 0.1, "create {each} 1": 0.1, "fail donor 1/half {page}": 2,
}
CLONE = {"task {task}": 30, "serve {link}": 30, "task {task}/serve {link}/" * 40 + "lsn": 40, "advance": 5,
         "cut {link} {kept} {kept}": 10, "archive {count}": 4, "abandon": 0.3, "finish": 0.5}


class Script:
    """A script that grows line by line, with what the oracle answers. Its items are words for the next line."""

    def __init__(self, seed):
        self.draw = Random(seed)
        draw = self.draw.choice
        head = {"pool": draw([16, 4096, 4096]), "ring": draw([65536, 1 << 20]), "version": draw([1, 2]),
                "tasks": draw([1, 1, 1, 2, 5]), "limit": draw([0, 2, 16])}
        self.world, self.answers, self.keys = World(**head), [], draw([5, 40, 150])
        self.lines = [f"{name} {number}" for name, number in head.items()]

    def __getitem__(self, name):
        """A word that means something where the script is, or now and then any."""
        draw, engine, links, count = self.draw, self.world.engine, len(self.world.links), len(self.world.tasks)
        pages = [*engine.flights] * 3 + [*engine.dirty] or [(0, 0)]
        likely = {"table": [*engine.tables], "trx": [*engine.open], "page": ["{} {}".format(*draw.choice(pages))],
                  "task": self.world.tasks, "link": range(max(0, links - count), links)}.get(name)
        if likely and draw.random() < 0.95:
            return draw.choice(likely)
        return {
            "table": draw.randint(1, 5), "trx": draw.randint(0, 3), "writer": draw.randint(0, 2), "task": 15,
            "link": draw.randint(0, 30), "page": f"{draw.randint(0, 2)} {draw.randint(0, 6)}",
            "buckets": draw.choice([1, 1, 8, 64, 70]), "key": draw.randint(0, self.keys), "call": draw.randint(1, 6),
            "value": draw.randbytes(draw.randint(0, 65)).hex() or "-", "kept": draw.choice([0, 1 << 31]),
            "count": draw.choice([1, 9999, 1 << 31]),
        }[name]

    def add(self, *lines):
        for line in lines:
            self.lines.append(line)
            self.answers += self.world.answer(line)

    def grow(self, kinds, count):
        """So many draws of these kinds. A line with `each` comes with many numbers."""
        for kind in self.draw.choices([*kinds], [*kinds.values()], k=count):
            numbers = range(10, self.draw.choice([70, 180])) if "{each}" in kind else [0]
            if not kind.startswith("fail") or self.world.engine.frames == 4096:
                for line in kind.replace("{each}", "{{each}}").split("/"):
                    line = line.format_map(self)
                    self.add(*(line.format(each=number) for number in numbers))

    def made(self):
        self.add(*["create 1 1", "create 2 4"][:self.draw.randint(0, 2)])
        self.grow(ANY, self.draw.randint(0, 120))
        self.add("start")
        for _ in range(self.draw.randint(0, 40)):
            self.grow(ANY if self.world.end else {**ANY, **CLONE}, 4)
        self.add("finish", "rows")
        self.grow(ANY, self.draw.randint(0, 40))
        self.add("rows", "look", "lsn")
        return self


def is_right(program, path, seed):
    """Output, binlog and status are compared. Where they differ the script stays."""
    script = Script(seed).made()
    text = "".join(f"{line}\n" for line in script.lines)
    path.write_text(text, encoding="ascii")
    ran = subprocess.run([program, "steps"], input=text, capture_output=True, text=True, check=False)
    came = f"{ran.stdout}{ran.stderr}status {ran.returncode}".split("\n")
    due = [*script.answers, *script.world.engine.binlog, f"status {script.world.status()}"]
    for number, (wanted, given) in enumerate(zip_longest(due, came), 1):
        if wanted != given:
            print(f"seed {seed}, {path}: line {number} of output and binlog is {given!r}, and not {wanted!r}")
            return False
    path.unlink()
    return True


def main():
    program, count, folder = sys.argv[1], int(sys.argv[2]), Path(tempfile.mkdtemp())
    passed = sum(is_right(program, folder / f"{seed}.steps", seed) for seed in range(1, count + 1))
    print(f"{passed} passed, {count - passed} failed")
    if passed < count:
        sys.exit(1)
    folder.rmdir()


main()
