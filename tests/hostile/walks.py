"""Scripts that are drawn: steps, cuts and losses in any order, with what the model of both ends answers."""

from random import Random

from recipient import World
from scripts import GARBLED, REFUSED, SPENT, Script

WALKS = 60


class Walk:
    """A script that grows by lines that are drawn, each with the model's answer."""

    def __init__(self, seed):
        self.draw = Random(seed)
        version, tasks = self.number(1, 2), self.draw.choice([1, 1, 2, 3, 16])
        limit = self.draw.choice([0, 2, 16, 16, 100])
        self.world = World(version, tasks, limit)
        self.script = Script(f"version {version}", f"tasks {tasks}", f"limit {limit}")

    def number(self, least, most):
        return self.draw.randint(least, most)

    def line(self, text, *answers):
        self.script.line(text, *answers)

    def create(self):
        if not self.world.engine.is_failing():
            table, buckets = self.number(1, 4), self.draw.choice([1, 4, 70, 200])
            self.line(f"create {table} {buckets}", self.world.engine.create(table, buckets))

    def set(self):
        engine = self.world.engine
        if engine.tables and not engine.is_failing():
            table = self.draw.choice(sorted(engine.tables))
            fields = self.number(0, 2), table, self.number(0, 20), f"{self.number(0, 255):02x}"
            self.line("set {} {} {} {}".format(*fields), engine.set(*fields))

    def clean(self):
        if not self.world.engine.is_failing():
            self.line("clean", self.world.clean())

    def task(self):
        number = self.draw.choice([0, self.number(0, self.world.count - 1), self.number(0, 15)])
        for _ in range(self.number(1, 4)):
            self.line(f"task {number}", self.world.task(number))

    def serve(self):
        number = max(0, len(self.world.connections) - self.number(0, 5))
        for _ in range(self.number(1, 4)):
            self.line(f"serve {number}", self.world.serve(number))

    def one_copies(self):
        """The steps that copy some blocks by a task and on its connection."""
        number = self.number(0, self.world.count - 1)
        for _ in range(self.number(1, 30)):
            self.line(f"task {number}", self.world.task(number))
            recipient = self.world.recipient
            connection = recipient.tasks[number].connection if recipient else None
            if connection:
                place = self.world.connections.index(connection)
                self.line(f"serve {place}", self.world.serve(place))

    def cut(self):
        number = max(0, len(self.world.connections) - self.number(1, min(4, self.world.count + 1)))
        kept = [self.draw.choice([0, 1, 5, 6, 25, 100, 5000, 40_000]) for _ in range(2)]
        self.line(f"cut {number} {kept[0]} {kept[1]}", self.world.cut(number, *kept))

    def fail(self):
        call = self.number(1, 40)
        self.line(f"fail donor {call}", self.world.engine.fail(call))

    def shown(self):
        self.line("look", f"position {len(self.world.engine.commits)}")
        self.line("lsn", f"lsn {self.world.engine.end}")
        self.line("rows", *self.world.rows())
        self.script.shown(*self.world.status())

    def archive(self):
        limit = self.draw.choice([0, 100, 2**32 - 1])
        self.line(f"archive {limit}", self.world.donor.archive(limit))

    def rest(self):
        """Lines that are drawn seldom."""
        name = self.draw.choice(["advance"] * 6 + ["checkpoint", "checkpoint", "start", "finish", "abandon"])
        if name == "checkpoint":
            self.line(name, self.world.engine.checkpoint())
        elif name != "abandon" or self.number(0, 9) == 0:
            self.line(name, getattr(self.world, name)())

    def lines(self, count):
        kinds = [self.task, self.serve, self.one_copies, self.cut, self.set, self.clean, self.fail, self.shown,
                 self.archive, self.create, self.rest]
        weights = [15, 15, 40, 12, 8, 4, 1, 3, 3, 1, 6]
        for kind in self.draw.choices(kinds, weights, k=count):
            kind()

    def made(self):
        for _ in range(self.number(0, 3)):
            self.create()
        # now and then more redo than a chunk has
        for _ in range(self.draw.choice([0, 0, 0, 240])):
            self.set()
        self.lines(self.number(0, 3))
        self.line("start", self.world.start())
        self.lines(self.number(10, 80))
        self.line("finish", self.world.finish())
        self.lines(3)
        self.line("rows", *self.world.rows())
        self.script.shown(*self.world.status())
        self.script.binlog = self.world.engine.binlog()
        self.script.status = self.status()
        return self.script

    def status(self):
        ended = self.world.recipient.ended or ""
        for text, status in [("restarts", SPENT), ("clone refused", REFUSED), ("garbled", GARBLED)]:
            if ended.startswith(text):
                return status
        return 0


def cases():
    for seed in range(WALKS):
        yield f"walk-{seed}", Walk(seed).made()
