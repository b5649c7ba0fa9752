"""The ends of a clone, and what each line is answered, as docs/FORMATS.md tells it. Frames have no lengths here, so a
cut keeps all of them each way or none. There are no strangers, no forged bytes, no faults of the recipient's disk.
"""

from engine import Engine, Refused, refuse

FILES, PAGES, REDO, DONE = 1, 2, 3, 4
CHUNK = {FILES: 64, PAGES: 64, REDO: 65536}
BLOCK = {FILES: 8, PAGES: 8, REDO: 16384}


def pieces(count, size):
    """How much each piece of so many has."""
    return [min(size, count - at) for at in range(0, count, size)]


class Connection:
    """The frames each way that aren't read, and the donor's steps."""

    def __init__(self, donor):
        self.to_donor, self.to_task, self.is_cut, self.has_task, self.is_done = [], [], False, True, False
        self.steps = donor.steps(self)

    def send(self, way, *frame):
        if not self.is_cut:
            way.append(frame)

    def answer(self, *frame):
        """A part of the answer to an EXECUTE is sent. A connection that was cut is lost then."""
        self.send(self.to_task, *frame)
        self.is_done = self.is_cut
        return "lost" if self.is_done else "sent " + " ".join(map(str, frame))


class Stage:
    """The blocks of its chunks, and those that the requester hasn't got yet."""

    def __init__(self, number, sizes):
        self.number, self.sizes = number, sizes
        self.blocks = {(chunk, block): part for chunk, size in enumerate(sizes)
                       for block, part in enumerate(pieces(size, BLOCK[number]))}
        self.left = dict(self.blocks)


class Donor:
    """The session, if one is open: the tables that it knows, pages that are to be copied once more, stage and stop."""

    def __init__(self, engine):
        self.engine, self.is_open, self.archived, engine.needed = engine, False, None, self.needs
        engine.note = lambda page: self.is_open and self.stage.number == FILES and self.noted.add(page)

    def open(self):
        engine, self.is_open, self.incarnation, self.stop = self.engine, True, 0, None
        self.noted = engine.flights.keys() | engine.torn
        files = [257, *(table.file for _, table in sorted(engine.tables.items()))]
        self.stage = Stage(FILES, [size for count in files for size in pieces(count, CHUNK[FILES])])

    def leave(self):
        refuse(C6=not self.is_open)
        self.is_open, self.archived = False, None
        return "abandoned"

    def end_stage(self):
        engine, number = self.engine, self.stage.number
        if number == FILES:
            self.start = self.archived = engine.checkpointed
        if number == PAGES:
            self.stop, self.rows = (engine.end, engine.commits), dict(engine.rows)
        count = {FILES: len(self.noted), PAGES: engine.end - self.start, REDO: 0}[number]
        self.stage, self.claimed = Stage(number + 1, pieces(count, CHUNK.get(number + 1, 1))), set()

    def needs(self):
        """From where on the log is kept: from where it is archived, until all of it up to the stop is."""
        has_all = self.archived is None or self.stop and self.archived == self.stop[0]
        return self.engine.end if has_all else self.archived

    def archive(self, count):
        if self.archived is None:
            return "idle"
        self.archived = min(self.archived + count, self.stop[0] if self.stop else self.engine.end)
        return f"archived {self.archived}"

    def steps(self, link):
        """The steps on a connection, up to the one with which its end is done. A fault of the disk isn't sent."""
        try:
            while not link.is_done:
                if link.to_donor:
                    yield from self.carry_out(link, *link.to_donor.pop(0))
                else:
                    link.is_done = link.is_cut or not link.has_task
                    yield "lost" if link.is_done else "idle"
        except Refused as refused:
            link.is_done = True
            if str(refused) != "E17":
                link.send(link.to_task, "REFUSED", str(refused))
            yield f"refused {refused}"

    def test(self, incarnation):
        refuse(C6=not self.is_open)
        refuse(C7=incarnation != self.incarnation and self.incarnation)

    def carry_out(self, link, name, incarnation, *has):
        if name in ("INIT", "REINIT"):
            self.join(name, incarnation, *has)
        self.test(incarnation)
        if name == "EXECUTE":
            yield "execute"
            yield from self.send_blocks(link, incarnation)
        elif name == "EXIT":
            self.leave()
            link.is_done = True
            yield "exit"
        else:
            if (name, *has) == ("ACK", self.stage.number):
                self.end_stage()
            link.send(link.to_task, "STAGE", self.stage.number, self.stage.sizes, self.stop)
            stop = " lsn {} position {}".format(*self.stop) if self.stop else ""
            yield f"answered STAGE {self.stage.number}{stop}"

    def join(self, name, incarnation, stage=None, left=()):
        """A stage that a requester comes back to from the one before it begins anew."""
        if name == "INIT" and not self.is_open:
            self.open()
        refuse(C6=not self.is_open)
        refuse(C7=incarnation <= self.incarnation and self.incarnation)
        self.incarnation, self.claimed = incarnation, set()
        self.stage.left = dict(left if stage == self.stage.number else self.stage.blocks)

    def send_blocks(self, link, incarnation):
        """The blocks of one free chunk after the other, and the END."""
        chunk = 0
        while chunk is not None:
            self.test(incarnation)
            chunk = next((chunk for chunk, _ in self.stage.left if chunk not in self.claimed), None)
            self.claimed.add(chunk)
            for block in [block for at, block in self.stage.left if at == chunk]:
                self.test(incarnation)
                size = self.stage.blocks[chunk, block]
                if self.stage.number == REDO:
                    self.archived = max(self.archived, self.start + CHUNK[REDO] * chunk + BLOCK[REDO] * block + size)
                for _ in range(size if self.stage.number == FILES else 0):
                    self.engine.call_disk()
                yield link.answer("REDO" if self.stage.number == REDO else "PAGES", chunk, block)
                if link.is_done:
                    return
        yield link.answer("END")


class World:
    """The lines of a script: a method with the name of one answers it, or the engine does."""

    def __init__(self, pool, ring, version, tasks, limit):
        self.engine, self.version, self.limit, self.losses, self.links = Engine(pool, ring), version, limit, 0, []
        self.donor, engine = Donor(self.engine), self.engine
        # the recipient: its stage, its stop, how its clone ended, and its tasks
        self.is_begun, self.stage, self.stop, self.end, self.tasks = False, Stage(0, []), None, "", range(tasks)
        self.connect_anew()
        self.lines = {
            "del": lambda *row: engine.put(*row, None), "half": lambda *page: engine.write_half(False, *page),
            "land": lambda *page: engine.write_half(True, *page), "lsn": lambda: f"lsn {engine.end}",
            "drop": lambda table: engine.drop(table, self.donor.is_open), "tear": lambda _: "noted",
            "fail": lambda call: engine.failing.add(engine.calls + call) or "noted",
            "look": lambda: f"position {engine.commits}", "abandon": self.donor.leave, "archive": self.donor.archive,
            "finish": lambda: self.advance(False), "clone": lambda: self.start() and self.advance(False),
        }

    def answer(self, line):
        """The answer's lines."""
        name, *words = line.split(" ")
        values = [words.pop()] if name in ("put", "set") else []
        known = self.lines.get(name) or getattr(self, name, None) or getattr(self.engine, name)
        self.engine.held.clear()
        try:
            answer = known(*(int(word) for word in words if word != "donor"), *values)
        except Refused as refused:
            answer = f"refused {refused}"
        return answer.split("\n")

    def status(self):
        """The program's own, by how the clone ended."""
        return {"restarts": 8, "clone": 16}.get(self.end.split(" ")[0], 0)

    def connect_anew(self):
        """No task has a connection. What a task awaits is known to the others."""
        self.is_joined, self.awaits = False, {}
        self.steps = [self.task_steps(number) for number in self.tasks]

    def task(self, number):
        is_idle = not self.is_begun or self.end or number not in self.tasks or self.stage.number == DONE and number
        return "idle" if is_idle else next(self.steps[number])

    def task_steps(self, number):
        while number and not self.is_joined:
            yield "idle"
        link, told = Connection(self.donor), None
        self.links.append(link)
        back = ["REINIT", self.stage.number, dict(self.stage.left)] if self.stage.number else ["INIT"]
        yield from self.ask(number, link, "STAGE", *(["ATTACH"] if number else back))
        while self.stage.number != DONE:
            if number == 0 and self.acknowledges():
                yield from self.ask(number, link, "STAGE", "ACK", self.stage.number)
            elif told is self.stage or not self.stage.left:
                yield "idle"
            else:
                told = self.stage
                yield from self.ask(number, link, "END", "EXECUTE")
        link.send(link.to_donor, "EXIT", self.losses + 1)
        self.end, self.due = f"complete position {self.stop[1]}", self.donor.rows
        yield self.end

    def ask(self, number, link, last, name, *fields):
        """A command is sent, and what comes is taken up to the last frame of its answer."""
        link.send(link.to_donor, name, self.losses + 1, *fields)
        self.awaits[number] = last
        yield f"sent {name}"
        while number in self.awaits:
            kind, *taken = link.to_task.pop(0) if link.to_task else [None]
            if kind is None:
                yield self.lose() if link.is_cut or link.is_done else "idle"
            elif kind == "REFUSED":
                self.end = f"clone refused {taken[0]}"
                yield self.end
            elif kind in ("PAGES", "REDO"):
                self.stage.left.pop(tuple(taken))
                yield "took {} {} {}".format(kind, *taken)
            else:
                del self.awaits[number]
                self.is_joined |= number == 0
                if kind == "STAGE" and (name == "ACK" or not self.stage.number):
                    self.stage, self.stop = Stage(*taken[:2]), taken[2]
                yield f"took {kind}"

    def lose(self):
        """A loss leaves no task its connection; one beyond the limit ends the clone, and closes none."""
        self.losses += 1
        if self.losses > self.limit:
            self.end = f"restarts spent {self.losses}"
            return self.end
        for link in self.links:
            link.has_task = False
        self.connect_anew()
        unfinished = {chunk for chunk, _ in self.stage.left}
        if self.version == 1:
            self.stage.left = {place: size for place, size in self.stage.blocks.items() if place[0] in unfinished}
        return f"lost {self.losses}"

    def acknowledges(self):
        """Whether the next step of the first task acknowledges the stage."""
        is_copied = not self.end and self.is_joined and self.stage.number in CHUNK and not self.stage.left
        return is_copied and 0 not in self.awaits and "END" not in self.awaits.values()

    def start(self):
        was_begun, self.is_begun = self.is_begun, True
        return "idle" if was_begun else "started"

    def serve(self, number):
        return next(self.links[number].steps, "idle") if number < len(self.links) else "idle"

    def cut(self, number, *kept):
        if number >= len(self.links) or not self.links[number].has_task:
            return "idle"
        self.links[number].is_cut = True
        for way, count in zip((self.links[number].to_donor, self.links[number].to_task), kept):
            if count == 0:
                way.clear()
        return "cut"

    def advance(self, stops_ahead=True):
        while self.is_begun and not self.end:
            answers = {self.task(number) for number in self.tasks}
            answers |= {next(link.steps, "idle") for link in self.links}
            if stops_ahead and self.acknowledges():
                return f"ready {self.stage.number}"
            if answers == {"idle"}:
                return "stuck"
        return self.end or "idle"

    def rows(self):
        if not self.end.startswith("complete"):
            return "incomplete"
        rows = [f"{table} {key} {value}" for (table, key), value in sorted(self.due.items()) if value is not None]
        return "\n".join([*rows, f"rows {len(rows)}"])
