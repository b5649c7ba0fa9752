"""The two ends of a clone as docs/FORMATS.md tells their steps: rules, frames by their lengths, and no bytes.

Donor and recipient count pages, chunks and blocks; what stands on a page is no matter here. Every row is set by
a transaction of its own. It shares nothing with the program.
"""

from formats import DONE, FILES, LOG_START, PAGES, REDO

INIT, ATTACH, REINIT, EXECUTE, ACK, EXIT = "INIT", "ATTACH", "REINIT", "EXECUTE", "ACK", "EXIT"
FREE, CLAIMED, FINISHED = range(3)


def upward(count, size):
    return (count + size - 1) // size


class Refusal(Exception):
    """A call of the donor is refused, with this cause."""


class DiskFault(Exception):
    """The donor's disk failed."""


class Engine:
    """Tables, rows, the log's end, dirty pages with where they became so, and the disk's calls in a block."""

    def __init__(self):
        self.tables, self.commits, self.dirty = {}, [], {(0, 0): LOG_START}
        self.used, self.end, self.checkpointed = {(0, 0)}, 8213, LOG_START
        self.calls, self.failing = 0, []

    def write(self, size, *pages):
        """A mini-transaction of this size that changes these pages. Each that is new takes an INIT."""
        start = self.end
        self.end += size + 11 * len(set(pages) - self.used)
        for page in pages:
            self.dirty.setdefault(page, start)
        self.used.update(pages)

    def create(self, table, buckets):
        if table in self.tables:
            return "refused E3"
        self.tables[table] = buckets
        self.write(39, (0, 0))
        return "created"

    def set(self, writer, table, key, value):
        row_page = (table, key % self.tables[table])
        self.write(30, (0, 1))
        self.write(218, (0, 1), row_page)
        self.write(51, (0, 1), (0, 0))
        self.commits.append((writer, table, key, value))
        return f"committed {len(self.commits)}"

    def clean(self):
        cleaned, self.dirty = list(self.dirty), {}
        return cleaned

    def checkpoint(self):
        self.checkpointed = min(self.dirty.values(), default=self.end)
        return f"checkpoint {self.checkpointed}"

    def is_failing(self):
        return any(call > self.calls for call in self.failing)

    def fail(self, call):
        self.failing.append(self.calls + call)
        return "noted"

    def read(self, count):
        """So many pages are read, up to the first call that fails."""
        for _ in range(count):
            self.calls += 1
            if self.calls in self.failing:
                raise DiskFault

    def files(self):
        return [(0, 257), *sorted(self.tables.items())]

    def rows(self, count):
        rows = {(table, key): value for _, table, key, value in self.commits[:count]}
        return [f"{table} {key} {value}" for (table, key), value in sorted(rows.items())]

    def binlog(self):
        lines, begun = [], {}
        for writer, table, key, value in self.commits:
            lines += [f"commit {writer} {begun.get(writer, 0)} 1", f"{table} {key} {value}"]
            begun[writer] = begun.get(writer, 0) + 1
        return lines


def chunks_of_files(files):
    """How many pages each chunk has: at most 64 of one space."""
    return [min(64, pages - at) for _, pages in files for at in range(0, pages, 64)]


def chunks_of(count, size):
    return [min(size, count - at) for at in range(0, count, size)]


class Session:
    """What a donor keeps of a clone: its incarnation and stage, and of each chunk whose it is and what is kept."""

    def __init__(self, engine, version, tasks, incarnation):
        self.version, self.tasks, self.incarnation = version, tasks, incarnation
        self.known, self.tracked = set(engine.tables), set()
        self.archived = self.start = self.lsn = self.position = None
        self.spaces = engine.files()
        self.enter(FILES, chunks_of_files(self.spaces), 8)

    def enter(self, stage, chunks, block):
        self.stage, self.chunks = stage, chunks
        self.blocks = [upward(count, block) for count in chunks]
        self.reset(set(), {})

    def reset(self, finished, partial):
        self.kept = [partial.get(chunk, 0) & (1 << count) - 1 for chunk, count in enumerate(self.blocks)]
        self.states = []
        for chunk, count in enumerate(self.blocks):
            whole = chunk in finished or self.kept[chunk] == (1 << count) - 1
            self.states.append((FINISHED if whole else FREE, None))


class Donor:
    """The calls of a clone, each with its causes in their order."""

    def __init__(self, engine):
        self.engine, self.session = engine, None

    def test(self, caller, stage=None):
        """C6, C7 and C8 of a call on a bound connection."""
        if not self.session:
            raise Refusal("C6")
        if caller[0] < self.session.incarnation:
            raise Refusal(f"C7 {self.session.incarnation}")
        if stage is not None and stage != self.session.stage:
            raise Refusal(f"C8 {self.session.stage} {stage}")

    def init(self, version, tasks, incarnation):
        if not self.session:
            self.session = Session(self.engine, version, tasks, incarnation)
            return
        self.raise_incarnation(incarnation)
        if self.session.stage != FILES:
            raise Refusal(f"C8 {self.session.stage} 1")
        self.session.incarnation = incarnation
        self.session.reset(set(), {})

    def raise_incarnation(self, incarnation):
        if incarnation <= self.session.incarnation:
            raise Refusal(f"C7 {self.session.incarnation}")

    def attach(self, incarnation, task):
        if not self.session:
            raise Refusal("C6")
        if incarnation != self.session.incarnation:
            raise Refusal(f"C7 {self.session.incarnation}")
        if task >= self.session.tasks:
            raise Refusal(f"C5 {task}")

    def reinit(self, incarnation, stage, finished, partial):
        if not self.session:
            raise Refusal("C6")
        self.raise_incarnation(incarnation)
        if stage not in (self.session.stage, self.session.stage - 1) or stage not in (FILES, PAGES, REDO):
            raise Refusal(f"C8 {self.session.stage} {stage}")
        self.session.incarnation = incarnation
        same = stage == self.session.stage
        self.session.reset(finished if same else set(), partial if same else {})

    def claim(self, caller, stage):
        self.test(caller, stage)
        for chunk, (state, _) in enumerate(self.session.states):
            if state == FREE:
                self.session.states[chunk] = (CLAIMED, caller)
                return chunk
        return None

    def read(self, caller, stage, chunk, block):
        """A block of a chunk that the caller has claimed. Answers whether it is the last that isn't kept."""
        self.test(caller, stage)
        session = self.session
        if session.states[chunk] != (CLAIMED, caller):
            raise Refusal("C11")
        if stage == FILES:
            self.engine.read(min(8, session.chunks[chunk] - 8 * block))
        elif stage == REDO:
            ends = session.start + 65536 * chunk + min(16384 * (block + 1), session.chunks[chunk])
            session.archived = max(session.archived, ends)
        last = self.next_block(chunk, block + 1) is None
        if last:
            session.states[chunk] = (FINISHED, None)
        return last

    def next_block(self, chunk, block):
        """The first block from this one on that isn't kept."""
        left = range(block, self.session.blocks[chunk])
        return next((at for at in left if not self.session.kept[chunk] >> at & 1), None)

    def acknowledge(self, caller, stage):
        self.test(caller)
        session = self.session
        if stage not in (session.stage, session.stage - 1):
            raise Refusal(f"C8 {session.stage} {stage}")
        if stage < session.stage:
            return
        left = sum(state != FINISHED for state, _ in session.states)
        if left:
            raise Refusal(f"C9 {left}")
        self.advance()

    def advance(self):
        session, engine = self.session, self.engine
        if session.stage == FILES:
            session.start = session.archived = engine.checkpointed
            session.spaces = sorted((t, b) for t, b in engine.tables.items() if t not in session.known)
            session.listed = len(session.tracked)
            session.enter(PAGES, chunks_of(session.listed, 64), 8)
        elif session.stage == PAGES:
            session.lsn, session.position = engine.end, len(engine.commits)
            session.spaces = []
            session.enter(REDO, chunks_of(session.lsn - session.start, 65536), 16384)
        else:
            session.enter(DONE, [], 1)

    def archive(self, limit):
        session = self.session
        if not session or session.archived is None:
            return "idle"
        until = self.engine.end if session.lsn is None else session.lsn
        session.archived += min(limit, until - session.archived)
        return f"archived {session.archived}"


class Connection:
    """Frames with their lengths, each way; a front of a frame has the name None."""

    def __init__(self):
        self.to_donor, self.to_task = [], []
        self.cut = self.closed_by_task = self.done = False
        self.caller = self.serving = None

    def keep(self, kept_to_donor, kept_to_task):
        self.cut = True
        self.to_donor = front(self.to_donor, kept_to_donor)
        self.to_task = front(self.to_task, kept_to_task)

    def put(self, queue, frame, length):
        """What an end sends on a connection that was cut reaches nobody."""
        if not self.cut:
            queue.append((frame, length))


def front(frames, length):
    kept = []
    for frame, size in frames:
        if length <= 0:
            break
        kept.append((frame, size) if size <= length else (None, length))
        length -= size
    return kept


class DonorEnd:
    """The donor's steps on connections."""

    def __init__(self, donor):
        self.donor = donor

    def step(self, connection):
        if connection is None or connection.done:
            return "idle"
        if connection.serving:
            return self.serve(connection)
        if connection.to_donor and connection.to_donor[0][0]:
            return self.carry_out(connection)
        if connection.cut or connection.closed_by_task:
            connection.done = True
            return "lost"
        return "idle"

    def refuse(self, connection, refusal):
        connection.put(connection.to_task, ("REFUSED", str(refusal)), 22)
        connection.done, connection.serving = True, None
        return f"refused {refusal}"

    def serve(self, connection):
        stage, chunk, block = connection.serving
        try:
            if chunk is None:
                chunk = self.donor.claim(connection.caller, stage)
                block = None if chunk is None else self.donor.next_block(chunk, 0)
            if chunk is None:
                answer, frame, length, connection.serving = "sent END", ("END",), 18, None
            else:
                answer, frame, length = self.block(connection, stage, chunk, block)
        except Refusal as refusal:
            return self.refuse(connection, refusal)
        except DiskFault:
            connection.done, connection.serving = True, None
            return "refused E17"
        if connection.cut:
            connection.done = True
            return "lost"
        connection.put(connection.to_task, frame, length)
        return answer

    def block(self, connection, stage, chunk, block):
        last = self.donor.read(connection.caller, stage, chunk, block)
        following = None if last else self.donor.next_block(chunk, block + 1)
        connection.serving = (stage, None if last else chunk, following)
        count = self.donor.session.chunks[chunk]
        if stage == REDO:
            name, length = "REDO", 35 + min(16384, count - 16384 * block)
        else:
            name, length = "PAGES", 24 + 4104 * min(8, count - 8 * block)
        return f"sent {name} {chunk} {block}", (name, chunk, block), length

    def carry_out(self, connection):
        (name, *fields), _ = connection.to_donor.pop(0)
        try:
            return getattr(self, name.lower())(connection, *fields)
        except Refusal as refusal:
            return self.refuse(connection, refusal)

    def init(self, connection, version, tasks, incarnation):
        self.donor.init(version, tasks, incarnation)
        return self.bound(connection, incarnation, 0)

    def attach(self, connection, incarnation, task):
        self.donor.attach(incarnation, task)
        return self.bound(connection, incarnation, task)

    def reinit(self, connection, incarnation, stage, finished, partial):
        self.donor.reinit(incarnation, stage, finished, partial)
        return self.bound(connection, incarnation, 0)

    def bound(self, connection, incarnation, task):
        connection.caller = (incarnation, task)
        return self.tell_stage(connection)

    def tell_stage(self, connection):
        session = self.donor.session
        spaces = session.spaces if session.stage in (FILES, PAGES) else []
        told = ("STAGE", session.stage, list(session.blocks), session.lsn, session.position)
        connection.put(connection.to_task, told, 48 + 8 * len(spaces))
        stop = f" lsn {session.lsn} position {session.position}" if session.stage in (REDO, DONE) else ""
        return f"answered STAGE {session.stage}{stop}"

    def execute(self, connection, stage):
        self.donor.test(connection.caller, stage)
        connection.serving = (stage, None, None)
        return "execute"

    def ack(self, connection, stage):
        self.donor.acknowledge(connection.caller, stage)
        return self.tell_stage(connection)

    def exit(self, connection):
        self.donor.test(connection.caller)
        self.donor.session = None
        connection.done = True
        return "exit"
