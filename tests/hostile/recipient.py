"""A recipient's tasks and their steps, and the world of a script's lines over both ends."""

from model import *


class Task:
    """The connection that a task has, what it awaits, and whether it was told that its stage has no free chunk."""

    def __init__(self):
        self.connection, self.awaits, self.told_end = None, None, False
        self.acknowledges = False


class Recipient:
    """What a clone's tasks have taken: of each chunk of the stage, a mask of its blocks."""

    def __init__(self, version, tasks, limit):
        self.version, self.limit, self.losses = version, limit, 0
        self.tasks = [Task() for _ in range(tasks)]
        self.stage, self.joined, self.ended = 0, False, None
        self.blocks, self.marks, self.copied = [], [], {}
        self.stop = self.floor = None

    def incarnation(self):
        return self.losses + 1

    def is_finished(self, chunk):
        return self.marks[chunk] == (1 << self.blocks[chunk]) - 1

    def finished(self):
        return {chunk for chunk in range(len(self.blocks)) if self.is_finished(chunk)}

    def is_copied(self):
        return len(self.finished()) == len(self.blocks)

    def enter(self, stage, blocks):
        self.stage, self.blocks, self.marks = stage, blocks, [0] * len(blocks)
        for task in self.tasks:
            task.told_end = False

    def lose(self):
        """All connections are closed, and the marks of chunks that aren't finished go, but in version 2. The loss
        that ends the clone closes none."""
        self.losses += 1
        if self.losses > self.limit:
            self.ended = f"restarts spent {self.losses}"
            return self.ended
        self.joined = False
        for task in self.tasks:
            if task.connection:
                task.connection.closed_by_task = True
            task.connection, task.awaits, task.told_end, task.acknowledges = None, None, False, False
        if self.version == 1:
            finished = self.finished()
            self.marks = [mark if chunk in finished else 0 for chunk, mark in enumerate(self.marks)]
        return f"lost {self.losses}"


class World:
    """Donor, connections and recipient. Each method named for a line answers it."""

    def __init__(self, version, tasks, limit):
        self.version, self.limit, self.count = version, limit, tasks
        self.engine = Engine()
        self.donor = Donor(self.engine)
        self.end = DonorEnd(self.donor)
        self.connections, self.recipient, self.recovered = [], None, False

    # Steps of a task.

    def task(self, number):
        recipient = self.recipient
        if not recipient or recipient.ended or number >= self.count:
            return "idle"
        if recipient.stage == DONE and number:
            return "idle"
        task = recipient.tasks[number]
        if not task.connection and recipient.stage != DONE:
            return self.connect(number, task)
        if task.awaits:
            return self.take(number, task)
        return self.act(number, task)

    def connect(self, number, task):
        recipient = self.recipient
        if number:
            if not recipient.joined:
                return "idle"
            name, frame, length = ATTACH, (ATTACH, recipient.incarnation(), number), 18
        elif not recipient.stage:
            name, frame, length = INIT, (INIT, self.version, self.count, recipient.incarnation()), 25
        else:
            name, frame, length = self.come_back()
        task.connection = Connection()
        self.connections.append(task.connection)
        return self.send(task, name, frame, length, "STAGE")

    def come_back(self):
        recipient = self.recipient
        finished = recipient.finished()
        bitmap = upward(len(recipient.blocks), 8)
        partial = {chunk: mask for chunk, mask in enumerate(recipient.marks) if mask and chunk not in finished}
        length = 22 + bitmap if self.version == 1 else 26 + bitmap + 5 * len(partial)
        frame = (REINIT, recipient.incarnation(), recipient.stage, finished, partial)
        return REINIT, frame, length

    def send(self, task, name, frame, length, awaits):
        if not task.connection.done:
            task.connection.put(task.connection.to_donor, frame, length)
        task.awaits = awaits
        return f"sent {name}"

    def take(self, number, task):
        connection = task.connection
        if connection.to_task and connection.to_task[0][0]:
            (name, *fields), _ = connection.to_task.pop(0)
            return self.taken(number, task, name, fields)
        if connection.cut or connection.done:
            return self.recipient.lose()
        return "idle"

    def taken(self, number, task, name, fields):
        recipient = self.recipient
        if name == "REFUSED":
            recipient.ended = f"clone refused {fields[0]}"
            return recipient.ended
        if name == "END":
            task.awaits, task.told_end = None, True
            return "took END"
        if name == "STAGE":
            return self.take_stage(number, task, *fields)
        chunk, block = fields
        recipient.marks[chunk] |= 1 << block
        return f"took {name} {chunk} {block}"

    def take_stage(self, number, task, stage, blocks, lsn, commits):
        recipient = self.recipient
        moves = task.acknowledges or not recipient.stage
        task.awaits = None
        if not number:
            recipient.joined = True
        if moves:
            if recipient.stage:
                recipient.copied[recipient.stage] = (len(recipient.blocks), len(recipient.blocks))
            recipient.enter(stage, blocks)
            if stage == REDO:
                recipient.stop = lsn, commits
        task.acknowledges = False
        return "took STAGE"

    def acknowledges(self):
        """Whether the next step of the first task would acknowledge the stage."""
        recipient = self.recipient
        first, *others = recipient.tasks
        if recipient.ended or recipient.stage in (0, DONE) or not first.connection or first.awaits:
            return False
        return recipient.is_copied() and not any(task.awaits == "END" for task in others)

    def act(self, number, task):
        recipient = self.recipient
        if recipient.stage == DONE:
            if task.connection:
                self.send(task, EXIT, (EXIT,), 5, None)
            recipient.ended = f"complete position {recipient.stop[1]}"
            return recipient.ended
        if not number and self.acknowledges():
            task.acknowledges = True
            return self.send(task, ACK, (ACK, recipient.stage), 14, "STAGE")
        if not task.told_end and not recipient.is_copied():
            return self.send(task, EXECUTE, (EXECUTE, recipient.stage), 6, "END")
        return "idle"

    # The lines.

    def start(self):
        if self.recipient:
            return "idle"
        self.recipient = Recipient(self.version, self.count, self.limit)
        return "started"

    def has(self, number):
        """Whether the connection is there and its task has it still."""
        return number < len(self.connections) and not self.connections[number].closed_by_task

    def serve(self, number):
        return self.end.step(self.connections[number] if number < len(self.connections) else None)

    def cut(self, number, kept_to_donor, kept_to_task):
        if not self.has(number):
            return "idle"
        self.connections[number].keep(kept_to_donor, kept_to_task)
        return "cut"

    def round(self):
        """Whether some step wasn't idle."""
        moved = False
        for number in range(self.count):
            moved |= self.task(number) != "idle"
        for connection in list(self.connections):
            if not connection.done:
                moved |= self.end.step(connection) != "idle"
        return moved

    def go_on(self, stops_ahead):
        recipient = self.recipient
        if not recipient:
            return "idle"
        while not recipient.ended:
            moved = self.round()
            if not recipient.ended and stops_ahead and self.acknowledges():
                return f"ready {recipient.stage}"
            if not moved:
                return "stuck"
        return recipient.ended

    def advance(self):
        return self.go_on(True)

    def finish(self):
        return self.go_on(False)

    def abandon(self):
        if not self.donor.session:
            return "refused C6"
        self.donor.session = None
        return "abandoned"

    def clean(self):
        cleaned = self.engine.clean()
        session = self.donor.session
        if session and session.stage == FILES:
            session.tracked.update(cleaned)
        return f"cleaned {len(cleaned)}"

    def rows(self):
        """The answer's lines."""
        ended = self.recipient.ended if self.recipient else None
        if not ended or not ended.startswith("complete"):
            return ["incomplete"]
        self.recovered = True
        rows = self.engine.rows(self.recipient.stop[1])
        return [*rows, f"rows {len(rows)}"]

    def status(self):
        """What is said of the whole clone, and of each of its stages."""
        recipient = self.recipient
        if not recipient:
            return ["Not Started"] * 8
        complete = bool(recipient.ended) and recipient.ended.startswith("complete")
        whole = "Failed" if recipient.ended else "In Progress"
        if complete:
            whole = "Completed lsn {} position {}".format(*recipient.stop)
        copies = [self.copy(stage) for stage in (FILES, PAGES, REDO)]
        synced = "Completed" if complete else "Not Started"
        shown = "Completed" if self.recovered else "Not Started"
        return [whole, "Completed", *copies, synced, shown, shown]

    def copy(self, stage):
        recipient = self.recipient
        if stage in recipient.copied:
            return "Completed {}/{}".format(*recipient.copied[stage])
        if stage == recipient.stage:
            return f"In Progress {len(recipient.finished())}/{len(recipient.blocks)}"
        return "Not Started"
