"""A script with the answers that are due, and a clone that somebody else sends to the program's task."""

from formats import *

SPENT, GARBLED, REFUSED = 8, 10, 16
STAGES = ["DROP DATA", "FILE COPY", "PAGE COPY", "REDO COPY", "FILE SYNC", "RESTART", "RECOVERY"]


class Script:
    """Lines with their answers, and the binlog and the status that are due at the end."""

    def __init__(self, *head):
        self.lines, self.answers, self.binlog, self.status = list(head), [], [], 0

    def line(self, text, *answers):
        self.lines.append(text)
        self.answers += answers

    def feed(self, data, connection=0):
        for at in range(0, len(data), 64):
            self.line(f"feed {connection} {data[at:at + 64].hex()}", "noted")

    def take(self, data, answer, connection=0, task=0):
        self.feed(data, connection)
        self.line(f"task {task}", answer)

    def shown(self, whole, *stages):
        """The answer of `status`: what is said of the whole clone and of each of its stages."""
        named = zip(STAGES, stages)
        self.line("status", f"status {whole}", *(f"{name} {state}" for name, state in named))

    def completed(self, lsn, commits, *chunks):
        copies = [f"Completed {count}" for count in chunks]
        done = ["Completed"] * 3
        self.shown(f"Completed lsn {lsn} position {commits}", "Completed", *copies, *done)

    def begin(self):
        self.line("start", "started")
        self.line("task 0", "sent INIT")

    def ends(self, answer, status):
        """The step of the task that ends the clone, and what is known of it then."""
        self.line("task 0", answer)
        self.line("task 0", "idle")
        self.line("start", "idle")
        self.line("finish", answer)
        self.line("rows", "incomplete")
        self.status = status

    def garbled(self, data):
        """The frame, or the front, that came is none. Up to 16 bytes of it are told."""
        self.ends("garbled " + data[:16].hex(), GARBLED)

    def wrong_at(self, data, at):
        """The byte at this place is the first that no frame has there: up to it the task waits, and no longer."""
        self.feed(data[:at])
        self.line("task 0", "idle")
        self.feed(data[at:at + 1])
        self.garbled(data[:at + 1])

    def unexpected(self, data):
        """A whole frame that the task doesn't await: it waits up to the last byte."""
        self.feed(data[:-1])
        self.line("task 0", "idle")
        self.feed(data[-1:])
        self.garbled(data)


class Clone:
    """A clone as a donor would send it: no files; spaces of zero pages, which come with the second stage; pages
    of these; and redo. What stands here is a table with four buckets and the rows 5 and 7."""

    def __init__(self):
        self.spaces = {0: 257, 1: 4}
        self.entries = [entry(0, 1, 4, 4)]
        self.system = page(0, 0, SYSTEM, position(2))
        self.images = {(1, 3): page(1, 3, BUCKET, slot(0, PRESENT, 7, b"hi"))}
        self.redo = together(init(1, 1, BUCKET), write(1, 1, *slot(0, PRESENT, 5, b"\xbb")))
        self.rows = ["1 5 bb", "1 7 6869"]

    def put(self, space, at, image):
        self.images[space, at] = image

    def listed(self):
        """The pages that are sent, in order; the system page has the dictionary's entries."""
        images = dict(self.images)
        if self.system:
            system = self.system
            for place, piece in self.entries:
                system = changed(system, place, piece)
            images[0, 0] = system
        return [(space, at, image) for (space, at), image in sorted(images.items())]

    def lsn(self):
        return LOG_START + len(self.redo)


def chunks_of(count, size):
    return (count + size - 1) // size


def blocks(script, stage, chunk_size, block_size, items, make):
    """An EXECUTE, and each block of a stage with its answer, and the END."""
    if not items:
        return
    script.line("task 0", "sent EXECUTE")
    for at in range(0, len(items), block_size):
        chunk, block = at // chunk_size, at % chunk_size // block_size
        kind = "REDO" if stage == REDO else "PAGES"
        script.take(make(chunk, block, at, items[at:at + block_size]), f"took {kind} {chunk} {block}")
    script.take(end(stage), "took END")


def to_files(script, spaces=()):
    """Up to the copy of files, of these spaces."""
    script.begin()
    chunks = sum(chunks_of(count, 64) for _, count in spaces)
    script.take(stage(FILES, chunks, spaces=spaces), "took STAGE")


def to_pages(script, clone):
    """Up to the copy of pages."""
    to_files(script)
    script.line("task 0", "sent ACK")
    count = len(clone.listed())
    made = stage(PAGES, chunks_of(count, 64), position=count, spaces=sorted(clone.spaces.items()))
    script.take(made, "took STAGE")


def to_redo(script, clone, commits=2):
    """Up to the copy of redo."""
    to_pages(script, clone)
    blocks(script, PAGES, 64, 8, clone.listed(),
           lambda chunk, block, _, items: pages(PAGES, chunk, block, items))
    script.line("task 0", "sent ACK")
    chunks = chunks_of(len(clone.redo), 65536)
    script.take(stage(REDO, chunks, LOG_START, clone.lsn(), commits), "took STAGE")


def to_done(script, clone, commits=2):
    """Up to the last STAGE, which isn't sent."""
    to_redo(script, clone, commits)
    blocks(script, REDO, 65536, 16384, clone.redo,
           lambda chunk, block, at, piece: redo(chunk, block, LOG_START + at, piece))
    script.line("task 0", "sent ACK")


def recovered(clone, *answers, commits=2):
    """The whole clone, and what its recovery shows, twice: these answers, or the clone's rows."""
    script = Script()
    to_done(script, clone, commits)
    script.take(stage(DONE, 0, LOG_START, clone.lsn(), commits), "took STAGE")
    script.line("task 0", f"complete position {commits}")
    for _ in range(2):
        script.line("rows", *(answers or (*clone.rows, f"rows {len(clone.rows)}")))
    return script
