"""A donor's engine as docs/FORMATS.md tells it: tables with their chains, transactions, the length of the log, and
since when pages are dirty. It keeps no bytes: a value is a script's text, and a page its space and its number. Which
frame makes way isn't told here: `fail donor` is for scripts whose pool has room for all pages.
"""

from collections import Counter
from types import SimpleNamespace

SYSTEM = (0, 0)


class Refused(Exception):
    """A line is refused, with this cause."""


def refuse(**causes):
    """The first cause that stands is the answer, with the number that it is given as a text."""
    for cause, stands in causes.items():
        if stands:
            raise Refused(cause if stands is True else f"{cause} {stands}")


class Engine:
    def __init__(self, frames, ring):
        self.frames, self.ring, self.calls, self.failing = frames, ring, 0, set()
        self.tables, self.rows, self.binlog, self.commits, self.begun = {}, {}, [], 0, Counter()
        # of open transactions: the line of the binlog that each begins, its changes, and the rows that are locked
        self.open, self.changes, self.locks = {}, {}, {}
        # the log's end, the last checkpoint, from where on an archive needs the log, and who notes flushes that begin
        self.end, self.checkpointed, self.needed, self.note = 8213, 8192, lambda: self.end, lambda page: None
        # pages that are in use, in a frame, held by this call, or whose write is open
        self.used, self.resident, self.held, self.torn = {SYSTEM}, {SYSTEM}, set(), set()
        # since when a page is dirty; whether a flush has its first half, and the first change after it began
        self.dirty, self.flights = {SYSTEM: 8192}, {}

    def call_disk(self):
        self.calls += 1
        refuse(E17=self.calls in self.failing)

    def fetch(self, *pages, is_new=False):
        """Each page gets a frame, and is held by this call."""
        for page in pages:
            if page not in self.dirty and page not in self.held:
                refuse(E9=len(self.dirty.keys() | self.held) == self.frames and self.frames)
                if page not in self.resident and not is_new:
                    self.call_disk()
            self.resident.add(page)
            self.held.add(page)

    def write(self, size, *pages, ahead=lambda: None):
        """A mini-transaction of this size changes these pages. Each that is unused takes an INIT more."""
        size += 11 * len(set(pages) - self.used)
        free = self.ring - (self.end - min(self.checkpointed, self.needed()))
        refuse(E8=size > free and f"{size} {free}")
        ahead()
        for page in pages:
            self.dirty.setdefault(page, self.end)
            if page in self.flights and self.flights[page][1] is None:
                self.flights[page][1] = self.end
        self.used.update(pages)
        self.end += size

    def create(self, number, buckets):
        refuse(E3=number in self.tables, E11=len(self.tables) == 62)
        self.fetch(SYSTEM)
        self.write(39, SYSTEM, ahead=self.call_disk)
        # the pages of its space and of its file, the chains of its buckets, and on which page a key has its slot
        chains = [[bucket] for bucket in range(buckets)]
        self.tables[number] = SimpleNamespace(pages=buckets, file=buckets, chains=chains, place={})
        return "created"

    def drop(self, number, session):
        holders = [str(holder) for (table, _), holder in self.locks.items() if table == number]
        is_flushed = any(space == number for space, _ in self.flights)
        refuse(E2=number not in self.tables, E12=session and 1, E13=min(holders, key=int, default=0), E15=is_flushed)
        self.fetch(SYSTEM)
        self.write(35, SYSTEM)
        del self.tables[number]
        for places in (self.rows, self.dirty, self.used, self.resident, self.torn):
            for place in [place for place in places if place[0] == number]:
                places.pop(place) if isinstance(places, dict) else places.remove(place)
        self.call_disk()
        return "dropped"

    def begin(self, writer):
        number = min(set(range(65)) - self.open.keys())
        refuse(E10=number == 64)
        self.fetch((0, 1 + 4 * number))
        self.write(30, (0, 1 + 4 * number))
        self.open[number], self.changes[number] = f"commit {writer} {self.begun[writer]}", []
        self.begun[writer] += 1
        return f"trx {number}"

    def put(self, number, table, key, value, is_set=False):
        """A row gets a value, or none. The change of a `set` is the first of its transaction."""
        changes, row = self.changes.get(number, []), (table, key)
        refuse(E1=number not in self.open, E5=len(value or "") > 128, E2=table not in self.tables,
               E6=len(changes) == 160 and not is_set,
               E4=self.locks.get(row, number) != number and str(self.locks[row]))
        page = self.slot_page(*row)
        undo = (0, 1 + 4 * number), (0, 1 + 4 * number + len(changes) // 40)
        self.fetch(*undo)
        self.write(218, *undo, (table, page))
        self.tables[table].place[key], self.locks[row] = page, number
        changes.append((row, value))
        return "ok"

    def walk(self, number, key):
        """The pages of the chain are read one after the other, up to that of the key. The last one is held."""
        table = self.tables[number]
        for page in table.chains[key % len(table.chains)]:
            self.held.clear()
            self.fetch((number, page))
            if table.place.get(key) == page:
                break
        return table, table.chains[key % len(table.chains)]

    def slot_page(self, number, key):
        """The page that has the key's slot or gets it. A chain that is full gets a page more."""
        table, chain = self.walk(number, key)
        taken = Counter(table.place.values())
        page = table.place.get(key, next((page for page in chain if taken[page] < 50), None))
        if page is None:
            page = table.pages
            self.fetch(SYSTEM)
            self.fetch((number, page), is_new=True)
            self.write(44, SYSTEM, (number, chain[-1]), (number, page))
            chain.append(page)
            table.pages += 1
        return page

    def get(self, number, *row):
        refuse(E1=number not in self.open, E2=row[0] not in self.tables,
               E4=self.locks.get(row, number) != number and str(self.locks[row]))
        self.walk(*row)
        value = dict(self.changes[number]).get(row, self.rows.get(row))
        return "none" if value is None else f"value {value}"

    def undo(self, number):
        refuse(E1=number not in self.open)
        head, changes = (0, 1 + 4 * number), self.changes[number]
        self.fetch(head)
        if not changes:
            self.write(30, head)
            self.close(number)
            return "ended"
        (table, key), _ = changes[-1]
        row = table, self.tables[table].place[key]
        self.fetch((0, 1 + 4 * number + (len(changes) - 1) // 40), row)
        self.write(109, head, row)
        changes.pop()
        return f"undone {len(changes)}"

    def close(self, number):
        self.locks = {row: holder for row, holder in self.locks.items() if holder != number}
        return self.open.pop(number), self.changes.pop(number)

    def commit(self, number):
        refuse(E1=number not in self.open)
        self.fetch((0, 1 + 4 * number), SYSTEM)
        self.write(51, (0, 1 + 4 * number), SYSTEM)
        line, changes = self.close(number)
        self.rows.update(changes)
        self.binlog.append(f"{line} {len(changes)}")
        self.binlog += [f"{table} {key} {'none' if value is None else value}" for (table, key), value in changes]
        self.commits += 1
        return f"committed {self.commits}"

    def set(self, writer, *change):
        number = int(self.begin(writer).split()[1])
        self.put(number, *change, is_set=True)
        self.held.clear()
        return self.commit(number)

    def flush(self, *page):
        refuse(E14=page not in self.dirty, E15=page in self.flights)
        if page[0] and page[1] >= self.tables[page[0]].file:
            self.call_disk()
            self.tables[page[0]].file = page[1] + 1
        self.flights[page] = [False, None]
        self.note(page)
        return "begun"

    def write_half(self, is_second, *page):
        """A fault ends the flush, and the page's write is open until a later one lands."""
        refuse(E16=self.flights.get(page, [None])[0] != is_second)
        _, changed = self.flights.pop(page)
        self.torn.add(page)
        self.call_disk()
        if not is_second:
            self.flights[page] = [True, changed]
            return "half"
        self.torn.remove(page)
        del self.dirty[page]
        if changed is not None:
            self.dirty[page] = changed
        return "landed"

    def clean(self):
        waiting = sorted((since, page) for page, since in self.dirty.items() if page not in self.flights)
        for _, page in waiting:
            self.flush(*page)
            self.write_half(False, *page)
            self.write_half(True, *page)
        return f"cleaned {len(waiting)}"

    def checkpoint(self):
        self.checkpointed = min(self.dirty.values(), default=self.end)
        return f"checkpoint {self.checkpointed}"
