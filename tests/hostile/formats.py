"""Pages, redo and frames as docs/FORMATS.md gives them, field by field.

Nothing here knows the program: a page, a record and a frame are put together from the tables of that document.
"""

PAGE_SIZE = 4096
LOG_START = 8192
NO_PAGE = 0xFFFFFFFF
CONSTANT = 0xDEADBEEF
REDO_SPACE = 4_294_967_040
SYSTEM, UNDO, BUCKET, OVERFLOW = 1, 2, 3, 4
PRESENT, ABSENT = 1, 2
FILES, PAGES, REDO, DONE = 1, 2, 3, 4


def number(value, size):
    return value.to_bytes(size, "big")


def changed(data, at, piece):
    """The bytes with this piece of them put at a place."""
    return data[:at] + piece + data[at + len(piece):]


# Pages.


def page(space, at, kind, *parts, follows=NO_PAGE, lsn=LOG_START):
    """A page with its header, its trailer, and pairs of a place and the bytes that stand there."""
    made = number(CONSTANT, 4) + number(at, 4) + number(NO_PAGE, 4) + number(follows, 4)
    made += number(lsn, 8) + number(kind, 2) + number(0, 8) + number(space, 4)
    made = made.ljust(4088, b"\0") + number(CONSTANT, 4) + number(lsn % 2**32, 4)
    for place, piece in parts:
        made = changed(made, place, piece)
    return made


def position(commits):
    return 40, number(commits, 8)


def entry(index, space, buckets, pages):
    """An entry of the dictionary, with its place on the system page."""
    return 64 + 16 * index, number(space, 4) + number(buckets, 4) + number(pages, 4) + number(0, 4)


def slot_bytes(state, key, value=b"", length=None):
    length = len(value) if length is None else length
    return bytes([state, length]) + bytes(6) + number(key, 8) + value.ljust(64, b"\0")


def slot(index, state, key, value=b"", length=None):
    """A slot of a bucket page, with its place there."""
    return 48 + 80 * index, slot_bytes(state, key, value, length)


def undo_header(active, count, writer=0, index=0):
    return 40, bytes([active, 0]) + number(count, 2) + number(writer, 4) + number(index, 8)


def undo_record(index, table, row_page, row_slot, state, key, value=b"", length=None):
    """An undo record, with its place on the page that has the records from a multiple of 40 on."""
    length = len(value) if length is None else length
    made = number(table, 4) + number(row_page, 4) + number(row_slot, 2) + bytes([state, length]) + bytes(4)
    return 64 + 96 * (index % 40), made + number(key, 8) + value.ljust(64, b"\0") + bytes(8)


# Redo.


def init(space, at, kind):
    return b"\1" + number(space, 4) + number(at, 4) + number(kind, 2)


def write(space, at, place, piece, length=None):
    length = len(piece) if length is None else length
    return b"\2" + number(space, 4) + number(at, 4) + number(place, 2) + number(length, 2) + piece


def extend(space, pages):
    return b"\3" + number(space, 4) + number(pages, 4)


def create(space, pages):
    return b"\4" + number(space, 4) + number(pages, 4)


def drop(space):
    return b"\5" + number(space, 4)


def together(*records):
    """A mini-transaction of these records."""
    return b"".join(records) + b"\6"


def filler(size):
    """Mini-transactions of this size that name a space which no clone here has. One has 15 bytes at least."""
    made = b""
    while size:
        piece = size if size <= 1000 else min(1000, size - 15)
        made += together(write(999_999, 0, 38, bytes(piece - 14)))
        size -= piece
    return made


# Frames.


def frame(code, *fields):
    payload = b"".join(fields)
    return bytes([code]) + number(len(payload), 4) + payload


def caller(session, incarnation):
    return number(session, 8) + number(incarnation, 4)


def stage(stage, chunks=0, checkpoint=0, lsn=0, position=0, spaces=(), session=1, incarnation=1):
    listed = b"".join(number(space, 4) + number(pages, 4) for space, pages in spaces)
    numbers = number(checkpoint, 8) + number(lsn, 8) + number(position, 8)
    head = caller(session, incarnation) + bytes([stage]) + number(chunks, 4)
    return frame(16, head, numbers, number(len(spaces), 2), listed)


def block_head(stage, chunk, block, session, incarnation):
    return caller(session, incarnation) + bytes([stage]) + number(chunk, 4) + bytes([block])


def pages(stage, chunk, block, images, session=1, incarnation=1):
    """A block of pages; an image is a space, a number and the page's bytes."""
    listed = b"".join(number(space, 4) + number(at, 4) + image for space, at, image in images)
    return frame(17, block_head(stage, chunk, block, session, incarnation), bytes([len(images)]), listed)


def redo(chunk, block, start, piece, stage=REDO, session=1, incarnation=1):
    head = block_head(stage, chunk, block, session, incarnation)
    return frame(18, head, number(start, 8), number(len(piece), 4), piece)


def end(stage, session=1, incarnation=1):
    return frame(19, caller(session, incarnation), bytes([stage]))


def refused(cause, first=0, second=0):
    return frame(20, bytes([cause]), number(first, 8), number(second, 8))


def hello(version=1, size=4096, flag=0, tasks=1, session=9, incarnation=1):
    return frame(1, number(version, 2), number(size, 4), bytes([flag, tasks]), caller(session, incarnation))


def attach(task=0, session=9, incarnation=1):
    return frame(2, caller(session, incarnation), bytes([task]))


def reinit(stage, count, bitmap, session=9, incarnation=2):
    return frame(3, caller(session, incarnation), bytes([stage]), number(count, 4), bitmap)


def execute(stage):
    return frame(4, bytes([stage]))


def ack(stage, floor=0):
    return frame(5, bytes([stage]), number(floor, 8))


def leave():
    return frame(6)


def reinit_blocks(stage, count, bitmap, partial, session=9, incarnation=2, length=None):
    listed = b"".join(number(chunk, 4) + bytes([mask]) for chunk, mask in partial)
    length = len(partial) if length is None else length
    head = caller(session, incarnation) + bytes([stage])
    return frame(7, head, number(count, 4), bitmap, number(length, 4), listed)
