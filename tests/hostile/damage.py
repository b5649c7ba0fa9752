"""Whole clones whose disk is damaged when they end, in one place or in two, and what recovery names."""

from scripts import *


def damaged(space, at, why):
    return f"damaged {space} {at} {why}"


# Redo. Each piece is put behind mini-transactions so that its first wrong byte is the last of a page, and then
# so that it is the first of the next page.

TOO_HIGH = REDO_SPACE
LONG = write(1, 0, 38, bytes(900))

# The name, bytes that begin a mini-transaction, and the place of the first that none has.
WRONG_REDO = [
    ("record-0", bytes([0]) + bytes(20), 0),
    ("record-7", bytes([7]) + bytes(20), 0),
    ("record-255", bytes([255]) + bytes(20), 0),
    ("end-first", b"\6" + bytes(20), 0),
    ("end-behind-an-end", together(extend(1, 1)) + b"\6", 10),
    ("record-0-behind-another", drop(9) + b"\0" + bytes(20), 5),
    ("kind-0", together(init(1, 0, 0)), 10),
    ("kind-5", together(init(1, 0, 5)), 10),
    ("kind-256", together(init(1, 0, 256)), 9),
    ("write-of-the-checksum", together(write(1, 0, 0, b"\xde")), 10),
    ("write-of-the-number", together(write(1, 0, 7, b"\0\0")), 10),
    ("write-behind-the-neighbours", together(write(1, 0, 16, b"\0")), 10),
    ("write-of-the-kind", together(write(1, 0, 24, b"\0\3")), 10),
    ("write-before-the-body", together(write(1, 0, 37, b"\0")), 10),
    ("write-of-the-trailer", together(write(1, 0, 4088, b"\0")), 10),
    ("write-past-the-page", together(write(1, 0, 4096, b"\0")), 9),
    ("write-far-past-the-page", together(write(1, 0, 65_535, b"\0")), 9),
    ("write-of-nothing", together(write(1, 0, 38, b"")), 12),
    ("write-over-the-neighbours", together(write(1, 0, 8, bytes(9))), 12),
    ("write-over-the-second-neighbour", together(write(1, 0, 12, bytes(5))), 12),
    ("write-into-the-trailer", together(write(1, 0, 4087, bytes(2))), 12),
    ("write-far-into-the-trailer", together(write(1, 0, 4080, bytes(300))), 11),
    ("write-longer-than-a-mini-transaction", together(write(1, 0, 38, bytes(1011))), 12),
    ("write-of-1024-bytes", together(write(1, 0, 38, bytes(1024))), 11),
    ("two-writes-longer-than-a-mini-transaction", together(LONG, write(1, 0, 38, bytes(98))), len(LONG) + 12),
    ("no-room-for-a-record", together(LONG, write(1, 0, 38, bytes(93)), drop(9)), len(LONG) + 13 + 93),
    ("drop-of-the-redo", drop(TOO_HIGH) + b"\6", 0),
    ("drop-of-the-greatest-space", drop(2**32 - 1) + b"\6", 0),
    ("extension-of-the-redo", together(extend(TOO_HIGH, 9)), 0),
    ("create-of-the-redo", together(create(TOO_HIGH, 9)), 0),
    ("page-of-the-redo", together(init(TOO_HIGH, 0, 3)), 0),
    ("write-to-the-redo", together(write(TOO_HIGH, 0, 38, b"\0")), 0),
    ("space-behind-the-redo", together(drop(9), write(TOO_HIGH + 1, 0, 38, b"\0")), 5),
    ("page-of-the-redo-of-a-wrong-kind", together(init(TOO_HIGH, 0, 5)), 10),
    ("write-to-the-redo-of-nothing", together(write(TOO_HIGH, 0, 38, b"")), 12),
    ("drop-of-the-redo-and-record-0", drop(TOO_HIGH) + b"\0", 0),
]

# The name, and bytes behind which the redo ends too early.
SHORT_REDO = [
    ("behind-a-number", b"\2"),
    ("in-a-space", b"\5\0\0\0"),
    ("behind-a-record", drop(9)),
    ("in-a-kind", init(1, 0, 3)[:-1]),
    ("in-a-length", write(1, 0, 38, b"ab")[:12]),
    ("in-the-bytes-of-a-write", write(1, 0, 38, b"ab")[:-1]),
    ("behind-a-write", write(1, 0, 38, b"ab")),
    ("in-the-drop-of-the-redo", drop(TOO_HIGH)[:4]),
    ("in-a-write-to-the-redo", write(TOO_HIGH, 0, 38, b"ab")[:-1]),
]


def wrong_redo():
    for name, piece, at in WRONG_REDO:
        for place, first in [("at-the-end-of-a-page", PAGE_SIZE - 1), ("at-the-start-of-a-page", PAGE_SIZE)]:
            clone = Clone()
            clone.redo = filler(first - at) + piece + bytes(20)
            yield f"redo-{name}-{place}", recovered(clone, damaged(REDO_SPACE, first // PAGE_SIZE, "redo"))


def short_redo():
    for name, piece in SHORT_REDO:
        for place, missing in [("within-a-page", PAGE_SIZE - 1), ("with-a-page", PAGE_SIZE)]:
            clone = Clone()
            clone.redo = filler(missing - len(piece)) + piece
            answer = damaged(REDO_SPACE, missing // PAGE_SIZE, "redo")
            yield f"redo-ends-{name}-{place}", recovered(clone, answer)


def redo_first():
    """The redo is tested to its end before a page is read."""
    clone = Clone()
    clone.put(1, 1, bytes([1]) * PAGE_SIZE)
    clone.redo += filler(9000) + b"\0"
    yield "redo-before-a-header", recovered(clone, damaged(REDO_SPACE, len(clone.redo) // PAGE_SIZE, "redo"))


# Headers. The name, the place of a field, and what is put there.

WRONG_HEADERS = [
    ("checksum", 0, "00000000"),
    ("checksum-by-one-bit", 3, "ee"),
    ("number-of-the-next-page", 4, "00000004"),
    ("number-by-its-high-byte", 4, "01"),
    ("kind-0", 24, "0000"),
    ("kind-5", 24, "0005"),
    ("kind-259", 24, "0103"),
    ("space-2", 34, "00000002"),
    ("space-of-the-redo", 34, "ffffff00"),
    ("trailing-checksum", 4088, "00000000"),
    ("trailing-checksum-by-one-bit", 4091, "ee"),
    ("low-bytes-of-the-lsn", 4092, "00002001"),
    ("lsn", 20, "00002001"),
]

# What no test of a header looks at.
FREE_FIELDS = [
    ("previous-page", 8, "00000000"),
    ("high-bytes-of-the-lsn", 16, "0000007f"),
    ("flush-lsn", 26, "ffffffffffffffff"),
    ("bytes-before-the-slots", 38, "ffffffffffffffffffff"),
    ("bytes-behind-the-slots", 4048, "ff" * 40),
    ("zero-bytes-of-a-slot", 50, "ffffffffffff"),
    ("bytes-behind-a-value", 66, "ff" * 62),
]


def wrong_headers():
    good = Clone().images[1, 3]
    for name, at, piece in WRONG_HEADERS:
        clone = Clone()
        clone.put(1, 3, changed(good, at, bytes.fromhex(piece)))
        yield f"header-{name}", recovered(clone, damaged(1, 3, "header"))
    for name, at, piece in FREE_FIELDS:
        clone = Clone()
        clone.put(1, 3, changed(good, at, bytes.fromhex(piece)))
        yield f"free-{name}", recovered(clone)


def broken(space, at, kind=BUCKET, *parts):
    return changed(page(space, at, kind, *parts), 0, bytes(4))


def headers_by_page():
    """Which pages are read, whatever they are for."""
    for name, space, at in [("of-the-system-page", 0, 0), ("of-the-first-undo-page", 0, 1),
                            ("of-the-last-undo-header", 0, 253), ("of-a-page-in-the-redo", 1, 1),
                            ("of-an-empty-bucket", 1, 0)]:
        clone = Clone()
        if at or space:
            clone.put(space, at, broken(space, at))
        else:
            clone.system = changed(clone.system, 0, bytes(4))
        yield f"header-{name}", recovered(clone, damaged(space, at, "header"))
    for name, space, at in [("of-an-undo-page-without-records", 0, 2), ("of-the-last-undo-page", 0, 256),
                            ("of-a-page-in-no-chain", 1, 4), ("of-a-space-in-no-entry", 2, 0)]:
        clone = Clone()
        clone.put(space, at, broken(space, at))
        yield f"unread-header-{name}", recovered(clone)
    clone = Clone()


def unread_rows():
    """Rows are shown of each page of a table's space that has the kind for it, without a test."""
    clone = Clone()
    clone.put(1, 4, broken(1, 4, OVERFLOW, slot(49, PRESENT, 11, b"x")))
    clone.rows.append("1 11 78")
    yield "row-on-a-page-in-no-chain", recovered(clone)
    clone = Clone()
    clone.put(1, 4, broken(1, 4, SYSTEM, slot(49, PRESENT, 11, b"x")))
    clone.put(1, 5, broken(1, 5, UNDO, slot(49, PRESENT, 11, b"x")))
    clone.put(1, 6, broken(1, 6, 0, slot(49, PRESENT, 11, b"x")))
    clone.put(1, 7, broken(1, 7, 5, slot(49, PRESENT, 11, b"x")))
    yield "no-row-on-a-page-of-another-kind", recovered(clone)
    clone = Clone()
    clone.put(1, 3, page(1, 3, SYSTEM, slot(0, PRESENT, 7, b"hi")))
    clone.rows = clone.rows[:1]
    yield "no-row-on-a-bucket-of-another-kind", recovered(clone)


SLOTS = [
    ("state-0", slot(0, 0, 7, b"hi"), False),
    ("state-3", slot(0, 3, 7, b"hi"), False),
    ("state-255", slot(0, 255, 7, b"hi"), False),
    ("length-65", slot(0, PRESENT, 7, b"hi", 65), False),
    ("length-255", slot(0, PRESENT, 7, b"hi", 255), False),
    ("state-2-with-a-value", slot(0, ABSENT, 7, b"hi"), False),
    ("key-of-another-bucket", slot(0, PRESENT, 8, b"hi"), "1 8 6869"),
    ("length-64", slot(0, PRESENT, 7, b"hi", 64), "1 7 6869" + "00" * 62),
    ("length-0", slot(0, PRESENT, 7, b"hi", 0), "1 7 -"),
]


def slots():
    """A slot is damaged by nothing: it has a row or none."""
    for name, piece, row in SLOTS:
        clone = Clone()
        clone.put(1, 3, page(1, 3, BUCKET, piece))
        clone.rows = clone.rows[:1] + ([row] if row else [])
        yield f"slot-of-{name}", recovered(clone)


def order_of_headers():
    """The first page that recovery comes to is named: by the redo, then the system page, undo, and chains."""
    clone = Clone()
    clone.system = changed(clone.system, 0, bytes(4))
    clone.put(1, 1, broken(1, 1))
    yield "header-in-the-redo-before-the-system-page", recovered(clone, damaged(1, 1, "header"))
    clone = Clone()
    clone.redo += together(write(1, 2, 48, b"\0"), write(1, 0, 48, b"\0"))
    clone.put(1, 2, broken(1, 2))
    clone.put(1, 0, broken(1, 0))
    yield "header-by-the-order-of-the-redo", recovered(clone, damaged(1, 2, "header"))
    clone = Clone()
    clone.redo = together(write(1, 2, 48, b"\0"), init(1, 0, BUCKET)) + together(drop(1))
    clone.put(1, 2, broken(1, 2))
    yield "header-of-a-page-that-is-dropped-then", recovered(clone, damaged(1, 2, "header"))
    clone = Clone()
    clone.redo = together(create(1, 4)) + together(write(1, 2, 48, b"\0"))
    clone.put(1, 2, broken(1, 2))
    yield "no-header-of-a-page-that-was-made-anew", recovered(clone, "rows 0")
    clone = Clone()
    clone.put(0, 253, broken(0, 253))
    clone.put(1, 0, broken(1, 0))
    yield "header-of-undo-before-a-chain", recovered(clone, damaged(0, 253, "header"))
    clone = Clone()
    clone.system = changed(clone.system, 0, bytes(4))
    clone.put(0, 1, broken(0, 1))
    yield "header-of-the-system-page-before-undo", recovered(clone, damaged(0, 0, "header"))


def cases():
    for group in [wrong_redo, short_redo, redo_first, wrong_headers, headers_by_page, unread_rows, slots,
                  order_of_headers]:
        yield from group()
