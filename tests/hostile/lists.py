"""Whole clones whose dictionary, undo records, chains or redo say something that no donor would."""

from scripts import *
from damage import broken, damaged

# Dictionaries. The name, the entries, and what recovery names, or the rows.

DICTIONARIES = [
    ("space-that-is-not-there", [(0, 1, 4, 4), (1, 2, 1, 1)], damaged(0, 0, "dictionary")),
    ("space-that-is-not-there-in-the-last-entry", [(0, 1, 4, 4), (61, 2, 1, 1)], damaged(0, 0, "dictionary")),
    ("space-that-is-not-there-without-buckets", [(0, 1, 4, 4), (1, 2, 0, 0)], damaged(0, 0, "dictionary")),
    ("greatest-table-that-is-not-there", [(0, 1, 4, 4), (1, 1_000_000, 1, 1)], damaged(0, 0, "dictionary")),
    ("entry-behind-the-last", [(0, 1, 4, 4), (62, 2, 1, 1)], None),
    ("table-without-buckets", [(0, 1, 0, 4)], None),
    ("fewer-buckets", [(0, 1, 2, 4)], None),
    ("fewer-pages-in-the-entry", [(0, 1, 4, 0)], None),
    ("more-pages-in-the-entry", [(0, 1, 4, 2**32 - 1)], None),
    ("one-bucket-too-many", [(0, 1, 5, 5)], damaged(1, 4, "chain")),
    ("greatest-number-of-buckets", [(0, 1, 2**32 - 1, 4)], damaged(1, 4, "chain")),
    ("one-space-in-two-entries", [(0, 1, 4, 4), (7, 1, 4, 4)], None),
    ("one-space-in-two-entries-of-other-buckets", [(0, 1, 1, 4), (7, 1, 4, 4)], None),
    ("one-space-with-too-many-buckets-once", [(0, 1, 4, 4), (7, 1, 6, 4)], damaged(1, 4, "chain")),
    ("empty-dictionary", [], "rows 0"),
]


def dictionaries():
    for name, entries, answer in DICTIONARIES:
        clone = Clone()
        clone.entries = [entry(*fields) for fields in entries]
        yield f"dictionary-{name}", recovered(clone, *([answer] if answer else []))
    clone = Clone()
    clone.entries.append(entry(1, 2, 1, 1))
    clone.put(1, 3, broken(1, 3))
    yield "dictionary-before-chains", recovered(clone, damaged(0, 0, "dictionary"))
    clone = Clone()
    clone.entries.append(entry(1, 2, 1, 1))
    clone.put(0, 1, page(0, 1, UNDO, undo_header(1, 161)))
    yield "dictionary-before-undo", recovered(clone, damaged(0, 0, "dictionary"))
    clone = Clone()
    clone.redo += together(drop(1))
    yield "dictionary-of-a-space-that-the-redo-drops", recovered(clone, damaged(0, 0, "dictionary"))


def system_spaces():
    """Where there is no system page there are no rows, and nothing is damaged."""
    clone = Clone()
    clone.system = None
    clone.put(1, 3, broken(1, 3))
    yield "system-page-of-zero-bytes", recovered(clone, "rows 0")
    clone = Clone()
    clone.spaces = {1: 4}
    clone.system = None
    yield "no-system-space", recovered(clone, "rows 0")
    clone = Clone()
    clone.redo += together(drop(0))
    yield "system-space-dropped", recovered(clone, "rows 0")
    for kind in (UNDO, BUCKET, OVERFLOW):
        clone = Clone()
        clone.system = page(0, 0, kind, position(2))
        yield f"system-page-of-kind-{kind}", recovered(clone)


# Undo. The plain clone has the row 7 with the value "hi" on slot 0 of page 3; each record here is of slot 0.

GOOD = (1, 3, 0, PRESENT, 7, b"\xcc")

# The name, and what an undo record says.
WRONG_RECORDS = [
    ("table-0", (0, 3, 0, PRESENT, 7, b"\xcc")),
    ("table-in-no-entry", (2, 0, 0, PRESENT, 7, b"\xcc")),
    ("table-above-the-greatest", (1_000_001, 3, 0, PRESENT, 7, b"\xcc")),
    ("table-of-the-redo", (REDO_SPACE, 0, 0, PRESENT, 7, b"\xcc")),
    ("page-behind-the-last", (1, 4, 0, PRESENT, 7, b"\xcc")),
    ("page-65536", (1, 65_536, 0, PRESENT, 7, b"\xcc")),
    ("page-4294967295", (1, 2**32 - 1, 0, PRESENT, 7, b"\xcc")),
    ("slot-50", (1, 3, 50, PRESENT, 7, b"\xcc")),
    ("slot-65535", (1, 3, 65_535, PRESENT, 7, b"\xcc")),
    ("state-0", (1, 3, 0, 0, 7, b"\xcc")),
    ("state-3", (1, 3, 0, 3, 7, b"\xcc")),
    ("state-255", (1, 3, 0, 255, 7, b"\xcc")),
    ("length-65", (1, 3, 0, PRESENT, 7, b"\xcc", 65)),
    ("length-255", (1, 3, 0, PRESENT, 7, b"\xcc", 255)),
    ("absent-with-a-length", (1, 3, 0, ABSENT, 7, b"\xcc")),
]

# The name, what an undo record says, and the rows then.
TAKEN_BACK = [
    ("value", GOOD, ["1 5 bb", "1 7 cc"]),
    ("empty-value", (1, 3, 0, PRESENT, 7, b""), ["1 5 bb", "1 7 -"]),
    ("longest-value", (1, 3, 0, PRESENT, 7, b"\xcc" * 64), ["1 5 bb", "1 7 " + "cc" * 64]),
    ("absent-row", (1, 3, 0, ABSENT, 7), ["1 5 bb"]),
    ("bytes-behind-the-value", (1, 3, 0, PRESENT, 7, b"\xcc\xdd", 1), ["1 5 bb", "1 7 cc"]),
    ("absent-row-with-a-value", (1, 3, 0, ABSENT, 7, b"\xcc", 0), ["1 5 bb"]),
    ("other-key", (1, 3, 0, PRESENT, 8, b"\xcc"), ["1 5 bb", "1 8 cc"]),
    ("other-slot", (1, 3, 49, PRESENT, 11, b"\xcc"), ["1 5 bb", "1 7 6869", "1 11 cc"]),
    ("unused-page", (1, 0, 0, PRESENT, 4, b"\xcc"), ["1 5 bb", "1 7 6869"]),
]


def with_records(clone, slot_number, records, active=1, count=None):
    """An undo slot in use, with these records on its pages."""
    count = len(records) if count is None else count
    for at in range(chunks_of(max(len(records), 1), 40)):
        number_of_page = 1 + 4 * slot_number + at
        parts = [undo_record(40 * at + i, *fields) for i, fields in enumerate(records[40 * at:40 * at + 40])]
        if at == 0:
            parts.append(undo_header(active, count))
        clone.put(0, number_of_page, page(0, number_of_page, UNDO, *parts))
    return clone


def undo_records():
    for name, fields in WRONG_RECORDS:
        clone = with_records(Clone(), 0, [fields])
        yield f"undo-{name}", recovered(clone, damaged(0, 1, "undo"))
        clone = with_records(Clone(), 63, [GOOD] * 40 + [fields])
        yield f"undo-{name}-on-another-page", recovered(clone, damaged(0, 254, "undo"))
        clone = with_records(Clone(), 0, [fields], active=0)
        yield f"undo-{name}-of-a-free-slot", recovered(clone)
    for name, fields, rows in TAKEN_BACK:
        clone = with_records(Clone(), 0, [fields])
        clone.rows = rows
        yield f"undo-of-{name}", recovered(clone)


def undo_headers():
    for name, active, count, answer in [
        ("161-records", 1, 161, damaged(0, 9, "undo")),
        ("65535-records", 1, 65_535, damaged(0, 9, "undo")),
        ("161-records-of-a-free-slot", 0, 161, None),
        ("161-records-of-a-slot-of-state-2", 2, 161, None),
        ("161-records-of-a-slot-of-state-255", 255, 161, None),
        ("one-record-that-is-not-written", 1, 1, damaged(0, 9, "undo")),
        ("no-record", 1, 0, None),
    ]:
        clone = with_records(Clone(), 2, [], active, count)
        yield f"undo-header-with-{name}", recovered(clone, *([answer] if answer else []))
    clone = with_records(Clone(), 2, [GOOD] * 40, count=41)
    yield "undo-record-on-an-unused-page", recovered(clone, damaged(0, 10, "undo"))
    clone = with_records(Clone(), 2, [GOOD] * 41)
    clone.put(0, 10, broken(0, 10, UNDO, undo_record(40, *GOOD)))
    yield "undo-record-on-a-page-with-a-wrong-header", recovered(clone, damaged(0, 10, "header"))
    clone = with_records(Clone(), 2, [GOOD] * 160)
    clone.rows = ["1 5 bb", "1 7 cc"]
    yield "undo-of-the-most-records", recovered(clone)


def undo_order():
    """Counts before records, slots in ascending order, and in each the last record first."""
    bad = WRONG_RECORDS[0][1]
    clone = with_records(with_records(Clone(), 0, [bad]), 63, [], count=161)
    yield "undo-counts-before-records", recovered(clone, damaged(0, 253, "undo"))
    clone = with_records(with_records(Clone(), 0, [bad]), 63, [])
    clone.put(0, 253, broken(0, 253))
    yield "undo-headers-before-records", recovered(clone, damaged(0, 253, "header"))
    clone = with_records(with_records(Clone(), 9, [bad]), 3, [bad])
    yield "undo-by-the-least-slot", recovered(clone, damaged(0, 13, "undo"))
    clone = with_records(Clone(), 0, [bad] + [GOOD] * 39 + [bad])
    yield "undo-by-the-last-record", recovered(clone, damaged(0, 2, "undo"))
    clone = with_records(Clone(), 0, [bad] + [GOOD] * 40)
    yield "undo-by-the-first-record", recovered(clone, damaged(0, 1, "undo"))
    clone = with_records(Clone(), 0, [bad, (1, 0, 0, PRESENT, 4, b"x")])
    clone.put(1, 0, broken(1, 0))
    yield "undo-by-the-header-of-a-row-s-page", recovered(clone, damaged(1, 0, "header"))
    clone = with_records(Clone(), 0, [(1, 0, 0, PRESENT, 4, b"x"), bad])
    clone.put(1, 0, broken(1, 0))
    yield "undo-record-before-the-header-of-a-row-s-page", recovered(clone, damaged(0, 1, "undo"))
    clone = with_records(Clone(), 0, [(1, 3, 0, PRESENT, 7, b"\1"), (1, 3, 0, PRESENT, 7, b"\2")])
    clone.rows = ["1 5 bb", "1 7 01"]
    yield "undo-of-a-row-changed-twice", recovered(clone)
    clone = with_records(Clone(), 0, [(1, 3, 0, PRESENT, 7, b"\1")])
    clone = with_records(clone, 1, [(1, 3, 0, PRESENT, 7, b"\2")])
    clone.rows = ["1 5 bb", "1 7 02"]
    yield "undo-of-a-row-of-two-slots", recovered(clone)
    clone = with_records(Clone(), 0, [bad])
    clone.put(1, 3, page(1, 3, BUCKET, follows=9))
    yield "undo-before-chains", recovered(clone, damaged(0, 1, "undo"))


# Chains. The name, pages of table 1 with what follows each, and the page that is damaged, or nothing.

CHAINS = [
    ("leaves-the-space-by-one", {(1, 3): 4}, (1, 3)),
    ("leaves-the-space-by-far", {(1, 3): 2**32 - 2}, (1, 3)),
    ("leaves-the-space-from-its-second-page", {(1, 3): 4, (1, 4): 5}, (1, 4)),
    ("comes-back-to-its-bucket", {(1, 3): 3}, (1, 3)),
    ("comes-back-to-its-bucket-from-the-second-page", {(1, 3): 4, (1, 4): 3}, (1, 4)),
    ("comes-back-to-its-second-page", {(1, 3): 4, (1, 4): 5, (1, 5): 4}, (1, 5)),
    ("comes-back-to-its-last-page", {(1, 3): 4, (1, 4): 5, (1, 5): 5}, (1, 5)),
    ("goes-on-to-page-0", {(1, 0): 0}, (1, 0)),
    ("goes-on-to-another-bucket", {(1, 3): 2, (1, 2): NO_PAGE}, None),
    ("goes-on-to-another-bucket-s-overflow", {(1, 3): 4, (1, 2): 4, (1, 4): NO_PAGE}, None),
    ("goes-on-to-an-unused-page", {(1, 3): 2}, None),
    ("of-two-buckets-that-go-round", {(1, 2): 3, (1, 3): 2}, (1, 3)),
    ("by-the-least-bucket", {(1, 3): 9, (1, 2): 9}, (1, 2)),
]


def chains():
    for name, links, answer in CHAINS:
        clone = Clone()
        for (space, at), following in links.items():
            row = [slot(0, PRESENT, 7, b"hi")] if at == 3 else []
            clone.put(space, at, page(space, at, BUCKET if at < 4 else OVERFLOW, *row, follows=following))
        yield f"chain-{name}", recovered(clone, *([damaged(*answer, "chain")] if answer else []))
    clone = Clone()
    clone.spaces[2] = 1
    clone.entries = [entry(0, 2, 1, 1), entry(1, 1, 4, 4)]
    clone.put(1, 3, page(1, 3, BUCKET, follows=9))
    clone.put(2, 0, page(2, 0, BUCKET, follows=0))
    yield "chain-by-the-least-table", recovered(clone, damaged(1, 3, "chain"))
    clone = Clone()
    clone.put(1, 0, page(1, 0, BUCKET, follows=4))
    clone.put(1, 4, broken(1, 4))
    clone.put(1, 3, page(1, 3, BUCKET, follows=9))
    yield "chain-with-a-wrong-header-before-another", recovered(clone, damaged(1, 4, "header"))
    clone = Clone()
    clone.put(1, 3, page(1, 3, UNDO, follows=4))
    clone.put(1, 4, page(1, 4, SYSTEM, follows=3))
    yield "chain-over-pages-of-other-kinds", recovered(clone, damaged(1, 4, "chain"))
    clone = Clone()
    clone.redo += together(write(1, 3, 12, number(9, 4)))
    yield "chain-that-the-redo-makes", recovered(clone, damaged(1, 3, "chain"))
    clone = with_records(Clone(), 0, [(1, 0, 0, PRESENT, 4, b"x")])
    clone.redo += together(write(1, 0, 12, number(9, 4)))
    yield "chain-of-an-unused-page-with-bytes", recovered(clone)


# Redo. The name, what stands behind the plain clone's redo, and the rows.

HI = ["1 5 bb", "1 7 6869"]

EFFECTS = [
    ("of-a-space-that-is-not-there", [write(7, 0, 38, b"x")], HI),
    ("of-a-page-that-is-not-there", [write(1, 4, 38, b"x"), init(1, 2**32 - 1, BUCKET)], HI),
    ("that-extends-a-space-that-is-not-there", [extend(7, 2)], HI),
    ("that-drops-a-space-that-is-not-there", [drop(7)], HI),
    ("that-extends-to-fewer-pages", [extend(1, 1)], HI),
    ("that-creates-anew", [create(1, 4)], ["rows 0"]),
    ("that-creates-and-fills", [create(1, 4), init(1, 3, BUCKET), write(1, 3, *slot(1, PRESENT, 3, b"y"))],
     ["1 3 79"]),
    ("that-drops-and-creates", [drop(1), create(1, 4)], ["rows 0"]),
    ("that-writes-an-unused-page", [write(1, 0, *slot(0, PRESENT, 4, b"y"))], HI),
    ("that-begins-a-page-anew", [init(1, 3, BUCKET)], HI[:1]),
    ("that-gives-a-page-another-kind", [init(1, 3, UNDO), write(1, 3, *slot(0, PRESENT, 7, b"y"))], HI[:1]),
    ("that-writes-the-neighbours", [write(1, 3, 8, b"\1\2\3\4\xff\xff\xff\xff")], HI),
    ("that-writes-and-creates", [write(1, 3, *slot(0, PRESENT, 7, b"y")), create(1, 4)], ["rows 0"]),
]


def effects():
    for name, records, rows in EFFECTS:
        clone = Clone()
        clone.redo += together(*records)
        clone.rows = rows
        yield f"redo-{name}", recovered(clone, *(rows if rows == ["rows 0"] else []))
    clone = Clone()
    clone.spaces[1] = 9
    clone.put(1, 8, page(1, 8, OVERFLOW, slot(0, PRESENT, 15, b"y")))
    clone.redo += together(create(1, 4))
    yield "redo-that-makes-a-space-shorter", recovered(clone, "rows 0")
    clone = Clone()
    clone.redo += together(create(1, 2))
    yield "redo-that-takes-a-bucket-away", recovered(clone, damaged(1, 2, "chain"))


def page_lsns():
    """A mini-transaction counts on a page whose LSN is below its end."""
    change = together(write(1, 3, *slot(0, PRESENT, 7, b"y")))
    for name, before, row in [("of-the-end", 0, "1 7 6869"), ("below-the-end", 1, "1 7 79"),
                              ("above-the-end", -1, "1 7 6869"), ("of-the-beginning", len(change), "1 7 79")]:
        clone = Clone()
        clone.redo += change
        clone.put(1, 3, page(1, 3, BUCKET, slot(0, PRESENT, 7, b"hi"), lsn=clone.lsn() - before))
        clone.rows = ["1 5 bb", row]
        yield f"lsn-{name}", recovered(clone)
    clone = Clone()
    clone.put(1, 3, page(1, 3, BUCKET, slot(0, PRESENT, 7, b"hi"), lsn=2**64 - 1))
    clone.redo += together(init(1, 3, BUCKET)) + change
    yield "lsn-of-the-greatest-number", recovered(clone)
    clone = Clone()
    clone.put(1, 3, page(1, 3, BUCKET, slot(0, PRESENT, 7, b"hi"), lsn=2**64 - 1))
    clone.redo += together(create(1, 4), init(1, 3, BUCKET), write(1, 3, *slot(0, PRESENT, 7, b"z")))
    clone.rows = ["1 7 7a"]
    yield "lsn-of-a-page-that-was-made-anew", recovered(clone)


def cases():
    for group in [dictionaries, system_spaces, undo_records, undo_headers, undo_order, chains, effects,
                  page_lsns]:
        yield from group()
