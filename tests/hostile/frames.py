"""Frames with one field wrong: bytes that begin no frame, whole frames that nobody awaits, and refusals."""

from scripts import *

ONE_SPACE = ((1, 4),)
IMAGE = (1, 3, page(1, 3, BUCKET))
STAGE_1 = stage(FILES, 1, spaces=ONE_SPACE)
BLOCK = pages(FILES, 0, 0, [IMAGE])
LOG = redo(0, 0, LOG_START, b"\6" * 8)
END_1 = end(FILES)

# The name, a frame, the place of a field, the bytes that are put there, and the first byte that no frame has.
WRONG_BYTES = [
    ("code-0", STAGE_1, 0, "00", 0),
    ("code-of-init", STAGE_1, 0, "01", 0),
    ("code-of-a-reattachment", STAGE_1, 0, "07", 0),
    ("code-between-commands-and-answers", STAGE_1, 0, "0f", 0),
    ("code-behind-the-last", STAGE_1, 0, "15", 0),
    ("code-255", STAGE_1, 0, "ff", 0),
    ("stage-one-byte-short", STAGE_1, 1, "0000002a", 4),
    ("stage-with-half-a-space", STAGE_1, 1, "0000002f", 4),
    ("stage-with-64-spaces", STAGE_1, 1, "0000022b", 4),
    ("stage-of-768-bytes", STAGE_1, 1, "00000300", 3),
    ("stage-of-65536-bytes", STAGE_1, 1, "00010000", 2),
    ("stage-of-16777216-bytes", STAGE_1, 1, "01000000", 1),
    ("stage-of-stage-0", STAGE_1, 17, "00", 17),
    ("stage-of-stage-5", STAGE_1, 17, "05", 17),
    ("stage-of-stage-255", STAGE_1, 17, "ff", 17),
    ("spaces-in-the-stage-of-redo", STAGE_1, 17, "03", 17),
    ("spaces-in-the-last-stage", STAGE_1, 17, "04", 17),
    ("checkpoint-in-the-stage-of-files", STAGE_1, 22, "0000000000000001", 29),
    ("high-checkpoint-in-the-stage-of-files", STAGE_1, 22, "80", 22),
    ("lsn-in-the-stage-of-files", STAGE_1, 30, "0000000000000100", 36),
    ("position-in-the-stage-of-files", STAGE_1, 38, "0000000000000001", 45),
    ("checkpoint-in-the-stage-of-pages", stage(PAGES), 22, "0000000000002000", 28),
    ("lsn-in-the-stage-of-pages", stage(PAGES), 30, "0000000000000001", 37),
    ("chunks-in-the-last-stage", stage(DONE), 18, "00000001", 21),
    ("many-chunks-in-the-last-stage", stage(DONE), 18, "01000000", 18),
    ("fewer-spaces-than-the-length-has", STAGE_1, 46, "0000", 47),
    ("more-spaces-than-the-length-has", STAGE_1, 46, "0002", 47),
    ("64-spaces-in-the-count", stage(FILES, spaces=[(n, 1) for n in range(63)]), 46, "0040", 47),
    ("256-spaces-in-the-count", STAGE_1, 46, "0101", 46),
    ("pages-without-a-page", BLOCK, 1, "00000013", 3),
    ("pages-with-nine-pages", BLOCK, 1, "0000905b", 3),
    ("pages-one-byte-long", BLOCK, 1, "0000101c", 4),
    ("pages-one-byte-short", BLOCK, 1, "0000101a", 4),
    ("pages-of-stage-0", BLOCK, 17, "00", 17),
    ("pages-of-the-stage-of-redo", BLOCK, 17, "03", 17),
    ("pages-of-the-last-stage", BLOCK, 17, "04", 17),
    ("no-page-in-the-count", BLOCK, 23, "00", 23),
    ("two-pages-in-the-count", BLOCK, 23, "02", 23),
    ("redo-without-a-byte", LOG, 1, "0000001e", 4),
    ("redo-one-byte-too-long", LOG, 1, "0000401f", 4),
    ("redo-256-bytes-too-long", LOG, 1, "00004100", 3),
    ("redo-of-the-stage-of-files", LOG, 17, "01", 17),
    ("redo-of-the-stage-of-pages", LOG, 17, "02", 17),
    ("redo-of-the-last-stage", LOG, 17, "04", 17),
    ("fewer-bytes-in-the-count-of-redo", LOG, 31, "00000007", 34),
    ("more-bytes-in-the-count-of-redo", LOG, 31, "00000009", 34),
    ("far-more-bytes-in-the-count-of-redo", LOG, 31, "00000108", 33),
    ("end-one-byte-short", END_1, 1, "0000000c", 4),
    ("end-one-byte-long", END_1, 1, "0000000e", 4),
    ("end-of-stage-0", END_1, 17, "00", 17),
    ("end-of-the-last-stage", END_1, 17, "04", 17),
    ("refusal-one-byte-short", refused(6), 1, "00000010", 4),
    ("refusal-one-byte-long", refused(6), 1, "00000012", 4),
    ("refusal-number-0", refused(6), 5, "00", 5),
    ("refusal-number-13", refused(6), 5, "0d", 5),
    ("refusal-c4-with-a-value", refused(4, 1), 5, "04", 13),
    ("refusal-c6-with-a-value", refused(6, 2**63), 5, "06", 6),
    ("refusal-c6-with-a-second-value", refused(6, 0, 1), 5, "06", 21),
    ("refusal-c11-with-a-value", refused(11, 256), 5, "0b", 12),
    ("refusal-c1-with-a-second-value", refused(1, 9, 1), 5, "01", 21),
    ("refusal-c2-with-a-second-value", refused(2, 9, 1), 5, "02", 21),
    ("refusal-c3-with-a-second-value", refused(3, 9, 1), 5, "03", 21),
    ("refusal-c5-with-a-second-value", refused(5, 9, 1), 5, "05", 21),
    ("refusal-c7-with-a-second-value", refused(7, 9, 256), 5, "07", 20),
    ("refusal-c9-with-a-second-value", refused(9, 9, 2**56), 5, "09", 14),
]

FULL_STAGE = stage(FILES, 63 * 1024, spaces=[(n + 999_938, 65_536) for n in range(63)])

# Whole frames that a task which awaits the answer to INIT doesn't take.
UNAWAITED_AFTER_INIT = [
    ("session-0", stage(FILES, 1, spaces=ONE_SPACE, session=0)),
    ("session-2", stage(FILES, 1, spaces=ONE_SPACE, session=2)),
    ("session-of-the-high-bytes", stage(FILES, 1, spaces=ONE_SPACE, session=2**32 + 1)),
    ("incarnation-0", stage(FILES, 1, spaces=ONE_SPACE, incarnation=0)),
    ("incarnation-2", stage(FILES, 1, spaces=ONE_SPACE, incarnation=2)),
    ("stage-of-pages-first", stage(PAGES)),
    ("stage-of-redo-first", stage(REDO)),
    ("last-stage-first", stage(DONE)),
    ("spaces-descend", stage(FILES, 2, spaces=((2, 1), (1, 1)))),
    ("space-listed-twice", stage(FILES, 2, spaces=((1, 1), (1, 1)))),
    ("space-above-the-greatest", stage(FILES, 1, spaces=((1_000_001, 1),))),
    ("space-of-the-redo", stage(FILES, 1, spaces=((REDO_SPACE, 1),))),
    ("space-without-a-page", stage(FILES, 0, spaces=((1, 0),))),
    ("space-of-65537-pages", stage(FILES, 1025, spaces=((1, 65_537),))),
    ("one-chunk-too-few", stage(FILES, 5, spaces=((0, 257), (1, 1)))),
    ("one-chunk-too-many", stage(FILES, 7, spaces=((0, 257), (1, 1)))),
    ("chunk-of-65-pages", stage(FILES, 1, spaces=((1, 65),))),
    ("chunk-over-two-spaces", stage(FILES, 1, spaces=((1, 32), (2, 32)))),
    ("chunk-without-a-space", stage(FILES, 1)),
    ("pages-before-the-stage", BLOCK),
    ("redo-before-the-stage", LOG),
    ("end-before-the-stage", END_1),
]


def zero(space, at):
    return space, at, bytes(PAGE_SIZE)


FILE = pages(FILES, 0, 0, [zero(1, 0), zero(1, 1)])

# Whole frames that a task doesn't take which awaits a block of a file. Block 0 has eight pages, block 1 two.
UNAWAITED_IN_FILES = [
    ("file-of-session-2", pages(FILES, 0, 1, [zero(1, 8), zero(1, 9)], session=2)),
    ("file-of-incarnation-2", pages(FILES, 0, 1, [zero(1, 8), zero(1, 9)], incarnation=2)),
    ("file-of-chunk-1", pages(FILES, 1, 1, [zero(1, 8), zero(1, 9)])),
    ("file-of-chunk-4294967295", pages(FILES, 4_294_967_295, 1, [zero(1, 8), zero(1, 9)])),
    ("file-of-block-2", pages(FILES, 0, 2, [zero(1, 8), zero(1, 9)])),
    ("file-of-block-255", pages(FILES, 0, 255, [zero(1, 8), zero(1, 9)])),
    ("file-of-the-stage-of-pages", pages(PAGES, 0, 1, [zero(1, 8), zero(1, 9)])),
    ("file-with-one-page-too-few", pages(FILES, 0, 1, [zero(1, 8)])),
    ("file-with-one-page-too-many", pages(FILES, 0, 1, [zero(1, 8), zero(1, 9), zero(1, 10)])),
    ("file-from-the-wrong-page", pages(FILES, 0, 1, [zero(1, 7), zero(1, 8)])),
    ("file-with-its-pages-exchanged", pages(FILES, 0, 1, [zero(1, 9), zero(1, 8)])),
    ("file-with-a-page-twice", pages(FILES, 0, 1, [zero(1, 8), zero(1, 8)])),
    ("file-of-another-space", pages(FILES, 0, 1, [zero(2, 8), zero(2, 9)])),
    ("redo-in-the-copy-of-files", LOG),
    ("stage-in-the-copy-of-files", stage(PAGES)),
    ("end-of-the-copy-of-pages-in-that-of-files", end(PAGES)),
    ("end-of-session-2", end(FILES, session=2)),
    ("end-of-incarnation-2", end(FILES, incarnation=2)),
]

REFUSALS = [
    (refused(1, 9), "C1 9"),
    (refused(1, 2**64 - 1), "C1 18446744073709551615"),
    (refused(2, 65_536), "C2 65536"),
    (refused(3, 16_384), "C3 16384"),
    (refused(4), "C4"),
    (refused(5, 17), "C5 17"),
    (refused(6), "C6"),
    (refused(7, 2**40), "C7 1099511627776"),
    (refused(8, 1, 2), "C8 1 2"),
    (refused(8, 255, 2**64 - 1), "C8 255 18446744073709551615"),
    (refused(9, 6), "C9 6"),
    (refused(10, 5, 0), "C10 5 0"),
    (refused(11), "C11"),
    (refused(12, 8192, 24_576), "C12 8192 24576"),
]


def wrong_bytes():
    for name, data, at, piece, first in WRONG_BYTES:
        script = Script()
        script.begin()
        script.wrong_at(changed(data, at, bytes.fromhex(piece)), first)
        yield "frame-" + name, script


def kept_bytes():
    """What is told of bytes whose code or length is wrong ends nowhere, and that of others with the frame."""
    for name, data in [
        ("unknown-code-and-much-behind-it", b"\x09" + bytes(range(40))),
        ("unknown-code-and-fifteen-bytes-behind-it", b"\x09" + bytes(range(15))),
        ("unknown-code-and-fourteen-bytes-behind-it", b"\x09" + bytes(range(14))),
        ("command-for-a-task", execute(FILES) + bytes(range(40))),
        ("wrong-length-and-much-behind-it", changed(END_1, 4, b"\0") + bytes(range(40))),
        ("wrong-stage-and-another-frame-behind-it", changed(END_1, 17, b"\4") + END_1),
    ]:
        script = Script()
        script.begin()
        script.feed(data)
        script.garbled(data)
        yield "kept-" + name, script


def on_a_lost_connection():
    """What was received is looked at before a loss."""
    script = Script()
    script.begin()
    script.feed(changed(STAGE_1, 17, b"\0"))
    script.line("cut 0 0 17", "cut")
    script.line("task 0", "lost 1")
    yield "front-before-the-wrong-byte-is-lost", script
    script = Script()
    script.begin()
    script.feed(changed(STAGE_1, 17, b"\0"))
    script.line("cut 0 0 18", "cut")
    script.garbled(STAGE_1)
    yield "wrong-byte-before-a-loss", script


def every_front():
    """Each front of a frame waits, and the whole frame is taken."""
    script = Script()
    script.begin()
    for at in range(len(STAGE_1) - 1):
        script.take(STAGE_1[at:at + 1], "idle")
    script.take(STAGE_1[-1:], "took STAGE")
    yield "stage-byte-by-byte", script


def unawaited():
    for name, data in UNAWAITED_AFTER_INIT:
        script = Script()
        script.begin()
        script.unexpected(data)
        yield "unawaited-" + name, script
    for name, data in UNAWAITED_IN_FILES:
        script = Script()
        to_files(script, ((1, 10),))
        script.line("task 0", "sent EXECUTE")
        script.unexpected(data)
        yield "unawaited-" + name, script


def most_spaces():
    """The most spaces that a stage lists, each the greatest."""
    script = Script()
    script.begin()
    script.take(FULL_STAGE, "took STAGE")
    script.shown("In Progress", "Completed", "In Progress 0/64512", *["Not Started"] * 5)
    yield "most-spaces-of-the-greatest-size", script


def refusals():
    """A refusal ends a clone, whatever was awaited."""
    for data, text in REFUSALS:
        script = Script()
        script.begin()
        script.feed(data)
        script.ends("clone refused " + text, REFUSED)
        yield "refused-" + text.lower().replace(" ", "-"), script
    script = Script()
    to_files(script, ((1, 1),))
    script.line("task 0", "sent EXECUTE")
    script.feed(refused(8, 2, 1))
    script.ends("clone refused C8 2 1", REFUSED)
    yield "refused-in-the-copy-of-files", script


def cases():
    for group in [wrong_bytes, kept_bytes, on_a_lost_connection, every_front, unawaited, most_spaces, refusals]:
        yield from group()
