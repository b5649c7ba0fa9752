"""Frames of the later stages and of reattachments, each of which breaks one rule, or just keeps it."""

from scripts import *


def image(space, at):
    return space, at, page(space, at, BUCKET)


EIGHT = [image(1, at) for at in range(8)]
TWO = [image(2, 8), image(3, 0)]

# Whole frames that a task doesn't take which acknowledged the copy of files.
AFTER_FILES = [
    ("files-again", stage(FILES)),
    ("redo-next", stage(REDO)),
    ("done-next", stage(DONE)),
    ("a-chunk-without-a-page", stage(PAGES, 1)),
    ("a-chunk-too-few", stage(PAGES, 1, position=65)),
    ("a-chunk-too-many", stage(PAGES, 2, position=64)),
    ("one-page-more-than-all-spaces-have", stage(PAGES, 64_513, position=4_128_769)),
    ("more-pages-than-a-number-has", stage(PAGES, 1, position=2**32 + 1)),
    ("space-made-above-the-greatest", stage(PAGES, spaces=((1_000_001, 1),))),
    ("space-made-without-a-page", stage(PAGES, spaces=((1, 0),))),
    ("space-made-of-65537-pages", stage(PAGES, spaces=((1, 65_537),))),
    ("spaces-made-descend", stage(PAGES, spaces=((2, 1), (1, 1)))),
    ("space-made-twice", stage(PAGES, spaces=((1, 1), (1, 1)))),
    ("pages-of-session-2", stage(PAGES, session=2)),
    ("pages-of-incarnation-2", stage(PAGES, incarnation=2)),
    ("end-of-files", end(FILES)),
]

# Whole frames that a task doesn't take which awaits a block of ten pages: block 0 has eight, block 1 two.
IN_PAGES = [
    ("page-of-the-copy-of-files", pages(FILES, 0, 0, EIGHT)),
    ("page-of-session-2", pages(PAGES, 0, 0, EIGHT, session=2)),
    ("page-of-incarnation-0", pages(PAGES, 0, 0, EIGHT, incarnation=0)),
    ("page-of-chunk-1", pages(PAGES, 1, 0, EIGHT)),
    ("page-of-block-2", pages(PAGES, 0, 2, TWO)),
    ("one-page-too-few", pages(PAGES, 0, 1, TWO[:1])),
    ("one-page-too-many", pages(PAGES, 0, 1, TWO + [image(3, 1)])),
    ("pages-descend", pages(PAGES, 0, 1, [image(2, 8), image(2, 7)])),
    ("page-twice-in-a-block", pages(PAGES, 0, 1, [image(2, 8), image(2, 8)])),
    ("spaces-descend-in-a-block", pages(PAGES, 0, 1, [image(2, 8), image(1, 9)])),
    ("page-65536", pages(PAGES, 0, 1, [image(1, 65_535), image(1, 65_536)])),
    ("page-of-the-greatest-number", pages(PAGES, 0, 1, [image(1, 1), image(1, 2**32 - 1)])),
    ("page-of-space-1000001", pages(PAGES, 0, 1, [image(1_000_000, 1), image(1_000_001, 1)])),
    ("page-of-the-redo", pages(PAGES, 0, 1, [image(1, 1), image(REDO_SPACE, 0)])),
    ("redo-in-the-copy-of-pages", redo(0, 0, LOG_START, b"\6")),
    ("end-of-the-copy-of-files", end(FILES)),
    ("end-of-the-copy-of-redo", end(REDO)),
    ("stage-in-the-copy-of-pages", stage(REDO)),
]

LOG = filler(20_000)
LOG_END = LOG_START + len(LOG)

# Whole frames that a task doesn't take which acknowledged the copy of pages.
AFTER_PAGES = [
    ("pages-again", stage(PAGES)),
    ("done-without-redo", stage(DONE)),
    ("lsn-below-the-checkpoint", stage(REDO, 0, 8193, 8192)),
    ("lsn-of-the-greatest-log", stage(REDO, 1, 2**39 - 1, 2**39)),
    ("lsn-of-the-greatest-number", stage(REDO, 1, 2**64 - 2, 2**64 - 1)),
    ("a-chunk-without-redo", stage(REDO, 1, 8192, 8192)),
    ("no-chunk-for-redo", stage(REDO, 0, 8192, 8193)),
    ("a-chunk-of-65537-bytes", stage(REDO, 1, 8192, 8192 + 65_537)),
    ("two-chunks-of-65536-bytes", stage(REDO, 2, 8192, 8192 + 65_536)),
]

# Whole frames that a task doesn't take which awaits 20,000 bytes of redo: block 0 has 16,384, block 1 the rest.
IN_REDO = [
    ("redo-of-session-2", redo(0, 1, LOG_START + 16_384, LOG[16_384:], session=2)),
    ("redo-of-incarnation-2", redo(0, 1, LOG_START + 16_384, LOG[16_384:], incarnation=2)),
    ("redo-of-chunk-1", redo(1, 1, LOG_START + 16_384, LOG[16_384:])),
    ("redo-of-block-2", redo(0, 2, LOG_START + 32_768, LOG[:1])),
    ("redo-from-one-byte-before", redo(0, 1, LOG_START + 16_383, LOG[16_384:])),
    ("redo-from-one-byte-behind", redo(0, 1, LOG_START + 16_385, LOG[16_384:])),
    ("redo-from-0", redo(0, 0, 0, LOG[:16_384])),
    ("redo-one-byte-short", redo(0, 1, LOG_START + 16_384, LOG[16_384:-1])),
    ("redo-one-byte-long", redo(0, 1, LOG_START + 16_384, LOG[16_384:] + b"\6")),
    ("first-block-one-byte-short", redo(0, 0, LOG_START, LOG[:16_383])),
    ("pages-in-the-copy-of-redo", pages(PAGES, 0, 0, EIGHT)),
    ("end-of-the-copy-of-pages", end(PAGES)),
    ("stage-in-the-copy-of-redo", stage(DONE)),
]

# Whole frames that a task doesn't take which acknowledged the copy of redo.
AFTER_REDO = [
    ("redo-again", stage(REDO)),
    ("files-after-redo", stage(FILES)),
    ("done-of-session-2", stage(DONE, session=2)),
    ("done-of-incarnation-2", stage(DONE, incarnation=2)),
]


def ten_pages(script):
    """Up to the copy of ten pages, whose blocks are awaited."""
    to_files(script)
    script.line("task 0", "sent ACK")
    script.take(stage(PAGES, 1, position=10), "took STAGE")
    script.line("task 0", "sent EXECUTE")


def no_pages(script):
    """Up to the acknowledgement of the copy of no pages."""
    to_files(script)
    script.line("task 0", "sent ACK")
    script.take(stage(PAGES), "took STAGE")
    script.line("task 0", "sent ACK")


def long_redo(script):
    """Up to the copy of 20,000 bytes of redo, whose blocks are awaited."""
    no_pages(script)
    script.take(stage(REDO, 1, LOG_START, LOG_END, 3), "took STAGE")
    script.line("task 0", "sent EXECUTE")


def after_files(script):
    to_files(script)
    script.line("task 0", "sent ACK")


def after_redo(script):
    no_pages(script)
    script.take(stage(REDO, 0, LOG_START, LOG_START, 3), "took STAGE")
    script.line("task 0", "sent ACK")


def unawaited():
    for before, table in [(after_files, AFTER_FILES), (ten_pages, IN_PAGES), (no_pages, AFTER_PAGES),
                          (long_redo, IN_REDO), (after_redo, AFTER_REDO)]:
        for name, data in table:
            script = Script()
            before(script)
            script.unexpected(data)
            yield f"{before.__name__.replace('_', '-')}-{name}", script


def taken_twice():
    """A block is taken once in an incarnation."""
    script = Script()
    ten_pages(script)
    script.take(pages(PAGES, 0, 0, EIGHT), "took PAGES 0 0")
    script.unexpected(pages(PAGES, 0, 0, EIGHT))
    yield "page-block-twice", script
    script = Script()
    long_redo(script)
    script.take(redo(0, 1, LOG_START + 16_384, LOG[16_384:]), "took REDO 0 1")
    script.unexpected(redo(0, 1, LOG_START + 16_384, LOG[16_384:]))
    yield "redo-block-twice", script
    script = Script()
    to_files(script, ((1, 2),))
    script.line("task 0", "sent EXECUTE")
    block = pages(FILES, 0, 0, [(1, 0, bytes(PAGE_SIZE)), (1, 1, bytes(PAGE_SIZE))])
    script.take(block, "took PAGES 0 0")
    script.unexpected(block)
    yield "file-block-twice", script


def ends_early():
    """A task that took an END asks no more in this stage, though a block is missing."""
    script = Script()
    ten_pages(script)
    script.take(pages(PAGES, 0, 1, TWO), "took PAGES 0 1")
    script.take(end(PAGES), "took END")
    script.take(pages(PAGES, 0, 0, EIGHT), "idle")
    script.line("task 0", "idle")
    script.line("rows", "incomplete")
    yield "end-before-the-last-block", script
    script = Script()
    no_pages(script)
    script.take(stage(REDO, 2, LOG_START, LOG_START + 65_537), "took STAGE")
    script.line("task 0", "sent EXECUTE")
    script.take(end(REDO), "took END")
    script.line("task 0", "idle")
    yield "end-before-the-first-block", script


def finish_without_rows(script, count=0):
    """The acknowledgement of the copy of pages, no redo, and the clone's end, with no system space."""
    script.line("task 0", "sent ACK")
    script.take(stage(REDO, 0, LOG_START, LOG_START, count), "took STAGE")
    script.line("task 0", "sent ACK")
    script.take(stage(DONE), "took STAGE")
    script.line("task 0", f"complete position {count}")
    script.line("rows", "rows 0")


def any_order():
    """The blocks of a stage may come in any order."""
    script = Script()
    ten_pages(script)
    script.take(pages(PAGES, 0, 1, TWO), "took PAGES 0 1")
    script.take(pages(PAGES, 0, 0, EIGHT), "took PAGES 0 0")
    script.take(end(PAGES), "took END")
    finish_without_rows(script)
    yield "blocks-in-another-order", script
    clone = Clone()
    clone.redo = filler(16_384) + clone.redo
    script = Script()
    to_redo(script, clone)
    script.line("task 0", "sent EXECUTE")
    script.take(redo(0, 1, LOG_START + 16_384, clone.redo[16_384:]), "took REDO 0 1")
    script.take(redo(0, 0, LOG_START, clone.redo[:16_384]), "took REDO 0 0")
    script.take(end(REDO), "took END")
    script.line("task 0", "sent ACK")
    script.take(stage(DONE), "took STAGE")
    script.line("task 0", "complete position 2")
    script.line("rows", *clone.rows, "rows 2")
    yield "redo-in-another-order", script


def page_in_two_blocks():
    """The pages of a block ascend, and those of two blocks need not: what comes last is laid last."""
    clone = Clone()
    script = Script()
    to_files(script)
    script.line("task 0", "sent ACK")
    script.take(stage(PAGES, 1, position=10, spaces=((0, 257), (1, 4))), "took STAGE")
    script.line("task 0", "sent EXECUTE")
    old = page(1, 3, BUCKET, slot(0, PRESENT, 7, b"old"))
    first = clone.listed()[:1] + [(1, 3, old)] + [image(2, at) for at in range(6)]
    script.take(pages(PAGES, 0, 0, first), "took PAGES 0 0")
    script.take(pages(PAGES, 0, 1, clone.listed()[1:] + [image(2, 0)]), "took PAGES 0 1")
    script.take(end(PAGES), "took END")
    script.line("task 0", "sent ACK")
    script.take(stage(REDO, 0, LOG_START, LOG_START, 1), "took STAGE")
    script.line("task 0", "sent ACK")
    script.take(stage(DONE), "took STAGE")
    script.line("task 0", "complete position 1")
    script.line("rows", "1 7 6869", "rows 1")
    yield "page-in-two-blocks", script


def numbers_of_the_end():
    """A clone has the numbers with which the copy of redo began, whatever the last STAGE says."""
    script = Script()
    after_redo(script)
    script.take(stage(DONE, 0, 2**64 - 1, 0, 99), "took STAGE")
    script.line("task 0", "complete position 3")
    script.line("rows", "rows 0")
    script.completed(8192, 3, "0/0", "0/0", "0/0")
    yield "other-numbers-in-the-last-stage", script
    script = Script()
    no_pages(script)
    top = 2**39 - 1
    script.take(stage(REDO, 0, top, top, 2**64 - 1), "took STAGE")
    script.line("task 0", "sent ACK")
    script.take(stage(DONE), "took STAGE")
    script.line("task 0", f"complete position {2**64 - 1}")
    script.line("rows", "rows 0")
    yield "greatest-numbers", script


def most_redo():
    """The longest redo that there is, from 0."""
    script = Script()
    no_pages(script)
    script.take(stage(REDO, 2**23, 0, 2**39 - 1), "took STAGE")
    script.line("task 0", "sent EXECUTE")
    script.unexpected(redo(2**23 - 1, 3, 2**39 - 16_384, bytes(16_384)))
    yield "longest-redo-and-one-byte", script
    script = Script()
    no_pages(script)
    script.take(stage(REDO, 1, 2**39 - 2, 2**39 - 1), "took STAGE")
    script.line("task 0", "sent EXECUTE")
    script.take(redo(0, 0, 2**39 - 2, b"\6"), "took REDO 0 0")
    script.take(end(REDO), "took END")
    script.line("task 0", "sent ACK")
    script.take(stage(DONE), "took STAGE")
    script.line("task 0", "complete position 0")
    script.line("rows", f"damaged {REDO_SPACE} 0 redo")
    yield "last-byte-of-the-log", script


def loses(script):
    """A loss, which a task finds once it awaits an answer, and a REINIT on connection 1."""
    script.line("cut 0 0 0", "cut")
    script.line("task 0", "lost 1")
    script.line("task 0", "sent REINIT")


def reattached(script, answer, *more):
    """A loss, a REINIT, and a STAGE that answers it on connection 1; then what the task does next."""
    loses(script)
    script.take(answer, "took STAGE", connection=1)
    for line in more:
        script.line("task 0", line)


TWO_FILES = ((1, 2), (2, 1))


def two_files_awaited():
    """Up to the copy of two files, whose blocks are awaited."""
    script = Script()
    to_files(script, TWO_FILES)
    script.line("task 0", "sent EXECUTE")
    return script


def reattachments():
    """The STAGE that answers a reattachment is tested as any, and leaves the recipient's own."""
    others = stage(FILES, 1, spaces=((7, 1),), incarnation=2)
    script = two_files_awaited()
    reattached(script, others, "sent EXECUTE")
    file = pages(FILES, 1, 0, [(2, 0, bytes(PAGE_SIZE))], incarnation=2)
    script.take(file, "took PAGES 1 0", connection=1)
    yield "other-files-at-a-reattachment", script
    script = two_files_awaited()
    reattached(script, stage(PAGES, incarnation=2), "sent EXECUTE")
    yield "next-stage-at-a-reattachment", script
    for name, answer in [
        ("stage-behind-the-next", stage(REDO, incarnation=2)),
        ("old-incarnation", stage(FILES, 2, spaces=TWO_FILES, incarnation=1)),
        ("files-without-their-chunks", stage(FILES, 1, spaces=TWO_FILES, incarnation=2)),
        ("files-that-descend", stage(FILES, 2, spaces=((2, 1), (1, 1)), incarnation=2)),
        ("next-stage-without-its-chunks", stage(PAGES, 1, incarnation=2)),
    ]:
        script = two_files_awaited()
        loses(script)
        script.feed(answer[:-1], 1)
        script.line("task 0", "idle")
        script.feed(answer[-1:], 1)
        script.garbled(answer)
        yield "reattached-" + name, script


def earlier_stage():
    """A requester that lost the copy of pages isn't taken back to that of files."""
    script = Script()
    ten_pages(script)
    loses(script)
    script.feed(stage(FILES, incarnation=2), 1)
    script.garbled(stage(FILES, incarnation=2))
    yield "reattached-to-an-earlier-stage", script


def attached():
    """The STAGE that answers an ATTACH may be of any stage, and changes nothing."""
    for name, answer in [("files", stage(FILES)), ("pages", stage(PAGES, 1, position=1)),
                         ("redo", stage(REDO, 1, 0, 1, 9)), ("done", stage(DONE))]:
        script = Script("tasks 2")
        to_files(script, ((1, 1),))
        script.line("task 1", "sent ATTACH")
        script.take(answer, "took STAGE", connection=1, task=1)
        script.line("task 1", "sent EXECUTE")
        file = pages(FILES, 0, 0, [(1, 0, bytes(PAGE_SIZE))])
        script.take(file, "took PAGES 0 0", connection=1, task=1)
        script.line("task 0", "idle")
        script.take(end(FILES), "took END", connection=1, task=1)
        script.line("task 0", "sent ACK")
        yield f"attached-in-{name}", script


def unlisted_space():
    """A page of a space that isn't there makes it, as long as it has to be."""
    script = Script()
    to_files(script)
    script.line("task 0", "sent ACK")
    script.take(stage(PAGES, 1, position=1), "took STAGE")
    script.line("task 0", "sent EXECUTE")
    script.take(pages(PAGES, 0, 0, [image(1_000_000, 2000)]), "took PAGES 0 0")
    script.take(end(PAGES), "took END")
    finish_without_rows(script)
    yield "page-of-a-space-that-is-not-there", script


def cases():
    for group in [unawaited, taken_twice, ends_early, any_order, page_in_two_blocks, numbers_of_the_end,
                  most_redo, reattachments, earlier_stage, attached, unlisted_space]:
        yield from group()
