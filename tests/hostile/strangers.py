"""Somebody has a hand in a clone: he acts in its session, gives it up, or adds bytes to its connections."""

from scripts import *


def running(*head):
    """A clone of one table with one row, whose task has taken the first STAGE."""
    script = Script(*head)
    script.line("create 1 1", "created")
    script.line("set 0 1 1 aa", "committed 1")
    script.binlog = ["commit 0 0 1", "1 1 aa"]
    script.line("start", "started")
    script.line("task 0", "sent INIT")
    script.line("serve 0", "answered STAGE 1")
    return script


def raw(script, *frames, answer):
    script.line(f"raw {b''.join(frames).hex()}", f"end {answer}")


def joined(*frames):
    return attach(session=1), *frames


def is_refused(script, cause):
    """The next EXECUTE of the task is refused, and the clone ends with that."""
    script.line("task 0", "took STAGE")
    script.line("task 0", "sent EXECUTE")
    script.line("serve 0", f"refused {cause}")
    script.line("serve 0", "idle")
    script.ends(f"clone refused {cause}", REFUSED)


def completes(script):
    script.line("finish", "complete position 1")
    script.line("rows", "1 1 aa", "rows 1")


def in_the_session():
    for name, frames, answer, cause in [
        ("leaves", joined(leave()), "exit", "C6"),
        ("comes-back", [reinit(1, 0, b"", session=1)], "lost", "C7 2"),
        ("begins-again", [hello(session=1, incarnation=9)], "lost", "C7 9"),
    ]:
        script = running()
        raw(script, *frames, answer=answer)
        is_refused(script, cause)
        yield f"stranger-{name}", script
    script = running()
    script.line("abandon", "abandoned")
    is_refused(script, "C6")
    yield "session-abandoned", script
    script = running()
    script.line("abandon", "abandoned")
    raw(script, hello(session=8), answer="lost")
    is_refused(script, "C6")
    yield "session-abandoned-and-another-begun", script


def without_harm():
    """What strangers may do, and the clone comes to its end all the same."""
    for name, frames, answer in [
        ("attaches", joined(), "lost"),
        ("attaches-as-another-task", [attach(task=1, session=1)], "refused C5 1"),
        ("comes-back-too-late", [reinit(1, 0, b"", session=1, incarnation=1)], "refused C7 1"),
        ("begins-with-the-same-incarnation", [hello(session=1)], "refused C7 1"),
        ("begins-another-session", [hello(session=2)], "refused C1 1"),
        ("acknowledges-too-early", joined(ack(1)), "refused C9 6"),
        ("acknowledges-another-stage", joined(ack(2)), "refused C8 1 2"),
        ("asks-for-another-stage", joined(execute(3)), "refused C8 1 3"),
        ("speaks-the-other-version", [reinit_blocks(1, 6, b"\0", [], session=1)], "refused C2 2"),
        ("sends-no-command", joined(b"\x63"), "garbled 63"),
    ]:
        script = running()
        raw(script, *frames, answer=answer)
        completes(script)
        yield f"stranger-{name}", script
    script = running()
    script.line("advance", "ready 1")
    raw(script, *joined(ack(1)), answer="lost")
    completes(script)
    yield "stranger-acknowledges-first", script
    script = running()
    script.line("abandon", "abandoned")
    raw(script, hello(session=1), answer="lost")
    completes(script)
    yield "session-abandoned-and-begun-anew", script


def added_bytes():
    """Bytes that come between those of the donor."""
    first = stage(FILES, 6, spaces=((0, 257), (1, 1)))
    script = running()
    script.feed(b"\x63")
    script.line("task 0", "took STAGE")
    script.line("task 0", "sent EXECUTE")
    script.garbled(b"\x63")
    yield "byte-behind-a-frame", script
    script = running()
    script.feed(first)
    script.line("task 0", "took STAGE")
    script.line("task 0", "sent EXECUTE")
    script.garbled(first)
    yield "frame-given-twice", script
    script = Script()
    script.line("create 1 1", "created")
    script.begin()
    script.feed(b"\x13")
    script.line("serve 0", "answered STAGE 1")
    script.garbled(b"\x13" + first)
    yield "byte-before-a-frame", script
    script = running()
    script.feed(end(FILES))
    script.line("task 0", "took STAGE")
    script.line("task 0", "sent EXECUTE")
    script.line("task 0", "took END")
    script.line("task 0", "idle")
    script.line("serve 0", "execute")
    script.line("serve 0", "sent PAGES 0 0")
    script.line("task 0", "idle")
    yield "end-before-the-donor-s-blocks", script


def on_lost_connections():
    """A connection takes bytes as long as its task has it."""
    first = stage(FILES, 1, spaces=((1, 1),))
    script = Script()
    script.line("feed 0 00", "idle")
    script.begin()
    script.line("feed 1 00", "idle")
    script.line("feed 4294967295 00", "idle")
    script.line("cut 0 0 0", "cut")
    script.feed(first)
    script.line("task 0", "took STAGE")
    script.line("task 0", "sent EXECUTE")
    script.line("task 0", "lost 1")
    script.line("feed 0 00", "idle")
    script.line("cut 0 0 0", "idle")
    script.line("task 0", "sent REINIT")
    script.take(stage(FILES, 1, spaces=((1, 1),), incarnation=2), "took STAGE", connection=1)
    yield "bytes-behind-a-cut", script
    script = running()
    completes(script)
    script.line("feed 0 63", "noted")
    script.line("task 0", "idle")
    script.line("finish", "complete position 1")
    script.line("rows", "1 1 aa", "rows 1")
    script.line("cut 0 0 0", "cut")
    yield "bytes-behind-the-end", script


def cases():
    for group in [in_the_session, without_harm, added_bytes, on_lost_connections]:
        yield from group()
