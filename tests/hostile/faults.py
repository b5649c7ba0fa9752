"""Reads of the donor's disk that fail in a clone: the connection is closed, and the clone goes on from what it has.

The donor's disk is asked for each page that a block of files has, in order, and for nothing else in these clones.
The files have 257 pages and 4.
"""

from scripts import *

READS = 261
# The first page of a block and the last, of a chunk, of a file, and of all; and a call that isn't made.
CALLS = [1, 2, 8, 9, 64, 65, 256, 257, 258, READS, READS + 1]


def failing_read(limit, call):
    """The plainest clone with this many losses that it is let off, and this read failing."""
    script = Script(f"limit {limit}")
    script.line("create 1 4", "created")
    script.line("set 0 1 7 6869", "committed 1")
    script.binlog = ["commit 0 0 1", "1 7 6869"]
    script.line(f"fail donor {call}", "noted")
    return script


def cases():
    for call in CALLS:
        script = failing_read(1, call)
        script.line("clone", "complete position 1")
        script.line("rows", "1 7 6869", "rows 1")
        yield f"read-{call}-fails", script
    for call in CALLS[:-1]:
        script = failing_read(0, call)
        script.line("clone", "restarts spent 1")
        script.line("rows", "incomplete")
        script.status = SPENT
        yield f"read-{call}-fails-without-a-further-loss", script
    script = failing_read(0, READS + 1)
    script.line("clone", "complete position 1")
    script.line("rows", "1 7 6869", "rows 1")
    yield "no-read-fails", script
