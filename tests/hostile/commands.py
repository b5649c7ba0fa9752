"""Commands that a stranger gives the donor, each with one field wrong or out of turn, and what it makes of them."""

from scripts import *

JOINED = hello()
LONG_BITMAP = b"\xff" * 22
# The longest payload of REINIT2: a bit for each of the most chunks, and the most partial ones.
MOST_PARTIAL = 21 + 2**20 + 5 * 1616


def is_garbled(data, before=b""):
    """A command that is none, behind what is one, and what the donor makes of it: up to 16 bytes are told."""
    return before + data, "garbled " + data[:16].hex()


# What a stranger sends, and what the donor makes of it.
BEFORE_A_SESSION = [
    (b"\0", "garbled 00"),
    (b"\x08" + bytes(range(40)), "garbled 08" + bytes(range(15)).hex()),
    is_garbled(stage(FILES)),
    (b"\x14", "garbled 14"),
    (b"\xff\xff", "garbled ffff"),
    (b"\1", "lost"),
    (hello()[:-1], "lost"),
    (execute(1), "garbled 040000000101"),
    (b"\4", "garbled 04"),
    (execute(1) + ack(1), "garbled 040000000101"),
    is_garbled(ack(1)),
    (leave(), "garbled 0600000000"),
    (changed(hello(), 4, b"\x13"), "garbled 0100000013" + hello()[5:16].hex()),
    (b"\1\0\0\0\x15", "garbled 0100000015"),
    (b"\1\0\0\1", "garbled 01000001"),
    is_garbled(hello(flag=2)),
    is_garbled(hello(flag=2)[:12]),
    (hello(flag=2)[:11], "lost"),
    (hello(version=0), "refused C2 0"),
    (hello(version=3), "refused C2 3"),
    (hello(version=65_535), "refused C2 65535"),
    (hello(size=0), "refused C3 0"),
    (hello(size=2**32 - 1), "refused C3 4294967295"),
    (hello(flag=1), "refused C4"),
    (hello(tasks=0), "refused C5 0"),
    (hello(tasks=17), "refused C5 17"),
    (hello(tasks=255), "refused C5 255"),
    (hello(version=9, size=9, flag=1, tasks=99), "refused C2 9"),
    (hello(size=9, flag=1, tasks=99), "refused C3 9"),
    (hello(flag=1, tasks=99), "refused C4"),
    (attach(), "refused C6"),
    (attach()[:-1], "lost"),
    (changed(attach(), 4, b"\x0e"), "garbled 020000000e" + attach()[5:16].hex()),
    (reinit(1, 0, b""), "refused C6"),
    is_garbled(reinit(0, 0, b"")),
    is_garbled(reinit(4, 0, b"")),
    (reinit(4, 0, b"")[:18], "garbled " + reinit(4, 0, b"")[:16].hex()),
    (reinit(4, 0, b"")[:17], "lost"),
    (reinit(1, 6, b"\x3f"), "refused C6"),
    is_garbled(reinit(1, 6, b"\x40")),
    is_garbled(reinit(1, 6, b"\x80")),
    (reinit(1, 8, b"\xff"), "refused C6"),
    (reinit(1, 9, b"\xff\1"), "refused C6"),
    is_garbled(reinit(1, 9, b"\xff\2")),
    is_garbled(reinit(1, 9, b"\xff")),
    is_garbled(reinit(1, 0, b"\0")),
    (reinit(1, 176, LONG_BITMAP), "refused C6"),
    is_garbled(reinit(1, 169, LONG_BITMAP)),
    is_garbled(reinit(1, 2**23, b"")),
    (b"\3" + number(17 + 2**20, 4) + reinit(1, 2**23, b"")[5:], "lost"),
    (b"\3" + number(18 + 2**20, 4), "garbled 0300100012"),
    (reinit_blocks(1, 6, b"\0", [(0, 1)]), "refused C6"),
    (reinit_blocks(1, 6, b"\0", [(0, 254)]), "refused C6"),
    is_garbled(reinit_blocks(1, 6, b"\0", [(0, 0)])),
    is_garbled(reinit_blocks(1, 6, b"\0", [(0, 255)])),
    is_garbled(reinit_blocks(1, 6, b"\1", [(0, 1)])),
    is_garbled(reinit_blocks(1, 6, b"\0", [(1, 1), (0, 1)])),
    is_garbled(reinit_blocks(1, 6, b"\0", [(1, 1), (1, 2)])),
    (reinit_blocks(1, 6, b"\0", [(9, 1), (2**32 - 1, 128)]), "refused C6"),
    is_garbled(reinit_blocks(1, 6, b"\0", [(0, 1)], length=0)),
    is_garbled(reinit_blocks(1, 6, b"\0", [(0, 1)], length=2)),
    is_garbled(reinit_blocks(0, 6, b"\0", [])),
    is_garbled(b"\7" + number(20, 4)),
    (b"\7" + number(21, 4), "lost"),
    (b"\7" + number(MOST_PARTIAL, 4), "lost"),
    is_garbled(b"\7" + number(MOST_PARTIAL + 1, 4)),
]

# The same of a stranger who has opened session 9.
IN_A_SESSION = [
    (JOINED, "refused C7 1"),
    (hello(incarnation=0), "refused C7 1"),
    (hello(session=8), "refused C1 9"),
    (attach(), "lost"),
    (attach(task=1), "refused C5 1"),
    (attach(task=255), "refused C5 255"),
    (attach(session=0), "refused C6"),
    (attach(session=2**64 - 1), "refused C6"),
    (attach(incarnation=0), "refused C7 1"),
    (attach(incarnation=2), "refused C7 1"),
    is_garbled(attach(), attach()),
    (attach() + b"\2", "garbled 02"),
    is_garbled(hello(), attach()),
    is_garbled(reinit(1, 0, b""), attach()),
    (attach() + b"\7\0", "garbled 0700"),
    (attach() + b"\x10", "garbled 10"),
    (attach() + execute(0), "garbled 040000000100"),
    (attach() + execute(4), "garbled 040000000104"),
    (attach() + changed(execute(1), 4, b"\2"), "garbled 040000000201"),
    is_garbled(ack(0), attach()),
    is_garbled(ack(4), attach()),
    (attach() + ack(1)[:-1], "lost"),
    (attach() + changed(leave(), 4, b"\1"), "garbled 0600000001"),
    (attach() + execute(2), "refused C8 1 2"),
    (attach() + execute(3), "refused C8 1 3"),
    (attach() + ack(1), "refused C9 6"),
    (attach() + ack(2), "refused C8 1 2"),
    (attach() + ack(3), "refused C8 1 3"),
    (reinit(2, 0, b""), "refused C8 1 2"),
    (reinit(3, 0, b""), "refused C8 1 3"),
    (reinit(1, 0, b"", incarnation=1), "refused C7 1"),
    (reinit(1, 0, b"", incarnation=0), "refused C7 1"),
    (reinit(1, 0, b"", session=8), "refused C6"),
    (reinit_blocks(1, 6, b"\0", []), "refused C2 2"),
    (reinit_blocks(1, 6, b"\0", [], incarnation=1), "refused C7 1"),
    (reinit(1, 6, b"\x3e", incarnation=2), "lost"),
    (attach(), "refused C7 2"),
    (attach(incarnation=2) + ack(1), "refused C9 1"),
    (reinit(1, 99, bytes(13), incarnation=7), "lost"),
    (attach(incarnation=7) + ack(1), "refused C9 6"),
    (reinit(1, 6, b"\x3f", incarnation=2**32 - 1), "lost"),
    (reinit(1, 0, b"", incarnation=2**32 - 1), "refused C7 4294967295"),
    (attach(incarnation=2**32 - 1) + ack(1), "lost"),
    (attach(incarnation=2**32 - 1) + ack(1), "lost"),
    (hello(incarnation=2**32 - 1), "refused C7 4294967295"),
    (attach(incarnation=2**32 - 1) + leave(), "exit"),
    (attach(incarnation=2**32 - 1), "refused C6"),
]


# The same of a stranger who has opened session 9 in version 2, beside a table with ten pages: chunk 4 has one
# block, chunk 5 two, and each of the others eight. An acknowledgement tells how many chunks aren't finished.
IN_VERSION_2 = [
    (attach() + ack(1), "refused C9 6"),
    (reinit_blocks(1, 6, b"\0", [], incarnation=1), "refused C7 1"),
    (reinit_blocks(2, 6, b"\0", []), "refused C8 1 2"),
    (reinit_blocks(1, 6, b"\0", [], session=8), "refused C6"),
    (reinit_blocks(1, 6, b"\7", [(4, 1)], incarnation=2) + ack(1), "refused C9 2"),
    (reinit_blocks(1, 6, b"\7", [(4, 2)], incarnation=3) + ack(1), "refused C9 3"),
    (reinit_blocks(1, 6, b"\7", [(4, 254)], incarnation=4) + ack(1), "refused C9 3"),
    (reinit_blocks(1, 6, b"\7", [(5, 1)], incarnation=5) + ack(1), "refused C9 3"),
    (reinit_blocks(1, 6, b"\7", [(5, 3)], incarnation=6) + ack(1), "refused C9 2"),
    (reinit_blocks(1, 6, b"\7", [(5, 253)], incarnation=7) + ack(1), "refused C9 3"),
    (reinit_blocks(1, 0, b"", [(4, 1), (5, 3)], incarnation=8) + ack(1), "refused C9 4"),
    (reinit_blocks(1, 0, b"", [(6, 1), (2**32 - 1, 3)], incarnation=9) + ack(1), "refused C9 6"),
    (reinit_blocks(1, 3, b"\7", [(3, 254)], incarnation=10) + ack(1), "refused C9 3"),
    (reinit(1, 6, b"\x0f", incarnation=11) + ack(1), "refused C9 2"),
    is_garbled(reinit(1, 9, b"", incarnation=12)),
    (hello(version=2, incarnation=13), "lost"),
    (hello(version=1, incarnation=14), "lost"),
    (reinit_blocks(1, 6, b"\0", [(4, 1)], incarnation=15) + ack(1), "refused C9 5"),
    (reinit_blocks(1, 6, b"\x0f", [(4, 1), (5, 3)], incarnation=16) + ack(1), "lost"),
    (hello(version=2, incarnation=17), "refused C8 2 1"),
    (reinit_blocks(3, 0, b"", [], incarnation=17), "refused C8 2 3"),
    (reinit_blocks(1, 6, b"\x3f", [], incarnation=17) + leave(), "exit"),
]


def stranger(script, table):
    for data, answer in table:
        script.line(f"raw {data.hex()}", f"end {answer}")


def cases():
    script = Script()
    script.line("create 1 1", "created")
    stranger(script, BEFORE_A_SESSION)
    script.line("clone", "complete position 0")
    yield "commands-before-a-session", script
    script = Script()
    script.line("create 1 1", "created")
    script.line(f"raw {JOINED.hex()}", "end lost")
    stranger(script, IN_A_SESSION)
    script.line("clone", "complete position 0")
    yield "commands-in-a-session", script
    script = Script()
    script.line("create 1 10", "created")
    script.line(f"raw {hello(version=2).hex()}", "end lost")
    stranger(script, IN_VERSION_2)
    script.line("clone", "complete position 0")
    yield "commands-in-version-2", script
