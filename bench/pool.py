#!/usr/bin/env python3
"""Times the pool and the ring. Prints the nanoseconds of a hit, of a miss and of a plain copy of a page
over as many pages, with 16, 256 and 4,096 frames, all clean and all but one dirty; the nanoseconds of
a change of 80 bytes, with the making of its record; the megabytes a second through append and read of a
ring, and through as many plain copies; and the memory that a pool of 4,096 frames takes.
The program that is timed is built in a copy of the crates, since it is no part of what is proved."""

import os
import sys
import time

import built

program = built.program(
    "pool", "clone_outside clone_memdisk clone_page clone_mtr clone_ring clone_pool"
)


def run(*words):
    """The seconds that a run takes, and the most memory that it has, in KiB."""
    begun = time.monotonic()
    child = os.spawnv(os.P_NOWAIT, program, [program, *words])
    _, status, usage = os.wait4(child, 0)
    if status:
        sys.exit(f"{words} failed")
    return time.monotonic() - begun, usage.ru_maxrss

def seconds(*words):
    return min(run(*words)[0] for _ in range(5))

def beyond(without, *words):
    return max(seconds(*words) - without, 0)

print(f"{'frames':>7} {'pages':>7} {'hit ns':>8} {'miss ns':>8} {'copy ns':>8} {'miss / (copy + hit)':>20}")
for frames in ("16", "256", "4096"):
    copy = beyond(seconds("pages", frames), "copy", frames) / 400_000 * 1e9
    for pages in ("clean", "dirty"):
        made = seconds("made", frames, pages)
        hit = beyond(made, "hit", frames, pages) / 2_000_000 * 1e9
        miss = beyond(made, "miss", frames, pages) / 400_000 * 1e9
        print(f"{frames:>7} {pages:>7} {hit:>8.1f} {miss:>8.1f} {copy:>8.1f} {miss / (copy + hit):>20.2f}")
change = beyond(seconds("fetch"), "change") / 2_000_000 * 1e9
print(f"change of 80 bytes: {change:.1f} ns")
megabytes = 400_000 * 2 * 1024 / 1e6
for way, without in (("ring", "no_ring"), ("row", "no_row")):
    print(f"{way:>7} {megabytes / beyond(seconds(without), way):>8.0f} MB/second")
full, none = (min(run(*words)[1] for _ in range(5)) for words in (("made", "4096", "dirty"), ("read", "4096")))
beside = full - none - 16 * 1024
print(f"4,096 frames: {beside} KiB beside 16 MiB")
print(f"    measured as the most resident memory (ru_maxrss of wait4) of a run that fetches and changes a page in")
print(f"    each frame, {full} KiB, less that of a run that reads the same pages of the same disk into one,")
print(f"    {none} KiB: the least of five runs each")
if beside > 1024:
    sys.exit("more than 1 MiB beside the pages")
