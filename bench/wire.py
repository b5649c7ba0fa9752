#!/usr/bin/env python3
"""Times how 20,000 frames of eight pages are written and read, each beside a plain copy of as many bytes,
and how 20,000,000 chunks are claimed and finished, in a map of 10,000 again and again and in one of
1,000,000. Prints for each way of a frame the seconds, the megabytes a second, and how many times the copy's
time it takes; for chunks the nanoseconds a claim, and how many times those of the small map. A time is the
processor's, the least of nine runs that are taken in turn, less that of a run that makes the frame alone.
The program that is timed is built in a copy of the crates, since it is no part of what is proved."""

import os
import sys

import built

WAYS = ("start", "copy", "encode", "decode", "few", "many")
CLAIMS = 20_000_000

program = built.program("wire", "clone_page clone_wire clone_chunk")


def seconds(way):
    child = os.spawnv(os.P_NOWAIT, program, [program, way])
    _, status, used = os.wait4(child, 0)
    if status != 0:
        sys.exit(f"{way} ended with {status}")
    return used.ru_utime + used.ru_stime

rounds = [{way: seconds(way) for way in WAYS} for _ in range(9)]
least = {way: min(times[way] for times in rounds) for way in WAYS}
took = {way: least[way] - least["start"] for way in WAYS}
megabytes = 20_000 * (5 + 19 + 8 * 4_104) / 1e6
print(f"{'way':>8} {'seconds':>10} {'MB/second':>10} {'times the copy':>15}")
for way in ("copy", "encode", "decode"):
    print(f"{way:>8} {took[way]:>10.3f} {megabytes / took[way]:>10.0f} {took[way] / took['copy']:>15.2f}")
print(f"{'chunks':>9} {'nanoseconds a claim':>20} {'times the few':>15}")
for way, chunks in (("few", 10_000), ("many", 1_000_000)):
    print(f"{chunks:>9} {took[way] / CLAIMS * 1e9:>20.2f} {took[way] / took['few']:>15.2f}")
