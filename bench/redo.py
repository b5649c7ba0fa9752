#!/usr/bin/env python3
"""Times how 1,000,000 mini-transactions of 218 bytes are written and read: those of a put on a page
that is there, with its undo record, the count of undo records, and the row slot. Prints for each way
the seconds, and the megabytes of spelling a second. The program that is timed is built in a copy of
the crates, since it is no part of what is proved."""

import subprocess
import time

import built

program = built.program("redo", "clone_mtr")
print(f"{'way':>12} {'seconds':>10} {'MB/second':>10}")
for way in ("encode", "encode_into", "decode"):
    begun = time.monotonic()
    subprocess.run([program, way], check=True)
    seconds = time.monotonic() - begun
    print(f"{way:>12} {seconds:>10.3f} {218 / seconds:>10.0f}")
