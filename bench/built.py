"""The program that a bench times. It is built in a copy of the crates, since it is no part of what is proved."""

import atexit
import os
import shutil
import subprocess
import sys
import tempfile
from pathlib import Path

TOP = Path(__file__).resolve().parent.parent
# what is built of these has to stand in a crate, so they have names of their own here
PROGRAMS = TOP / "bench" / "programs"


def rows_of(names):
    """The rows of crates.txt of the crates that are named, or all where none is."""
    rows = (TOP / "crates.txt").read_text().splitlines(keepends=True)
    return [row for row in rows if not names or row.split(":")[0].split(" ")[0] in names]


def own_crate(names=()):
    """The folder of a crate of the bench's own, in a copy that goes when the bench ends, of the crates that are named,
    or of all where none is."""
    copy = Path(tempfile.mkdtemp())
    atexit.register(shutil.rmtree, copy, ignore_errors=True)
    if names:
        for name in names:
            shutil.copytree(TOP / "crates" / name, copy / "crates" / name, symlinks=True)
    else:
        shutil.copytree(TOP / "crates", copy / "crates", symlinks=True)
    (copy / "crates.txt").write_text("".join(rows_of(names)))
    shutil.copy(TOP / "HANDLES", copy)
    crate = copy / "crates" / "clone_bench"
    (crate / "src").mkdir(parents=True)
    return crate


def build(crate, name, crates):
    """Builds the program of this name in that crate, over the crates that are named, and gives its path."""
    with open(crate.parent.parent / "crates.txt", "a") as listed:
        listed.write(f"clone_bench: {crates}\n")
    shutil.copy(PROGRAMS / f"{name}.rt.in", crate / "src" / "main.rt")
    # Without words the program does nothing, so that this run only builds it.
    ran = subprocess.run(["rt", "run"], cwd=crate, stdout=subprocess.PIPE, stderr=subprocess.STDOUT, text=True)
    program = crate / "out" / "clone_bench"
    if not os.access(program, os.X_OK):
        sys.exit(ran.stdout)
    return str(program)


def program(name, crates):
    """The path of the program of this name, which needs nothing but the crates that are named."""
    return build(own_crate(), name, crates)
