#!/usr/bin/env python3
"""Writes the hostile corpus: scripts in which a clone meets bytes that no honest end sends, and losses.

    make.py FOLDER

A script feeds the task the frames of a forged clone (`feed`), or gives the donor what a stranger sends (`raw`),
with one field, page, record or chain wrong; or it cuts connections. What the program has to answer is written
beside it, from docs/FORMATS.md: what was damaged is known here, so no second reader is needed. Of the scripts
that are drawn (walks.py) it is told by a model of both ends (model.py, recipient.py), which follows the rules of
that document. Each case is a folder in the form of tests/program.
"""

import os
import sys

import commands
import cuts
import damage
import faults
import frames
import lists
import stages
import strangers
import walks


def write_case(folder, name, script):
    path = os.path.join(folder, name)
    os.mkdir(path)
    files = {"source": script.lines, "stdout": script.answers, "stderr": script.binlog}
    files["status"] = [script.status]
    for file, lines in files.items():
        with open(os.path.join(path, file), "w", encoding="ascii") as into:
            into.writelines(f"{line}\n" for line in lines)


def main():
    if len(sys.argv) != 2:
        sys.exit("usage: make.py FOLDER")
    for subject in [frames, stages, damage, lists, commands, strangers, cuts, faults, walks]:
        for name, script in subject.cases():
            write_case(sys.argv[1], name, script)


main()
