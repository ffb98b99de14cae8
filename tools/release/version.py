#!/usr/bin/env python3
"""Writes the sum of the proved program into CHANGELOG.md, at its newest version, so that `make deb` and `make dist`
name their files by that alone.

  version.py [--top FOLDER] [PROGRAM]

PROGRAM is crates/credaudit/out/credaudit where nothing is said; its stamp (docs/STAMPS.md) has to say that it is
proved, of the tree in FOLDER, which is this repository if no other is named. Its last line tells the sum. Status 0: it
is written, or stood there; 1: it isn't, for the reason that is told.
"""
import argparse
import os
import sys

import tools_path
from credaudit_tools.provenance import programs, trees
from make import kit, stamps
from make.kit import Failed
from release import built, changes, dist


def written(top: str, path: str) -> int:
    """Writes the sum of a program into a tree's CHANGELOG.md; the status."""
    program, tree = built.look(path), trees.of(top)
    found = programs.look(path, tree)
    if found.kind != programs.THIS_TREE:
        raise Failed(f"{path}: {found}: make proves it")
    page = os.path.join(top, changes.NAME)
    with open(page, encoding="ascii") as file:
        text = file.read()
    named = changes.versions(text)[0].name
    if tree.version != named:
        raise Failed(f"the newest version of {changes.NAME} is {named}, and the commands are {tree.version}")
    stamps.replaced(page, changes.with_sum(text, program.architecture, program.sum))
    print(f"{named} for {program.architecture}: {program.sum}")
    return 0


def main() -> int:
    """The words of the script."""
    ask = argparse.ArgumentParser(description="Writes the sum of the proved program into CHANGELOG.md.")
    ask.add_argument("--top", default=tools_path.TOP, metavar="FOLDER", help="the repository, if it isn't this one")
    ask.add_argument("program", nargs="?", metavar="PROGRAM")
    asked = ask.parse_args()

    def job() -> int:
        try:
            return written(asked.top, asked.program or os.path.join(asked.top, dist.PLACE))
        except ValueError as error:
            raise Failed(str(error)) from error
    return kit.carried_out(job)


if __name__ == "__main__":
    sys.exit(main())
