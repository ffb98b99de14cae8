#!/usr/bin/env python3
"""Puts the stamps of what is installed in place, and tells what the program is: `make install` calls it.

  install_stamps.py [--top FOLDER] PROGRAM INSTALLED LIBRARY

PROGRAM was copied to INSTALLED. LIBRARY, the commands' folder, gets the stamp of this tree as credaudit.tree, and that
of PROGRAM, if it has one of its own, as credaudit.build (docs/STAMPS.md). One line tells what INSTALLED is:
"proved, of this tree", "proved, of another tree" or "not proved". FOLDER is the repository, if it isn't this one.
"""
import argparse
import os
import sys

import tools_path
from credaudit_tools.provenance import places, programs, trees
from make import kit, stamps


def put(top: str, program: str, installed: str, library: str) -> int:
    """Puts both stamps in place; the status."""
    tree, own = trees.of(top), os.path.join(library, os.path.basename(installed) + places.BUILD)
    stamps.replaced(os.path.join(library, places.TREE), tree.written())
    stamps.removed(own)
    found = programs.look(program, tree)
    if found.build is not None:
        stamps.replaced(own, found.build.written())
        found = programs.look(installed, tree, [own])
    print(f"installed: {installed}: {found}")
    return 0


def main() -> int:
    """The words of the script."""
    ask = argparse.ArgumentParser(description="Puts the stamps of what is installed in place.")
    ask.add_argument("--top", default=tools_path.TOP, metavar="FOLDER", help="the repository, if it isn't this one")
    for name in ("program", "installed", "library"):
        ask.add_argument(name, metavar=name.upper())
    asked = ask.parse_args()
    return kit.carried_out(lambda: put(asked.top, asked.program, asked.installed, asked.library))


if __name__ == "__main__":
    sys.exit(main())
