#!/usr/bin/env python3
"""Writes docs/DEFINITIONS.md: each definition on which the clauses of the top call rest (tools/gate/rests_on.py), in
the order in which to read them: crate by crate from below, and within a crate each file after those that it takes
names from. A test holds the page against what this makes.

  definitions_page.py [--check]

With --check nothing is written; the status is 1 where the page is another.
"""
import argparse
import os
import re
import sys

import tools_path
from credaudit_tools.provenance import sources
from gate import rests_on
from gate.rests_on import Row
from pages.items import item

PAGE = os.path.join(tools_path.TOP, "docs", "DEFINITIONS.md")
FRONT = """# Definitions

For whoever reads before trusting: each definition that can be reached from the clauses of `run`
(crates/cm_cli/src/commands.rt), with its first sentence, in the order in which to read: crate by crate from below, in a
crate each file after those that it takes names from. That these mean what they should is what has to be believed
(ASSUMPTIONS.md). `tools/pages/definitions_page.py` writes this page, `tools/gate/rests_on.py` prints the lines of each.
"""
KIT = """
## The kit's libraries

Their statements are the kit's. By module, the words of theirs that are used:

"""
OWN_USE = r"use Rattle\.{crate}\.specs\.(\w+)"


def crate_of(path: str) -> str:
    """The crate of a file."""
    return path.split("/")[1]


def depth(path: str, seen: frozenset[str] = frozenset()) -> int:
    """How many files of the crate stand below a file, one on the other."""
    crate = crate_of(path)
    text = "\n".join(rests_on.lines_of(path))
    below = {f"crates/{crate}/specs/{name}.antt" for name in re.findall(OWN_USE.format(crate=crate), text)}
    there = [each for each in below - seen - {path} if os.path.isfile(os.path.join(tools_path.TOP, each))]
    return max((1 + depth(each, seen | {path}) for each in there), default=0)


def in_order(rows: list[Row]) -> list[Row]:
    """The rows in the order in which to read them."""
    with open(os.path.join(tools_path.TOP, sources.LIST), encoding="utf-8") as file:
        place = {name: at for at, name in enumerate(sources.crates(file.read()))}
    depths = {path: depth(path) for path in {row.path for row in rows}}
    return sorted(rows, key=lambda row: (place[crate_of(row.path)], depths[row.path], row.path, row.first))


def page() -> str:
    """The page."""
    lines, crate, path = [FRONT], "", ""
    for row in in_order(rests_on.rows()):
        if crate_of(row.path) != crate:
            crate = crate_of(row.path)
            lines.append(f"## `{crate}`\n")
        if row.path != path:
            path = row.path
            lines += [*([""] if lines[-1].startswith(("- ", "  ")) else []), f"`{path}`", ""]
        lines += item(f"`{row.name}`: {row.sentence}.")
    text = re.sub(r"\n(## |`crates/)", r"\n\n\1", "\n".join(lines))
    kit = [line for module, names in rests_on.kit_words().items()
           for line in item(f"`{module}`: " + ", ".join(f"`{name}`" for name in names) + ".")]
    return re.sub(r"\n{3,}", "\n\n", text + "\n" + KIT + "\n".join(kit) + "\n")


def main() -> int:
    """The words of the script."""
    ask = argparse.ArgumentParser(description="Writes docs/DEFINITIONS.md.")
    ask.add_argument("--check", action="store_true", help="writes nothing, and tells by the status whether it is so")
    if ask.parse_args().check:
        with open(PAGE, encoding="utf-8") as file:
            return int(file.read() != page())
    with open(PAGE, "w", encoding="utf-8") as file:
        file.write(page())
    return 0


if __name__ == "__main__":
    sys.exit(main())
