#!/usr/bin/env python3
"""Writes docs/MODULES.md: each crate, in the order of crates.txt, with its own first words, and below it its modules,
each with the first sentence of its file; of the crates of definitions the files of definitions too. A test holds the
page against what this makes.

  modules_page.py [--check]

With --check nothing is written; the status is 1 where the page is another.
"""
import argparse
import os
import re
import sys
import textwrap

import tools_path
from pages.items import WIDTH, item

PAGE = os.path.join(tools_path.TOP, "docs", "MODULES.md")
FRONT = """# Crates and their modules

For whoever looks for the place of something in the code: each crate from below, in the sections of crates.txt, with
what it says of itself, and each of its modules with its first sentence; of `model_` crates the files of definitions
too. MAP.md has the way of a line through them. `tools/pages/modules_page.py` writes this page: run it after a crate or
a module has come, gone or changed its first words.
"""
MARK = re.compile(r"^(?://[/!]?|--) ?")


def first_words(path: str) -> str:
    """What a file says at its front, up to an empty line or its first line that is no comment, as one line."""
    words = []
    with open(path, encoding="utf-8") as file:
        for line in file:
            mark = MARK.match(line)
            if not mark or not line[mark.end():].strip():
                break
            words.append(line[mark.end():].strip())
    return " ".join(words)


def sentence(text: str) -> str:
    """The first sentence of a text, without what ends it."""
    return re.split(r"(?<=\.) (?=[A-Z`])", text)[0].rstrip(".")


def is_test(name: str) -> bool:
    """Whether a module is one of tests alone."""
    *folders, last = name.split("/")
    return last == "tests" or last.endswith("_tests") or "tests" in folders


def files(folder: str, ending: str) -> list[str]:
    """The files below a folder with this ending, by their paths from it on, without the ending."""
    found = [os.path.relpath(os.path.join(inside, name), folder).removesuffix(ending)
             for inside, _, names in os.walk(folder) for name in names if name.endswith(ending)]
    return sorted(found)


def items(folder: str, ending: str, without: tuple[str, ...]) -> list[str]:
    """An item for each file of a folder that says something of itself."""
    lines = []
    for name in files(folder, ending):
        said = sentence(first_words(os.path.join(folder, name + ending)))
        if said and name not in without and not is_test(name):
            lines += item(f"`{name}`: {said}.")
    return lines


def crate(top: str, name: str) -> list[str]:
    """The lines of a crate."""
    folder = os.path.join(top, "crates", name)
    roots = [path for path in (os.path.join(folder, "src", root) for root in ("lib.rt", "main.rt"))
             if os.path.isfile(path)]
    said = first_words(roots[0]) if roots else ""
    lines = [f"### `{name}`", "", *textwrap.wrap(said, WIDTH, break_on_hyphens=False), ""]
    lines += items(os.path.join(folder, "src"), ".rt", ("lib", "main"))
    if name.startswith("model_"):
        lines += items(os.path.join(folder, "specs"), ".antt", ("Lib",))
    return [*lines, ""] if lines[-1] else lines


def page(top: str = tools_path.TOP) -> str:
    """The page."""
    lines = [FRONT]
    with open(os.path.join(top, "crates.txt"), encoding="utf-8") as file:
        for paragraph in file.read().strip().split("\n\n"):
            rows = paragraph.split("\n")
            said = " ".join(row.removeprefix("#").strip() for row in rows if row.startswith("#"))
            lines += [f"## {sentence(said)}", ""] if said else []
            for row in rows:
                if row and not row.startswith("#"):
                    lines += crate(top, row.split(":")[0])
    return "\n".join(lines).rstrip("\n") + "\n"


def main() -> int:
    """The words of the script."""
    ask = argparse.ArgumentParser(description="Writes docs/MODULES.md.")
    ask.add_argument("--check", action="store_true", help="writes nothing, and tells by the status whether it is so")
    if ask.parse_args().check:
        with open(PAGE, encoding="utf-8") as file:
            return int(file.read() != page())
    with open(PAGE, "w", encoding="utf-8") as file:
        file.write(page())
    return 0


if __name__ == "__main__":
    sys.exit(main())
