#!/usr/bin/env python3
"""Writes docs/TESTING-tests.md: of each crate its tests, cases, worked cases and must-fail edits, of each file of
tests of the tools how many it has and what it says of itself, and of each command its first sentence. All is read in
the tree. A test holds the page against what this makes.

  tests_page.py [--check]

With --check nothing is written; the status is 1 where the page is another.
"""
import argparse
import ast
import glob
import os
import re
import sys
from typing import NamedTuple

import tools_path
from credaudit_tools.provenance import sources
from pages.items import item

PAGE = os.path.join(tools_path.TOP, "docs", "TESTING-tests.md")
FRONT = """# Tests, file by file

For whoever looks for a test, or for a command that tries something. `tools/pages/tests_page.py` writes this page: run
it after a test, a case or an edit has come or gone.

## Of the crates

Tests are the functions marked by `#[test]`; cases those of the crate's `stdin`, each a line that begins with `case`;
worked cases lemmas of `proofs/*Case.antt` and `proofs/*Cases.antt` that computing answers (`= refl`), and the fields of
records there; edits those of `must-fail/`, each of which the check has to refuse. A crate without any of these has no
row.

| Crate | Tests | Cases | Worked cases | Edits |
|---|---|---|---|---|
"""
AFTER = """
There are {crates} crates and {edits} must-fail edits, in {edited} of them. The gate's last line counts both together,
so it is to be `{both} passed, 0 failed`. The cases of `report_cases` are {runs} runs.

## Of the tools

`tools/run_tests` runs all; a file is named with its number of tests, and by its own first words.

"""
COMMANDS = """
## Commands

What can be run by hand, each by the first sentence of its own text, which says more; TESTING.md says on which page its
outcomes stand.

"""
FOLDERS = ("tools/*/*", "tools/*/tests/*", "tools/*/tests/*/*", "bench/*", "examples/*", "examples/*/*")


class Counts(NamedTuple):
    """What stands in a crate."""

    tests: int
    cases: int
    worked: int
    edits: int


def matches(pattern: str, *paths: str) -> int:
    """How often a pattern begins a line of the files that these paths name."""
    total = 0
    for path in paths:
        for name in glob.glob(path, recursive=True):
            with open(name, encoding="utf-8") as file:
                total += len(re.findall(pattern, file.read(), re.MULTILINE))
    return total


def worked_cases(proofs: str) -> int:
    """How many worked cases stand in a folder of proofs: lemmas, and fields of records whose type is a lemma's."""
    total = 0
    for ending in ("*Case.antt", "*Cases.antt"):
        for name in glob.glob(os.path.join(proofs, ending)):
            with open(name, encoding="utf-8") as file:
                text = file.read()
            total += len(re.findall(r"^.*= refl\b", text, re.MULTILINE))
            total += sum(len(re.findall(r"^  [a-z_0-9]+ :", record, re.MULTILINE))
                         for record in re.findall(r" : record \{$.*?^}", text, re.MULTILINE | re.DOTALL))
    return total


def counts(crate: str) -> Counts:
    """What stands in the folder of a crate."""
    proofs = os.path.join(crate, "proofs")
    return Counts(matches(r"^\s*#\[test\]", os.path.join(crate, "src", "**", "*.rt")),
                  matches(r"^case ", os.path.join(crate, "stdin")),
                  worked_cases(proofs),
                  len(glob.glob(os.path.join(crate, "must-fail", "*.edit"))))


def crates(top: str) -> dict[str, Counts]:
    """By crate what stands in it, in the order of crates.txt."""
    with open(os.path.join(top, sources.LIST), encoding="utf-8") as file:
        return {name: counts(os.path.join(top, "crates", name)) for name in sources.crates(file.read())}


def crate_part(top: str) -> str:
    """The section on crates."""
    found = crates(top)
    lines = [f"| `{name}` | " + " | ".join(str(number or "") for number in each) + " |"
             for name, each in found.items() if any(each)]
    total = Counts(*(sum(column) for column in zip(*found.values())))
    lines.append("| all | " + " | ".join(map(str, total)) + " |")
    runs = matches(r"^run ", os.path.join(top, "crates", "report_cases", "stdin"))
    return "\n".join(lines) + "\n" + AFTER.format(
        crates=len(found), edits=total.edits, edited=sum(bool(each.edits) for each in found.values()),
        both=len(found) + total.edits, runs=runs)


def first_sentence(text: str) -> str:
    """The first sentence of what a program says of itself: of its docstring, or of the comment at its front."""
    if '"""' in text.split("\n", 2)[1]:
        said = ast.get_docstring(ast.parse(text)) or ""
    else:
        lines = text.split("\n")[1:]
        end = next((at for at, line in enumerate(lines) if not line.startswith("#")), len(lines))
        said = "\n".join(line.removeprefix("#").strip() for line in lines[:end])
    return re.split(r"(?<=\.) (?=[A-Z`])", " ".join(said.split("\n\n")[0].split()))[0]


def command_part(top: str) -> str:
    """The section on the commands: programs that can be executed, but those that the package installs."""
    lines = []
    for path in sorted(path for folder in FOLDERS for path in glob.glob(os.path.join(top, folder))):
        if os.path.isfile(path) and os.access(path, os.X_OK) and not path.endswith(".c"):
            with open(path, encoding="utf-8") as file:
                lines += item(f"`{os.path.relpath(path, top)}`: {first_sentence(file.read())}")
    return COMMANDS + "\n".join(lines) + "\n" if lines else ""


def tool_part(top: str) -> str:
    """The section on the tools."""
    lines = []
    for path in sorted(glob.glob(os.path.join(top, "tools", "**", "tests", "**", "test_*.py"), recursive=True)):
        with open(path, encoding="utf-8") as file:
            tree = ast.parse(file.read())
        count = sum(isinstance(node, ast.FunctionDef) and node.name.startswith("test_") for node in ast.walk(tree))
        says = " ".join((ast.get_docstring(tree) or "").split())
        name = os.path.relpath(path, top)
        lines += item(f"`{name}`, {count} test{'s' * (count != 1)}. {says}")
    return "\n".join(lines) + "\n"


def page(top: str = tools_path.TOP) -> str:
    """The page."""
    return FRONT + crate_part(top) + tool_part(top) + command_part(top)


def main() -> int:
    """The words of the script."""
    ask = argparse.ArgumentParser(description="Writes docs/TESTING-tests.md.")
    ask.add_argument("--check", action="store_true", help="writes nothing, and tells by the status whether it is so")
    if ask.parse_args().check:
        with open(PAGE, encoding="utf-8") as file:
            return int(file.read() != page())
    with open(PAGE, "w", encoding="utf-8") as file:
        file.write(page())
    return 0


if __name__ == "__main__":
    sys.exit(main())
