#!/usr/bin/env python3
"""Tells in how many places stand what one may want to add another of: a call, a key of a world, a closure rule, a form
of the command line, a form of log, a call that strace writes. Of each one that is there is taken (PROBES).

  places.py [--list] [--in FOLDER] [PROBE ..]

They are counted in FOLDER, or in this repository. A place is a line that names what was taken, or several such lines
that follow one another. Not counted are comments and imports; tests, worked cases (*Cases.antt) and must-fail edits;
crates of cases, benches and examples; and what a probe passes. --list shows each place. Status 1: a probe has more
places or files than it may, or docs/MAP.md doesn't name a file in its section of that probe ("To add something").
"""
import argparse
import glob
import os
import re
import sys
from collections.abc import Iterator, Sequence
from dataclasses import dataclass

TOP = os.path.normpath(os.path.join(os.path.dirname(os.path.abspath(__file__)), "..", ".."))
PASSED = re.compile(r"\s*(--|//|(pub |ghost |pub ghost )?use\s)")
CRATES_PASSED = re.compile(r"(_cases|_bench)$|^(container_start|case_lines)$")
FILES_PASSED = re.compile(r"(^|/)(tests?(/.*)?\.rt|[a-z_]*tests\.rt|[A-Za-z]*Cases\.antt|must-fail/.*|data/.*)$")
NONE = re.compile(r"(?!)")


@dataclass(frozen=True)
class Probe:
    """What was taken: the title of MAP's section, the name in definitions, code and proofs, the crates that are passed,
    and how many places and files there may be."""

    row: str
    name: re.Pattern[str]
    passed: re.Pattern[str] = NONE
    places: int | None = None
    files: int | None = None


PROBES = {
    # PR_SET_KEEPCAPS. Its rule speaks of keep_caps; the drill and what reads logs of strace(1) have rows of their own.
    "call": Probe("a call", re.compile(r"\b(KeepCaps|keepcaps)\b"), re.compile(r"_drill$|strace"), 20, 15),
    # nosuid of a mount, without the rules that ask for it.
    "key": Probe("a key of a row", re.compile(r"\bnosuid\b"), re.compile(r"^model_(rules|box)$|^cm_(exec|box_rows)$")),
    # exec_root: what programs give whose caller is the root of its space.
    "rule": Probe("a closure rule", re.compile(r"\b(ExecRoot|exec_root)\b")),
    # confirm, without the crates that do what it asks for.
    "command": Probe("a form of the command line",
                     re.compile(r'\b(Confirm|ToConfirm|confirm_words)\b|"confirm"|credaudit confirm'),
                     re.compile("_confirm$")),
    # strace's log, without the crates that read its lines.
    "log": Probe("a form of log", re.compile(r"\b(StraceLog|Strace)\b"), re.compile(r"strace")),
    # fcntl, a call on descriptors, by which nothing is told that isn't told by another.
    "strace": Probe("a call that strace writes, or a shape of its lines", re.compile(r"[Ff]cntl")),
}


def sources(probe: Probe, top: str = TOP) -> Iterator[str]:
    """The sources of definitions, code and proofs, as paths below crates/."""
    crates = os.path.join(top, "crates")
    for crate in sorted(os.listdir(crates)):
        if CRATES_PASSED.search(crate) or probe.passed.search(crate):
            continue
        for folder, ending in (("src", "rt"), ("specs", "antt"), ("proofs", "antt")):
            for path in sorted(glob.glob(os.path.join(crates, crate, folder, "**", f"*.{ending}"), recursive=True)):
                if not FILES_PASSED.search(path):
                    yield os.path.relpath(path, crates)


def places_in(probe: Probe, text: str) -> list[int]:
    """The places in a text: of each the number of its first line."""
    lines = [number for number, line in enumerate(text.split("\n"), 1)
             if probe.name.search(line) and not PASSED.match(line)]
    return [number for number in lines if number - 1 not in lines]


def places(probe: Probe, top: str = TOP) -> dict[str, list[int]]:
    """The places by their files, those with none left out."""
    found = {}
    for path in sources(probe, top):
        with open(os.path.join(top, "crates", path), encoding="utf-8") as file:
            found[path] = places_in(probe, file.read())
    return {path: numbers for path, numbers in found.items() if numbers}


def row_of(probe: Probe, text: str) -> str:
    """The probe's section of the page, or nothing."""
    return re.split(r"\n#", text.partition(f"\n### {probe.row}\n")[2], maxsplit=1)[0]


def named(row: str, crates: Sequence[str]) -> dict[str, set[str]]:
    """What a section names of each crate: all in backquotes behind the crate's name, without specs/ and proofs/."""
    found: dict[str, set[str]] = {}
    crate = ""
    for word in re.findall(r"`([^`]+)`", row):
        first, _, rest = word.partition("/")
        if first in crates:
            crate, word = first, rest
        found.setdefault(crate, set()).add(re.sub(r"^(specs|proofs)/", "", word).partition("::")[0])
    return found


def is_named(path: str, names: dict[str, set[str]]) -> bool:
    """Whether a file, as a path below crates/, is named: itself, or the file whose answers it has."""
    crate, _, inside = path.split("/", 2)
    stem = os.path.splitext(inside)[0]
    return not {stem, stem.split("/")[0]}.isdisjoint(names.get(crate, set()))


def unnamed(probe: Probe, found: dict[str, list[int]], top: str = TOP) -> list[str]:
    """The files with places that the page's section doesn't name."""
    with open(os.path.join(top, "docs", "MAP.md"), encoding="utf-8") as file:
        names = named(row_of(probe, file.read()), os.listdir(os.path.join(top, "crates")))
    return [path for path in found if not is_named(path, names)]


def figure(found: dict[str, list[int]]) -> str:
    """How many places in how many files."""
    return f"{sum(map(len, found.values()))} places in {len(found)} files"


def is_past(probe: Probe, found: dict[str, list[int]]) -> bool:
    """Whether these are more than there may be."""
    return ((probe.places is not None and sum(map(len, found.values())) > probe.places)
            or (probe.files is not None and len(found) > probe.files))


def tell(name: str, top: str, shows: bool) -> bool:
    """Tells a probe's places, and whether all is well with them."""
    probe = PROBES[name]
    found = places(probe, top)
    if shows:
        for path, numbers in found.items():
            print(*(f"crates/{path}:{number}" for number in numbers), sep="\n")
    print(f"{name}: {figure(found)}")
    lacks = unnamed(probe, found, top)
    for path in lacks:
        print(f"docs/MAP.md doesn't name crates/{path}")
    return not lacks and not is_past(probe, found)


def main(words: Sequence[str]) -> int:
    """Counts them, and with --list shows them."""
    parser = argparse.ArgumentParser(description=__doc__, formatter_class=argparse.RawDescriptionHelpFormatter)
    parser.add_argument("--list", action="store_true", help="each place, too")
    parser.add_argument("--in", dest="top", default=TOP, metavar="FOLDER", help="a repository")
    parser.add_argument("probes", nargs="*", metavar="PROBE", help=", ".join(PROBES))
    given = parser.parse_args(words)
    for name in given.probes:
        if name not in PROBES:
            parser.error(f"no probe {name}")
    return int(not all([tell(name, given.top, given.list) for name in given.probes or PROBES]))


if __name__ == "__main__":
    sys.exit(main(sys.argv[1:]))
