#!/usr/bin/env python3
"""Counts the clauses that keep account of a shelf or a sink.

  account_clauses.py [FOLDER]

Of the `ensures` of the functions of cm_io, cm_replay and cm_cli, in FOLDER or this repository: those whose text names
faults, reads, taken, counted or an account, or says that what is held stays. They are told by function; those of `run`,
of `run_surely` and of the shelves, sinks and their counts stand apart, since these are what is promised to others.
"""
import os
import re
import sys
from dataclasses import dataclass

TOP = os.path.join(os.path.dirname(os.path.abspath(__file__)), "..", "..")
CRATES = ("cm_io", "cm_replay", "cm_cli")
ACCOUNT = re.compile(r"\b(account|faults|reads|taken|counted)\b|held shelf\.new")
PART = re.compile(r"\bfn (\w+)|\bensures\*?\s+(?:\w+\s+)?\{")
PROMISED = {"cm_io": ("shelf.rt", "sink.rt", "memory.rt", "real.rt", "sure.rt", "counts.rt")}
TOP_CALLS = ("run", "run_surely")


@dataclass(frozen=True)
class Clauses:
    """The account clauses of a function."""
    crate: str
    file: str
    function: str
    count: int

    @property
    def promised(self) -> bool:
        """Whether it is one of those that stand apart."""
        return self.file in PROMISED.get(self.crate, ()) or self.function in TOP_CALLS


def without_remarks(text: str) -> str:
    """The text without what stands behind //."""
    return re.sub(r"//[^\n]*", "", text)


def clause_end(text: str, begin: int) -> int:
    """Where the brace ends that was opened before `begin`."""
    depth, at = 1, begin
    while depth:
        depth += {"{": 1, "}": -1}.get(text[at], 0)
        at += 1
    return at


def counted_in(text: str) -> dict[str, int]:
    """The account clauses of each function of a file, by its name."""
    text, found, function = without_remarks(text), dict[str, int](), ""
    for part in PART.finditer(text):
        if part[1]:
            function = part[1]
        elif ACCOUNT.search(text[part.end():clause_end(text, part.end())]):
            found[function] = found.get(function, 0) + 1
    return found


def counted(top: str) -> list[Clauses]:
    """The functions of the crates that have such clauses."""
    rows = []
    for crate in CRATES:
        folder = os.path.join(top, "crates", crate, "src")
        for name in sorted(os.listdir(folder)):
            with open(os.path.join(folder, name), encoding="utf-8") as file:
                rows += [Clauses(crate, name, *row) for row in counted_in(file.read()).items()]
    return rows


def main() -> None:
    """Writes the functions, and the two sums."""
    rows = counted(sys.argv[1] if sys.argv[1:] else TOP)
    for row in rows:
        print(f"{row.count:4} {row.crate}/{row.file} {row.function}{' (apart)' if row.promised else ''}")
    apart = sum(row.count for row in rows if row.promised)
    print(f"{sum(row.count for row in rows)} in all, {apart} apart, {sum(row.count for row in rows) - apart} elsewhere")


if __name__ == "__main__":
    main()
