"""The crates that crates.txt lists, and what each stands on."""
import os
from collections.abc import Sequence
from typing import NamedTuple

from .kit import Failed

PARTS = ("src", "specs", "proofs")      # what a check reads of a crate's folder


class Crate(NamedTuple):
    """A line of crates.txt."""

    name: str
    line: str
    uses: Sequence[str]     # crates of this list that it names, not libraries of the kit


class Crates:
    """The crates of a repository."""

    def __init__(self, top: str) -> None:
        self.top = top
        with open(os.path.join(top, "crates.txt"), encoding="utf-8") as file:
            lines = [line.partition("#")[0].strip() for line in file]
        words = {line.replace(":", " ").split()[0]: line for line in lines if line}
        self.listed = {name: Crate(name, line, [use for use in line.partition(":")[2].replace(",", " ").split()
                                                if use in words]) for name, line in words.items()}

    def folder(self, name: str) -> str:
        """The folder of a crate."""
        return os.path.join(self.top, "crates", name)

    def out(self, name: str) -> str:
        """Where the kit keeps what it made of a crate."""
        return os.path.join(self.folder(name), "out")

    def below(self, name: str, above: tuple[str, ...] = ()) -> list[str]:
        """All crates that this one stands on, each after those that it stands on itself."""
        if name in above:
            raise Failed(f"crates.txt: {name} stands on itself")
        if name not in self.listed:
            raise Failed(f"crates.txt doesn't list {name}")
        found: dict[str, None] = {}
        for use in self.listed[name].uses:
            if use not in found:
                found |= dict.fromkeys([*self.below(use, (*above, name)), use])
        return list(found)

    def files(self, name: str, end: str = "") -> list[str]:
        """The files of a crate that a check reads, in order."""
        parts = (os.path.join(self.folder(name), part) for part in PARTS)
        return sorted(os.path.join(at, file) for part in parts for at, _, names in os.walk(part)
                      for file in names if file.endswith(end))

    def lines(self, name: str, end: str) -> int:
        """How many lines the files of this ending have."""
        found = 0
        for path in self.files(name, end):
            with open(path, "rb") as file:
                found += file.read().count(b"\n")
        return found
