"""What is proved already: a note beside what the kit keeps of a library tells of which text it is, so that a `make`
without changes needn't ask the kit for each crate. No verdict rests on it: the kit has its own sum, by which it proves
again what isn't of this text when it builds the program.
"""
import contextlib
import hashlib
import os

from credaudit_tools.provenance.sources import sum_of_file

from .crate_list import Crates
from .rooms import LIBRARY

NOTE = "kept-by-make"


def told(path: str) -> str:
    """The text of a small file; none where it can't be read."""
    with contextlib.suppress(OSError), open(path, encoding="ascii", errors="replace") as file:
        return file.read()
    return ""


class Kept:
    """The notes of a repository. `version` is what the kit tells of itself."""

    def __init__(self, crates: Crates, version: str) -> None:
        self.crates, self.version, self.sums = crates, version, dict[str, str]()

    def sum_of(self, name: str) -> str:
        """The sum of all that a library is made of."""
        if name not in self.sums:
            crate, folder = self.crates.listed[name], self.crates.folder(name)
            files = [(os.path.relpath(path, folder), sum_of_file(path)) for path in self.crates.files(name)]
            below = [self.sum_of(use) for use in crate.uses]
            self.sums[name] = hashlib.sha256(repr((self.version, crate.line, files, below)).encode()).hexdigest()
        return self.sums[name]

    def note(self, name: str) -> str | None:
        """What the note of a library must say; None where no library stands there."""
        stamp = told(os.path.join(self.crates.out(name), LIBRARY, "stamp"))
        return f"{self.sum_of(name)} {stamp}\n" if stamp else None

    def path(self, name: str) -> str:
        """Where the note of a library stands."""
        return os.path.join(self.crates.out(name), NOTE)

    def holds(self, name: str) -> bool:
        """Whether a library is kept, of the text that stands there now."""
        return (note := self.note(name)) is not None and note == told(self.path(name))

    def keep(self, name: str, before: str) -> None:
        """Notes that a library was built just now. `before` is the sum of its text when that began: where another text
        stands there by now, there is no note."""
        self.sums.pop(name, None)
        note = self.note(name)
        if note is not None and note.startswith(before):
            with open(self.path(name), "w", encoding="ascii") as file:
                file.write(note)
