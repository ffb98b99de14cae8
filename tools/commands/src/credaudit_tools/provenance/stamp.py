"""The stamps that `make` and `make install` write: that of a tree of sources, and that of a program that was built of
one. Each is a text of lines `KEY: VALUE`, every key once and in this order (docs/STAMPS.md).
"""
import re
from dataclasses import dataclass

KEYS = {
    "stamp": "1",
    "version": r"[0-9][0-9A-Za-z.+-]*",
    "commit": "unknown|(?:[0-9a-f]{40}|[0-9a-f]{64})(?:-changed)?",
    "sources": "[0-9a-f]{64}",
    "program": "[0-9a-f]{64}",
    "logic": "[0-9a-f]{16}",
    "proved": "yes|no",
    "said": "[!-~](?:[ -~]*[!-~])?",
}
OF_TREE, MOST = 4, 1 << 16      # how many keys a tree's stamp has; no stamp is longer, in bytes


@dataclass(frozen=True)
class Tree:
    """The sources of a program: the version and the commit that they are said to be, and their sum."""
    version: str
    commit: str
    sources: str

    def written(self) -> str:
        """The stamp."""
        return f"stamp: 1\nversion: {self.version}\ncommit: {self.commit}\nsources: {self.sources}\n"


@dataclass(frozen=True)
class Build:
    """A program that was built: of which tree, its sum, that of the kit's logic, whether the kit proved it in building
    it, and the line by which the kit said so."""
    tree: Tree
    program: str
    logic: str
    proved: bool
    said: str

    def written(self) -> str:
        """The stamp."""
        return (f"{self.tree.written()}program: {self.program}\nlogic: {self.logic}\n"
                f"proved: {'yes' if self.proved else 'no'}\nsaid: {self.said}\n")


def values(text: str, count: int) -> list[str]:
    """The values of a text's keys, the first `count` ones. ValueError where it isn't such a text."""
    keys, lines = list(KEYS)[:count], text.split("\n")
    if lines.pop() or len(lines) != len(keys):
        raise ValueError(f"a stamp of {count} lines is expected")
    found = []
    for key, line in zip(keys, lines):
        value = line.removeprefix(f"{key}: ")
        if value == line or not re.fullmatch(KEYS[key], value):
            raise ValueError(f"{key}: is expected")
        found.append(value)
    return found


def read_tree(text: str) -> Tree:
    """A tree's stamp. ValueError where it is none."""
    return Tree(*values(text, OF_TREE)[1:])


def read_build(text: str) -> Build:
    """A build's stamp. ValueError where it is none."""
    found = values(text, len(KEYS))
    program, logic, proved, said = found[OF_TREE:]
    return Build(Tree(*found[1:OF_TREE]), program, logic, proved == "yes", said)


def text_of(path: str) -> str | None:
    """The text of a stamp's file; None where none can be read there, or one too long."""
    try:
        with open(path, "rb") as file:
            data = file.read(MOST + 1)
    except OSError:
        return None
    return data.decode("ascii", "replace") if len(data) <= MOST else None
