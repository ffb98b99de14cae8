"""What CHANGELOG.md tells: the versions, the newest first, each with the sums of its program."""
import datetime
import os
import re
from typing import NamedTuple

NAME = "CHANGELOG.md"
SECTION = re.compile(r"^## (\d{4}\.\d{1,2}\.\d{1,2})\n\n(.*?)(?=^## |\Z)", re.MULTILINE | re.DOTALL)
SUM = re.compile(r"^- Program for (\w+): SHA-256\s+`([0-9a-f]{64})`\.$", re.MULTILINE)
ITEM = re.compile(r"^- (.*(?:\n  .*)*)$", re.MULTILINE)


class Version(NamedTuple):
    """A version: its name, the sums of its programs by architecture, as Debian names it, and what it brings."""

    name: str
    programs: dict[str, str]
    items: list[str]

    def day(self) -> datetime.datetime:
        """The day that the name says, at its begin."""
        year, month, day = map(int, self.name.split("."))
        return datetime.datetime(year, month, day, tzinfo=datetime.UTC)

    def named(self, architecture: str, program: str) -> str:
        """What a package with a program of that sum is called: another program than the version's is told by its
        sum."""
        own = self.programs.get(architecture) == program
        return self.name if own else f"{self.name}+{program[:8]}"


def versions(text: str) -> list[Version]:
    """The versions of a text. ValueError where there is none."""
    found = [Version(name, dict(SUM.findall(part)), [" ".join(item.split()) for item in ITEM.findall(part)])
             for name, part in SECTION.findall(text)]
    if not found:
        raise ValueError(f"{NAME} has no version")
    return found


def with_sum(text: str, architecture: str, program: str) -> str:
    """A text whose newest version has this sum for that architecture: in the place of another one, or before all that
    it tells. ValueError where it has no version."""
    found = SECTION.search(text)
    if found is None:
        raise ValueError(f"{NAME} has no version")
    line, part = f"- Program for {architecture}: SHA-256 `{program}`.", found[2]
    own = next((each for each in SUM.finditer(part) if each[1] == architecture), None)
    part = f"{line}\n{part}" if own is None else part[:own.start()] + line + part[own.end():]
    return text[:found.start(2)] + part + text[found.end(2):]


def of(top: str) -> list[Version]:
    """The versions of a tree. OSError, and ValueError."""
    with open(os.path.join(top, NAME), encoding="ascii") as file:
        return versions(file.read())
