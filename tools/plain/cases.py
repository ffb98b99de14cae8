"""The stored cases of crates/report_cases, for the plain checkers that work them out once more (docs/TESTING.md, "Cases
of reports"): their runs, with the files that each names and the report that is stored. A case that only one of both
files has isn't passed over: see `all_cases`.
"""
import re
import sys
from collections.abc import Iterable, Iterator
from dataclasses import dataclass
from itertools import zip_longest
from pathlib import Path

FOLDER = Path(__file__).resolve().parents[2] / "crates" / "report_cases"
TEXTS = ("world", "log", "certificate", "calls")


@dataclass
class Case:
    """A run of report_cases: its case, its words and the files that they name, and the stored report and its status."""
    name: str
    words: list[str]
    files: dict[str, bytes]
    lines: list[str]
    status: int


def is_status(line: str) -> bool:
    """Whether a line of the answers ends a report."""
    return re.fullmatch(r"status \d+", line) is not None


def stored_reports(stdout: str) -> Iterator[tuple[list[str], int]]:
    """The reports of the stored answers, each with its status."""
    lines: list[str] = []
    for line in stdout.splitlines():
        if is_status(line):
            yield lines, int(line.split()[1])
            lines = []
        elif not line.startswith("case "):
            lines.append(line)


def asked(stdin: str) -> Iterator[tuple[str, dict[str, bytes]]]:
    """The lines `case NAME` and `run WORDS`, each with the files that stand there."""
    files, opened = dict[str, bytes](), ""
    for line in stdin.splitlines():
        if opened:
            if line in ("end", "end without LF"):
                files[opened] = files[opened].removesuffix(b"\n") if line != "end" else files[opened]
                opened = ""
            else:
                files[opened] += line.encode() + b"\n"
        elif line in TEXTS:
            opened, files[line] = line, b""
        elif line.startswith(("case ", "run ")):
            yield line, dict(files)


def stored_cases(stdin: str, stdout: str) -> Iterator[Case]:
    """The stored runs, in their order."""
    reports, name = stored_reports(stdout), ""
    for line, files in asked(stdin):
        word, _, rest = line.partition(" ")
        if word == "case":
            name = rest
        else:
            lines, status = next(reports)
            yield Case(name, rest.split(), files, lines, status)


def outline(lines: Iterable[str]) -> list[tuple[str, int]]:
    """The names of the cases, each with the number of its runs, of lines `case NAME` and others, one for each run."""
    found = [("", 0)]
    for line in lines:
        name, runs = found[-1]
        if line.startswith("case "):
            found.append((line.removeprefix("case "), 0))
        else:
            found[-1] = (name, runs + 1)
    return found


def misplaced(stdin: str, stdout: str) -> str | None:
    """The first case, by its name and its number of runs, that isn't answered as it is asked; None where each is."""
    told = (line for line in stdout.splitlines() if line.startswith("case ") or is_status(line))
    pairs = zip_longest(outline(line for line, _ in asked(stdin)), outline(told))
    words = [[f"the case {each[0]!r} with {each[1]} runs" if each else "nothing" for each in pair] for pair in pairs]
    return next((f"asked is {one}, and answered {other}" for one, other in words if one != other), None)


def all_cases() -> list[Case]:
    """All stored runs. Ends the program where a case isn't answered as it is asked."""
    stdin, stdout = ((FOLDER / name).read_text() for name in ("stdin", "stdout"))
    wrong = misplaced(stdin, stdout)
    if wrong is not None:
        sys.exit(f"{FOLDER.name}: {wrong}")
    return list(stored_cases(stdin, stdout))
