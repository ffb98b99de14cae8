"""Whose a right is: the members that hold it, each with the program that it executed last (execve(2)).

A report names declared files alone, so the path is read from the log's own line.
"""
from collections.abc import Callable, Iterable
from dataclasses import dataclass

from ..command_line.printable import escaped
from ..formats.report import BIRTHS, Event, Report
from ..formats.rights import Right
from ..formats.strace_lines import RESUMED, UNFINISHED, call_of, parted, text_of
from ..replay.end_world import End
from .classes import HELD, Outcome
from .held_by import ways


@dataclass(frozen=True)
class Member:
    """A process of the family, and the path of the program that it executed last; None where the log tells none, since
    the program began before it."""
    pid: int
    program: bytes | None = None

    def words(self) -> str:
        """For the eye."""
        return f"process {self.pid}" + (f" ({path_word(self.program)})" if self.program is not None else "")


def path_word(path: bytes) -> str:
    """A path as one word of an expectation: a blank, a comma, a backslash and a `#` stand as octal numbers."""
    return escaped(path, b",#")


def whole_body(lines: list[bytes], number: int) -> bytes:
    """The body of the call that ends in a line of strace's; of a resumed one with what was kept of its front."""
    split = parted(lines[number - 1])
    resumed = None if split is None else RESUMED.fullmatch(split[1])
    if split is None or resumed is None:
        return b"" if split is None else split[1]
    for line in reversed(lines[:number - 1]):
        front = parted(line)
        if front is not None and front[0] == split[0] and front[1].endswith(UNFINISHED):
            return front[1].removesuffix(UNFINISHED) + resumed.group(2)
    return b""


def path_of(lines: list[bytes], event: Event, strace: bool) -> bytes | None:
    """The path of an execve by its line in the log; None where it can't be read."""
    if not strace:
        words = lines[event.line - 1].split()
        return words[2] if len(words) > 3 and words[2] != b"-" else None
    call = call_of(whole_body(lines, event.line))
    texts = [] if call is None else [text_of(each) for each in call.arguments[:2]]
    return next((text[0] for text in texts if text is not None and text[1]), None)


def programs(log: bytes, strace: bool, report: Report) -> dict[int, bytes | None]:
    """By pid the program that each process of an accepted replay executed last, or its maker before its birth."""
    lines, found = log.split(b"\n"), dict[int, bytes | None]()
    for event in report.events:
        if event.call == "execve" and event.result == "0":
            found[event.pid] = path_of(lines, event, strace)
        elif event.call in BIRTHS and event.result.isdigit():
            found[int(event.result)] = found.get(event.pid)
    return found


def members(pids: Iterable[int], executed: dict[int, bytes | None]) -> list[Member]:
    """These processes, each with its program, by ascending pid."""
    return [Member(pid, executed.get(pid)) for pid in sorted(pids)]


def held_by(end: End, outcomes: Iterable[Outcome], space: Callable[[Right], str | None],
            executed: dict[int, bytes | None]) -> dict[Right, list[Member]]:
    """Of each right that is held the members that hold it at the log's end; `space` gives the name of a right's
    namespace there."""
    return {each.right: members((one.pid for one in end.family
                                 if ways(one, each.right, space(each.right), end.spaces.named)), executed)
            for each in outcomes if each.kind == HELD}
