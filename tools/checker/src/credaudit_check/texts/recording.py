"""Reads the log of a recording (CHECKER.md, "Recordings"): events, and the first line that is none of a recording."""
import re
from collections.abc import Iterator
from dataclasses import dataclass, replace

from ..rules.machine import State
from .call_arguments import Values, number_of, pid_of
from .call_forms import Line, Told, read, refused
from .ends import limit
from .script import MOST_OF_LINE, Event
from .tables import MOST_GROUPS

FRONT = re.compile(rb"([0-9]+) (?![ \t\r])")
END = re.compile(rb"\+\+\+ (?:exited with [0-9]+|killed by [A-Z0-9_]+(?: \(core dumped\))?) \+\+\+")
HALVES = (b"<unfinished ...>", b"<detached ...>")
# What the lines of strace begin with that a recording hasn't, and the words by which they are refused.
FRONTS = ((b"<... ", "resumed"), (b"---", "signal"), (b"+++ superseded", "superseded"))
BLANKS = b" \t\r"
FILE_CALLS = ("open", "write", "setns", "close")


@dataclass(frozen=True)
class Opened:
    """A file of a user namespace that a process has opened: which of the four, under which number, and the calls that
    have to come next."""
    pid: int
    descriptor: int
    space: int
    file: str
    awaits: tuple[str, ...]


class Recording:
    """The lines as far as they have been read. The state is that after the events that were given so far: whoever takes
    these makes each a step before the next."""

    def __init__(self, state: State) -> None:
        self.state = state
        self.opened: Opened | None = None

    def line(self, number: int, text: bytes) -> Event | None:
        """The event of a line; None where it tells none."""
        front = FRONT.match(text)
        pid = pid_of(front[1]) if front else None
        if front is None or pid is None:
            raise refused(number, "pid")
        line, body = Line(number, pid), text[front.end():]
        self.is_whole(line, body)
        ends = END.fullmatch(body)
        if body.startswith(b"+++") and not ends:
            raise line.refused("end")
        told = Told("exit", "exit", (), 0) if ends else read(body, line)
        if pid not in self.state.processes:
            raise line.refused("process")
        return self.event(line, told)

    @staticmethod
    def is_whole(line: Line, body: bytes) -> None:
        """Refuses what strace writes for a call in two lines, for signals and for threads that are replaced."""
        if body.endswith(HALVES):
            raise line.refused("unfinished")
        for front, word in FRONTS:
            if body.startswith(front):
                raise line.refused(word)

    def event(self, line: Line, told: Told) -> Event | None:
        """The event of a call, or of an end."""
        if told.name == "open":
            self.open(line, told)
            return None
        if self.opened is not None or told.name in FILE_CALLS:
            return self.use(line, told)
        if told.event == "setgroups" and len(told.values) > MOST_GROUPS:
            raise limit("groups", MOST_GROUPS)
        if told.event is None:
            return None
        return Event(line.number, line.pid, told.event, told.values, told.result)

    # ---- files of user namespaces

    def open(self, line: Line, told: Told) -> None:
        """An open, the first of three lines."""
        owner, file = told.values
        process = self.state.processes.get(owner) if isinstance(owner, int) else None
        if process is None:
            raise line.refused("process")
        if self.opened is not None:
            raise line.refused("apart")
        assert isinstance(told.result, int) and isinstance(file, str)
        self.opened = Opened(line.pid, told.result, process.space, file,
                             ("setns" if file == "ns/user" else "write", "close"))

    def use(self, line: Line, told: Told) -> Event | None:
        """The second and the third line."""
        opened = self.opened
        if (opened is None or line.pid != opened.pid or told.name != opened.awaits[0]
                or told.values[0] != opened.descriptor):
            raise line.refused("apart")
        if told.name == "close":
            self.opened = None
            return None
        self.opened = replace(opened, awaits=opened.awaits[1:])
        if told.name == "setns":
            return Event(line.number, line.pid, "setns", (opened.space,), told.result)
        return self.write(line, told, opened)

    def write(self, line: Line, told: Told, opened: Opened) -> Event | None:
        """A write of a map or of the setgroups word."""
        text = told.values[1]
        assert isinstance(text, bytes)
        values = word_of(text) if opened.file == "setgroups" else map_of(text)
        is_error = isinstance(told.result, str)
        if values is None:
            if is_error:
                return None
            raise line.refused("argument 2")
        return Event(line.number, line.pid, f"write_{opened.file}", (opened.space, *values),
                     told.result if is_error else 0)

    def end(self, last: int) -> None:
        """The end of the log, after so many lines."""
        if self.opened is not None:
            raise refused(last, "apart")


def word_of(text: bytes) -> Values | None:
    """The setgroups word that a text is."""
    word = text.removesuffix(b"\n").decode("ascii", "replace")
    return (word,) if word in ("allow", "deny") else None


def map_of(text: bytes) -> Values | None:
    """The numbers of the map that a text is."""
    found: list[int] = []
    for line in text.removesuffix(b"\n").split(b"\n") if text else ():
        numbers = [number_of(word) for word in re.split(rb"[ \t\r]+", line.strip(BLANKS))]
        if len(numbers) != 3 or None in numbers:
            return None
        found += [one for one in numbers if one is not None]
    return tuple(found)


def events(data: bytes, state: State) -> Iterator[Event]:
    """The events of the log of a recording, line by line; of the state see Recording."""
    reading = Recording(state)
    lines = data.split(b"\n")
    for number, text in enumerate(lines, 1):
        if len(text) > MOST_OF_LINE:
            raise limit("line", MOST_OF_LINE)
        if number == len(lines):
            if text:
                raise refused(number, "torn")
            break
        event = reading.line(number, text)
        if event is not None:
            yield event
    reading.end(len(lines) - 1)
