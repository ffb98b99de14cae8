"""The lines of a log that end its recording: one (--until), or one of each process that lives (--until-each)."""
import re
from collections.abc import Callable, Iterable, Sequence

from ..formats.plain_log import BIRTH_RESULT

Pattern = re.Pattern[bytes]


class Awaited:
    """What is waited for. `living` gives the pids that live by the log, `has_ended` says of one that the kernel shows
    it as dead all the same: a main thread whose other threads live tells no end of its own."""

    def __init__(self, one: Pattern | None, each: Pattern | None, living: Callable[[], Iterable[int]],
                 has_ended: Callable[[int], bool]) -> None:
        self.one, self.each, self.living, self.has_ended = one, each, living, has_ended
        self.looked, self.reached = 0, False
        self.met: set[int] = set()

    def look(self, lines: Sequence[bytes]) -> None:
        """Looks at the lines of the log that came since the last look."""
        fresh = lines[self.looked:]
        self.looked = len(lines)
        if self.one is not None and any(self.one.search(line) for line in fresh):
            self.reached = True
        if self.each is not None and fresh:
            for line in fresh:
                self.take(self.each, line)
            self.reached |= self.is_met_by_all()

    def take(self, pattern: Pattern, line: bytes) -> None:
        """A line: its process has met the pattern, or a child is born of one that has, or it ends."""
        number, _, body = line.partition(b" ")
        pid = int(number)
        if pattern.search(line):
            self.met.add(pid)
        born = BIRTH_RESULT.fullmatch(body)
        if born and pid in self.met:
            self.met.add(int(born.group(2)))
        if body.startswith(b"+++"):
            self.met.discard(pid)

    def is_met_by_all(self) -> bool:
        """Whether each process that lives has such a line, or comes of one that had it before the birth."""
        living = set(self.living())
        return bool(living & self.met) and all(self.has_ended(pid) for pid in living - self.met)
