"""What a recording takes of strace's lines: the log, what was changed in it or left out, filters of system calls,
doubts."""
import collections
from dataclasses import dataclass, field

from ..evidence.evidence import Evidence
from ..filters.log_filters import Filter
from ..formats import plain_log
from ..formats.strace_lines import Call

MOST_SHOWN = 200
UNSPOKEN = "failed calls of which no rule speaks"


class Stopped(Exception):
    """The recording can't go on, for this reason."""


@dataclass
class Taken:
    """All of it. `left_out` and `counted` have numbers of lines by what they are; `times` has when each line was
    written, in seconds, where strace tells it, and `now` that of the line which is looked at."""
    lines: list[bytes] = field(default_factory=list)
    times: list[str] = field(default_factory=list)
    now: str = ""
    left_out: collections.Counter[str] = field(default_factory=collections.Counter)
    counted: collections.Counter[str] = field(default_factory=collections.Counter)
    changed: list[str] = field(default_factory=list)
    filters: list[Filter] = field(default_factory=list)
    evidence: Evidence = field(default_factory=Evidence)

    def put(self, pid: int, body: bytes) -> None:
        """A line of the log."""
        self.lines.append(plain_log.line(pid, body))
        if self.now:
            self.times.append(self.now)

    def change(self, text: str) -> None:
        """Something that was changed in the log, told once."""
        if text not in self.changed:
            self.changed.append(text)

    def doubt(self, premise: str, why: str) -> None:
        """A reason why a premise may not be so (premises.py), told once."""
        self.evidence.doubt(premise, why)

    def fails_unread(self, made: Call) -> bool:
        """Leaves out a failed call whose arguments can't be told: it changed nothing."""
        if made.done is None:
            self.left_out["failed calls whose arguments can't be read"] += 1
        return made.done is None


def changes_text(taken: Taken) -> str:
    """What was changed in the log, and what was left out of it."""
    told = [f"left out: {count} {what}" for what, count in sorted(taken.left_out.items())]
    told += [f"changed: {count} {what}" for what, count in sorted(taken.counted.items())]
    told += [f"changed: {text}" for text in taken.changed[:MOST_SHOWN]]
    if len(taken.changed) > MOST_SHOWN:
        told.append(f"changed: {len(taken.changed) - MOST_SHOWN} more of these kinds")
    return "".join(line + "\n" for line in told)


def filters_text(taken: Taken) -> str:
    """The filters that were installed, a line each."""
    return "".join(f"{each.pid}: {each.text}\n" for each in taken.filters)
