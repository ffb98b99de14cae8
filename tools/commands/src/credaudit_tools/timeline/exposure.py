"""Exposure: in which share of its time, and of its lines, a family held each right, could have it again, and couldn't.

A line counts for what is so right after it, the time for what is so until the next line, and until the recording's
end, where that is known.
"""
from collections.abc import Mapping, Sequence
from dataclasses import dataclass

from ..judge.classes import HELD, IS_GONE, TO_BE_HAD
from .borders import NOT_YET
from .lanes import Span
from .walk import Walk

HAD, AGAIN, GONE, ABSENT = "held", "regainable", "gone", "not-yet"
STATES = {HELD: HAD, NOT_YET: ABSENT, **dict.fromkeys(TO_BE_HAD, AGAIN), **dict.fromkeys(IS_GONE, GONE)}
SHARES = (HAD, AGAIN, GONE)


@dataclass(frozen=True)
class Clock:
    """When each line of a log was written, in seconds, and when the recording ended; no times where it tells none."""
    times: Sequence[float] = ()
    end: float | None = None

    def at(self, line: int) -> float:
        """When the line of this number was written; of the one past the last the end, of the log's front the first."""
        if line > len(self.times):
            last = max(self.times)
            return last if self.end is None else max(last, self.end)
        return self.times[max(line, 1) - 1]


@dataclass(frozen=True)
class Exposure:
    """The share of lines in which a right was in a state, in whole, and of time in seconds, where times are told."""
    lines: Mapping[str, int]
    seconds: Mapping[str, float] | None


def lines_of(walk: Walk, count: int, span: Span) -> tuple[int, int]:
    """The lines after which a span holds: the first, and the one past the last, of a log of so many lines."""
    return max(walk.reached[span.begin], 1), walk.reached[span.end] if span.end <= walk.last else count + 1


def exposure(walk: Walk, count: int, clock: Clock, spans: Sequence[Span]) -> Exposure:
    """How long a right was held, could be had again, and was gone."""
    lines, seconds = dict.fromkeys(SHARES, 0), dict.fromkeys(SHARES, 0.0)
    for span in spans:
        state = STATES[span.kind]
        begin, end = lines_of(walk, count, span)
        if state in lines:
            lines[state] += max(end - begin, 0)
            if clock.times:
                seconds[state] += max(clock.at(end) - clock.at(walk.reached[span.begin]), 0.0)
    return Exposure(lines, seconds if clock.times else None)


def percent(part: float, whole: float) -> str:
    """A share for the eye: never 0 or 100 where it isn't all or nothing."""
    if whole <= 0 or part <= 0:
        return "-"
    share = 100 * part / whole
    if share >= 100:
        return "100%"
    return f"{min(max(share, 0.1), 99.9):.1f}%"
