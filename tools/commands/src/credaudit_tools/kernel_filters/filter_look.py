"""Looks at what may act beside the calls of a log, in processes that are recorded: filters of system calls and rings of
io_uring, before the log's first line and after its last one."""
from collections.abc import Callable, Collection, Mapping, Sequence

from ..evidence.evidence import Evidence
from ..evidence.premises import ANSWERS, RINGS
from ..filters.log_filters import Filter, before
from ..formats.statuses import Status
from ..strace_log.followed_processes import Task
from ..system import rings
from ..system.proc import Proc
from . import filter_evidence, shown_filters
from .filter_evidence import has_filters
from .shown_filters import Shown

NO_RING = ("no call of io_uring succeeded, and no process had a descriptor, memory or a thread of a ring at the start"
           " or at the end")


class FilterLook:
    """Both looks of one recording, which tell its evidence what they see. `old` has the filters that stood before it,
    by thread."""

    def __init__(self, proc: Proc, evidence: Evidence) -> None:
        self.proc, self.evidence = proc, evidence
        self.old: dict[int, tuple[Filter, ...]] = {}

    def at_start(self, statuses: Collection[Status]) -> dict[int, tuple[Filter, ...]]:
        """Looks at threads that have stopped, and that nobody traces; their filters."""
        shown = looked_at(statuses)
        for status in statuses:
            seen = shown.get(status.pid, ())
            programs = [None] * (status.filters or 1) if isinstance(seen, str) else seen
            self.old[status.pid] = tuple(before(status.pid, each) for each in programs)
            for why in dict.fromkeys(why for each in self.old[status.pid] for why in each.doubts):
                self.evidence.doubt(ANSWERS, f"process {status.pid} had a filter before the recording began that {why}:"
                                             f" {filter_evidence.AFTERWARDS}")
        self.doubt_rings(statuses, "at the start")
        return self.old

    def at_end(self, tasks: Mapping[int, Task], statuses: Collection[Status], installed: Sequence[Filter],
               is_over: Callable[[], bool]) -> None:
        """Looks at threads that have stopped, and that nobody traces any more, beside the filters of the log; not
        longer than `is_over` lets it."""
        told = [*(each for own in self.old.values() for each in own), *installed]
        self.evidence.add(filter_evidence.of_end(tasks, statuses, looked_at(statuses, is_over), told))
        self.evidence.establish(RINGS, NO_RING)
        self.doubt_rings(statuses, "at the end")

    def doubt_rings(self, statuses: Collection[Status], when: str) -> None:
        """Doubts of those that have a ring."""
        for text in rings.doubts(self.proc, sorted(each.pid for each in statuses), when):
            self.evidence.doubt(RINGS, text)


def looked_at(statuses: Collection[Status], is_over: Callable[[], bool] = lambda: False) -> dict[int, Shown]:
    """What the kernel shows of the filters of those that have any."""
    return shown_filters.of_stopped([status.pid for status in statuses if has_filters(status)], is_over)
