"""The end of a recording: all that lives is stopped and looked at, strace lets go, and what was stopped goes on.

Each wait here has an end, and a signal ends it at once. What then can't be said of the processes is a doubt.
"""
import time
from collections.abc import Callable
from dataclasses import dataclass, field, replace
from typing import TYPE_CHECKING

from ..command_line.printable import few
from ..evidence.evidence import Evidence
from ..evidence.premises import ANSWERS, BIRTHS, CREDENTIALS
from ..formats.statuses import Status
from ..replay.recording import SpaceSeen
from ..system.mount_namespaces import MountSpace
from ..system.running_kernel import Live
from . import live_processes
from .live_processes import Glance, Halt
from .stopped_threads import mounts_seen, spaces_seen, status_of
from .strace_output import Stream
from .strace_process import Tracer

if TYPE_CHECKING:
    from ..strace_log.line_filter import Filtering

WHOLE = "all that descends from the processes at the start was traced, to its end or until it was looked at"
LATER = "what the kernel showed of the processes may be later than the log's last line"


@dataclass
class Seen:
    """What the kernel showed at the end: threads, their statuses, user and mount namespaces. All have stopped."""
    threads: dict[int, Glance] = field(default_factory=dict)
    statuses: list[Status] = field(default_factory=list)
    spaces: list[SpaceSeen] = field(default_factory=list)
    mounts: dict[int, MountSpace] = field(default_factory=dict)


class Ending:
    """The end of one recording. `members` gives the live threads of the family by strace's pid, `note` is told of
    processes before they are stopped, `is_over` says that a signal came since the end began."""

    def __init__(self, live: Live, filter_: "Filtering", members: Callable[[int], dict[int, Glance]],
                 evidence: Evidence, note: Callable[[set[int]], None], is_over: Callable[[], bool]) -> None:
        self.live, self.filter, self.members, self.evidence = live, filter_, members, evidence
        self.note, self.is_over = note, is_over

    def look(self, tracer: Tracer, stream: Stream) -> Seen:
        """Stops all that lives, ends strace, and looks; doubts where that isn't at the log's very end."""
        halt, why = self.stopped(tracer, stream)
        if why is not None:
            self.evidence.doubt(BIRTHS, why)
        elif stream.stopped is None:
            self.settle(halt.threads)
            self.evidence.establish(BIRTHS, WHOLE)
        self.doubt_strangers(halt, tracer)
        self.let_go(tracer, stream)
        if self.is_over():
            self.evidence.doubt(CREDENTIALS, "a signal cut the end short: what the kernel showed isn't known")
            return Seen()
        if why is not None:
            halt = live_processes.bring_to_stop(lambda: self.still(halt.threads, tracer), time.sleep, note=self.note,
                                                is_over=self.is_over, patience=live_processes.SECOND_PATIENCE,
                                                tracer=tracer.pid)
            self.evidence.doubt(CREDENTIALS, LATER)
        if halt.moving:
            told = few([str(tid) for tid in halt.moving])
            self.evidence.doubt(CREDENTIALS, f"these can't be stopped: {told}; {LATER}")
        return self.seen(halt)

    def still(self, before: dict[int, Glance], tracer: Tracer) -> dict[int, Glance]:
        """The family once strace is gone: some belonged to it since strace traced them."""
        again = {tid: live_processes.glance(self.live.proc, tid) for tid in before}
        return {**{tid: each for tid, each in again.items() if each is not None}, **self.members(tracer.pid)}

    def stopped(self, tracer: Tracer, stream: Stream) -> tuple[Halt, str | None]:
        """Stops all that lives while strace follows; why that didn't come to its end."""
        stuck = Stuck(tracer, stream)

        def is_idle() -> bool:
            return stream.is_empty() and tracer.is_waiting()

        halt = live_processes.bring_to_stop(lambda: self.members(tracer.pid), stream.pump, is_idle, self.note,
                                            lambda: self.is_over() or stuck.is_so(), tracer=tracer.pid)
        if stuck.found:
            return halt, ("strace waited for one of the processes that it traces (as userfaultfd(2) makes it), and was"
                          " ended: what came after the log's last line isn't in it")
        if self.is_over() or halt.moving or not is_idle():
            return halt, "strace was ended before all had stopped: what came after the log's last line isn't in it"
        return halt, None

    def settle(self, threads: dict[int, Glance]) -> None:
        """What strace can't tell yet, as all has stopped: births by parents that wait for their child's execve, and
        ends of main threads whose other threads live."""
        self.filter.tell_births(threads)
        known = set(self.filter.followed.tasks)
        for tid in sorted(set(threads) - known):
            self.evidence.doubt(BIRTHS, f"process {tid} is of the family, and its birth isn't in the log")
        for tid in sorted(known - set(threads)):
            if live_processes.is_dead(self.live.proc, tid):
                self.filter.tell_end(tid)
            else:
                self.evidence.doubt(BIRTHS, f"process {tid} is gone, and its end isn't in the log")

    def doubt_strangers(self, halt: Halt, tracer: Tracer) -> None:
        """Doubts of what belongs to the family and isn't traced."""
        for tid, each in sorted(halt.threads.items()):
            if each.tracer != tracer.pid:
                self.evidence.doubt(BIRTHS, f"process {tid} is of the family and isn't traced: what it did isn't in the"
                                            " log")

    def let_go(self, tracer: Tracer, stream: Stream) -> None:
        """strace is ended. What has stopped stays so."""
        tracer.end()
        self.read_rest(stream)

    def read_rest(self, stream: Stream) -> None:
        """What strace told before it ended."""
        stream.drain()
        if not stream.ended:
            self.evidence.doubt(ANSWERS, "another process has the pipe of strace's lines: some of them may be its own")

    def seen(self, halt: Halt) -> Seen:
        """What the kernel shows of what has stopped."""
        statuses = []
        for tid in sorted(halt.threads):
            status = status_of(self.live, tid)
            if status is None:
                self.evidence.doubt(CREDENTIALS, f"process {tid} ended while it was looked at")
            else:
                statuses.append(status)
        found, numbers = spaces_seen(self.live, {status.space for status in statuses})
        return Seen(halt.threads, [replace(each, space=numbers[each.space]) for each in statuses], found,
                    mounts_seen(self.live, statuses))


class Stuck:
    """Whether strace waits for the kernel and tells nothing, for longer than such a wait takes."""

    def __init__(self, tracer: Tracer, stream: Stream) -> None:
        self.tracer, self.stream = tracer, stream
        self.since: float | None = None
        self.found = False

    def is_so(self) -> bool:
        """Asked again and again."""
        if not (self.tracer.is_stuck() and self.stream.is_empty()):
            self.since = None
            return False
        now = time.monotonic()
        self.since = now if self.since is None else self.since
        self.found = now - self.since > live_processes.STUCK_PATIENCE
        return self.found
