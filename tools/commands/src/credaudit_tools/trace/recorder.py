"""Records processes under strace: they are stopped, looked at, attached, followed until an end comes, stopped again and
looked at again, and let go.

What lives is looked at while nothing of it runs, so what is seen belongs to the log's first line and to its last one.
"""
import fcntl
import importlib
import os
import re
import signal
import time
from collections.abc import Iterator
from contextlib import contextmanager
from dataclasses import dataclass, field, replace
from types import FrameType
from typing import TYPE_CHECKING

from ..command_line.command import Failure, Progress
from ..command_line.printable import few, quoted, shown
from ..evidence.premises import BIRTHS, CREDENTIALS
from ..formats import worlds
from ..formats.statuses import Status
from ..formats.strace_lines import call_of, parted
from ..kernel_filters.filter_look import FilterLook
from ..replay import scan_fits
from ..replay.recording import Made, Recording
from ..strace_log.followed_processes import Followed
from ..strace_log.kept_log import changes_text, filters_text
from ..strace_log.map_files import RunningSystem
from ..system import binfmt
from ..system.program_stub import PR_SET_CHILD_SUBREAPER, begin, prctl
from ..system.running_kernel import Live
from . import live_processes, recording_start, strace_options
from .end_lines import Awaited
from .live_processes import Glance
from .recording_end import Ending, Seen
from .stopped_threads import statuses
from .strace_output import Stream
from .strace_process import Tracer
from .watchdog import Watchdog, nothing

if TYPE_CHECKING:
    from ..strace_log.line_filter import Filtering
    from ..service.unit_start import UnitStart

PIPE_SIZE = 1 << 20
LATE = ("hashlib",)              # what the end alone needs is loaded while the program runs, between its lines
END_PATIENCE = 2.0
POLL = 0.2
ENDING = (signal.SIGINT, signal.SIGTERM, signal.SIGHUP)


@dataclass
class Asked:
    """What a user asks for: a program of one's own or processes that run already, and when it ends."""
    words: list[str] = field(default_factory=list)
    pids: list[int] = field(default_factory=list)
    user: str | None = None
    seconds: float | None = None
    until: re.Pattern[bytes] | None = None
    until_each: re.Pattern[bytes] | None = None
    strace: str | None = None
    keep: bool = False              # the program goes on after the recording
    unit: str | None = None         # a service of systemd, which is started
    marks: dict[str, bool] = field(default_factory=dict)    # by name of a call that is kept whether on sockets alone
    timed: bool = False             # the time of each line is kept


def unit_start(name: str, live: Live) -> "UnitStart":
    """A service of systemd that is to be started."""
    from ..service.unit_start import UnitStart       # no other recording reads units
    return UnitStart(name, live.proc)


def without_own(threads: dict[int, Glance]) -> dict[int, Glance]:
    """Threads but this process's own."""
    return {tid: each for tid, each in threads.items() if each.tgid != os.getpid()}


def filtering(followed: Followed, system: RunningSystem, asked: Asked) -> "Filtering":
    """What takes strace's lines. It is loaded while strace begins to trace, which takes as long."""
    from ..executed.executed_files import Executed
    from ..strace_log.line_filter import Filtering
    return Filtering(followed, Executed(), system, asked.marks, asked.timed)


# ---- the recording ---------------------------------------------------------------------------------------------------


class Recorder:
    """One recording, from its start to its end."""

    def __init__(self, asked: Asked, progress: Progress) -> None:
        self.asked, self.progress = asked, progress
        self.strace = strace_options.find(asked.strace)
        self.made = Made(strace_options.version(self.strace), os.uname().release.split("-")[0])
        self.live = Live()
        self.system = RunningSystem(self.live.proc)
        self.followed = Followed()
        self.filter: Filtering              # once strace is begun
        self.filters = FilterLook(self.live.proc, self.made.evidence)
        self.signals = 0
        self.start: dict[int, Status] = {}
        self.living: set[int] = set()       # the processes that have to go on, or to end, after the recording
        self.rows = worlds.World()
        self.unit = None if asked.unit is None else unit_start(asked.unit, self.live)
        self.changed = False                # there is something to be undone for the unit

    # ---- the start

    def begin(self) -> list[int]:
        """A thread of each process to be attached; all have stopped."""
        if self.asked.words:
            return [self.begin_program()]
        if self.unit is not None:
            return self.begin_unit(self.unit)
        tids = self.begin_running(self.asked.pids)
        self.made.notes.append("the securebits of a process that ran already can't be read: 0 is taken, by which it"
                               " can get more")
        return tids

    def begin_unit(self, unit: "UnitStart") -> list[int]:
        """The process of a service, which systemd has made, and which waits right before the execve of its program."""
        self.watchdog.changes()
        self.changed = True
        pid = unit.started(self.is_signalled)
        tids = self.begin_running([pid])
        own, bits = self.start[pid], unit.securebits()
        self.start[pid] = replace(own, credential=replace(own.credential, sec=bits))
        unit.take_back()
        self.made.notes += unit.notes()
        return tids

    def begin_running(self, roots: list[int]) -> list[int]:
        """A thread of each process that runs already; all have stopped."""
        recording_start.check(self.live.proc, roots)
        halt = live_processes.bring_to_stop(
            lambda: live_processes.family(live_processes.all_threads(self.live.proc), roots, [os.getpid()]), time.sleep,
            note=self.note_stops, is_over=self.is_signalled)
        self.check_goes_on()
        recording_start.check_untraced(halt.threads.values())
        if halt.moving:
            raise Failure(f"these can't be stopped, so that they could be looked at: "
                          f"{few([str(tid) for tid in halt.moving])}")
        self.start = statuses(self.live, sorted(halt.threads))
        return live_processes.leading(halt.threads.values())

    def begin_program(self) -> int:
        """The program's process, which has stopped right before its execve."""
        prctl(PR_SET_CHILD_SUBREAPER, 1)
        pid, bits = begin(self.asked.words, self.asked.user, [self.watchdog.writing], self.note_own)
        self.start = statuses(self.live, [pid])
        own = self.start[pid]
        self.start[pid] = replace(own, credential=replace(own.credential, sec=bits))
        return pid

    def note_own(self, pid: int) -> None:
        """The program has this process."""
        self.watchdog.owns(pid)
        self.living.add(pid)

    def note_stops(self, pids: set[int]) -> None:
        """These processes are about to be stopped."""
        self.watchdog.stops(pids)
        self.living |= pids

    # ---- the middle

    def note_signal(self, _number: int, _frame: FrameType | None) -> None:
        """A signal ends the recording; one more ends its end."""
        self.signals += 1

    def is_signalled(self) -> bool:
        """Whether a signal came."""
        return self.signals > 0

    def check_goes_on(self) -> None:
        """Fails where a signal came before the recording began."""
        if self.is_signalled():
            raise Failure("a signal ended it before the recording began")

    def wait_for_end(self, tracer: Tracer, stream: Stream) -> str:
        """Reads until an end comes; which one."""
        ends = None if self.asked.seconds is None else time.monotonic() + self.asked.seconds
        how = "; Ctrl-C ends the recording" if ends is None else ""
        late = list(LATE)
        while not stream.ended and not (tracer.has_ended() and stream.is_empty()):
            if late and stream.count:
                importlib.import_module(late.pop())
            left = POLL if ends is None else max(0.0, min(POLL, ends - time.monotonic()))
            stream.pump(left)
            self.reap(tracer.pid)
            self.progress.at(f"{stream.count} lines of strace, {len(self.filter.taken.lines)} kept{how}")
            if stream.stopped is not None:
                return "stopped"
            if stream.reached:
                return "line"
            if self.is_signalled():
                return "signal"
            if ends is not None and time.monotonic() >= ends:
                return "time"
        return "program"

    # ---- the end

    def members(self, tracer: int) -> dict[int, Glance]:
        """What is traced, and what descends from the processes at the start and isn't."""
        threads = live_processes.all_threads(self.live.proc)
        found = live_processes.family(threads, self.roots(), [tracer, self.watchdog.pid])
        return {**without_own(found), **live_processes.traced(threads, tracer)}

    def left(self, tracer: int) -> dict[int, Glance]:
        """The same once strace has ended."""
        return without_own(live_processes.descendants(self.live.proc, self.roots(), [tracer, self.watchdog.pid]))

    def roots(self) -> list[int]:
        """From whom all descends: this process where it began the program, since orphans come to it; else the processes
        at the start."""
        return [os.getpid()] if self.asked.words else list(self.start)

    def doubt(self, premise: str, why: str) -> None:
        """A reason why a premise may not be so (premises.py)."""
        self.made.evidence.doubt(premise, why)

    def establish(self, premise: str, by: str) -> None:
        """What was seen of a premise."""
        self.made.evidence.establish(premise, by)

    def ends_program(self) -> bool:
        """Whether the program ends with the recording."""
        return bool(self.asked.words) and not self.asked.keep

    def let_go_on(self) -> None:
        """What is stopped goes on; of a unit, with its own program."""
        if self.unit is not None:
            self.unit.free()
        live_processes.send(self.living, signal.SIGCONT)
        self.watchdog.went_on()

    def clear_unit(self) -> None:
        """Nothing is left of how a unit was started."""
        if self.unit is not None and self.changed:
            self.unit.clear()
            self.watchdog.undone()
            self.changed = False

    def release(self) -> None:
        """What was followed goes on, or ends."""
        living, self.living = self.living, set()
        if self.ends_program():
            live_processes.send(living, signal.SIGTERM)
        live_processes.send(living, signal.SIGCONT)
        self.watchdog.went_on()
        if self.ends_program():
            ends, before = time.monotonic() + END_PATIENCE, self.signals
            while self.some_live(living) and time.monotonic() < ends and self.signals == before:
                time.sleep(0.02)
            live_processes.send({pid for pid in living if live_processes.lives(self.live.proc, pid)}, signal.SIGKILL)
            self.reap()

    def some_live(self, pids: set[int]) -> bool:
        """Whether some of these live."""
        self.reap()
        return any(live_processes.lives(self.live.proc, pid) for pid in pids)

    def reap(self, strace: int | None = None) -> None:
        """Takes note of the ends of children, but strace's while it is there. Orphans are this process's children too,
        and are asked for as init asks for its own: else they would be there until the recording ends, and who waits
        until one is gone (kill(2)), or for the end of a PID namespace (pid_namespaces(7)), would wait for ever."""
        while (pid := live_processes.ended_child()) is not None and pid != strace:
            os.waitpid(pid, 0)
            self.living.discard(pid)        # its number may be another process's now

    # ---- all of it

    @contextmanager
    def heard(self) -> Iterator[None]:
        """Signals end the recording meanwhile. SIGHUP doesn't where it was ignored, as under nohup(1)."""
        before = {number: signal.getsignal(number) for number in ENDING}
        for number, handler in before.items():
            if handler != signal.SIG_IGN or number != signal.SIGHUP:
                signal.signal(number, self.note_signal)
        try:
            yield
        finally:
            for number, handler in before.items():
                signal.signal(number, signal.SIG_DFL if handler is None else handler)

    def record(self) -> Recording:
        """The recording. What was stopped goes on, whatever happens."""
        with self.heard():
            self.watchdog = Watchdog(nothing if self.unit is None else self.unit.clear)
            try:
                return self.recorded(self.begin())
            finally:
                try:
                    self.clear_unit()
                finally:
                    self.release()
                    self.watchdog.leave()
                    self.system.held.close()
                    self.live.close()

    def recorded(self, tids: list[int]) -> Recording:
        """The recording of processes that have stopped."""
        recording_start.follow(self.live, self.start, self.followed, self.filters.at_start(self.start.values()))
        self.rows = recording_start.rows(self.live, self.start)
        reading, writing = os.pipe()
        fcntl.fcntl(writing, fcntl.F_SETPIPE_SZ, PIPE_SIZE)
        try:
            tracer = Tracer(self.live.proc, self.strace, writing, tids, self.asked.marks, self.asked.timed)
        finally:
            os.close(writing)
        try:
            self.watchdog.traces(tracer.pid)
            self.filter = filtering(self.followed, self.system, self.asked)
            tracer.wait_until_attached(self.start, self.is_signalled)
            self.let_go_on()
            self.clear_unit()
            if self.asked.keep:
                self.watchdog.keeps()
            return self.followed_to_end(tracer, Stream(reading, self.filter, self.awaited(), tracer.stops))
        finally:
            tracer.close()
            os.close(reading)

    def awaited(self) -> Awaited:
        """The lines that end it."""
        return Awaited(self.asked.until, self.asked.until_each, lambda: self.followed.tasks,
                       lambda pid: live_processes.is_dead(self.live.proc, pid))

    def followed_to_end(self, tracer: Tracer, stream: Stream) -> Recording:
        """The middle and the end."""
        self.made.end = self.wait_for_end(tracer, stream)
        before = self.signals
        ending = Ending(self.live, self.filter, self.members, self.made.evidence, self.note_stops,
                        lambda: self.signals > before)
        seen = Seen()
        if self.made.end == "program":
            tracer.finish()
            ending.read_rest(stream)
            left = self.doubt_ends(tracer)
            self.living = left if self.ends_program() else set()
        else:
            seen = ending.look(tracer, stream)
            self.living |= live_processes.processes(seen.threads.values()) if self.ends_program() else set()
        self.filters.at_end(self.followed.tasks, seen.statuses, self.filter.taken.filters, ending.is_over)
        self.release()
        if stream.stopped is not None:
            self.doubt(BIRTHS, f"the recording was stopped: {stream.stopped}")
        if stream.rest and self.made.end == "program":
            self.doubt(BIRTHS, "strace's last line is cut")
        self.filter.finish()
        self.check_began()
        return self.recording(seen)

    def check_began(self) -> None:
        """Fails where the program that was to be recorded was never executed."""
        begins = bool(self.asked.words) or self.unit is not None
        first = parted(self.filter.taken.lines[0]) if begins and self.filter.taken.lines else None
        made = call_of(first[1]) if first is not None else None
        if made is not None and made.name == b"execve" and made.done is None:
            why = shown(made.result.removeprefix(b"-1 "))
            name = self.asked.words[0] if self.unit is None else self.unit.name
            raise Failure(f"{quoted(name)} can't be executed: {why}",
                          "name its interpreter before it, as sh" if "ENOEXEC" in why else "")

    def doubt_ends(self, tracer: Tracer) -> set[int]:
        """Doubts that strace's lines ended with the program; the processes that live on."""
        if tracer.status not in (0, None):
            self.doubt(BIRTHS, f"strace ended with status {tracer.status}, before the program did")
        found = self.left(tracer.pid)
        for tid in sorted(found):
            self.doubt(BIRTHS, f"process {tid} lives on and isn't traced: what it did isn't in the log")
        self.establish(BIRTHS, "all that descends from the processes at the start was traced to its end")
        return live_processes.processes(found.values())

    def unit_doubts(self) -> list[str]:
        """What systemd's own execve of the program of a unit may have left otherwise than the one that is recorded."""
        start = [status.credential for status in self.start.values()] if self.unit is not None else []
        gives = [file.path for file in self.filter.executed.files.values() if file.caps]
        if gives and any(each.nnp for each in start):
            return [f"{few(gives)} has capabilities, and the unit has no_new_privs: executed by systemd itself it may"
                    " keep some of those that the service manager had (--unit has it executed after another program)"]
        return []

    def tell_files(self, seen: Seen) -> None:
        """What is known of programs and mounts, for a scan to be held against (scan_fits.py)."""
        left = {tid: self.filter.view_lines[task.place.view] for tid, task in self.followed.tasks.items()
                if tid in seen.mounts and task.place.view in self.filter.view_lines}
        scan_fits.tell_end(self.made.evidence, seen.mounts, left, self.filter.changing.changed_at, time.time())
        self.made.notes += binfmt.tell(self.made.evidence, self.live.interpreters)

    def recording(self, seen: Seen) -> Recording:
        """What is kept."""
        taken, executed = self.filter.taken, self.filter.executed
        self.made.evidence.add(taken.evidence)
        self.tell_files(seen)
        for text in [*executed.doubts, *self.unit_doubts()]:
            self.doubt(CREDENTIALS, text)
        self.rows.files = list(executed.files.values())
        self.rows.mounts = list(executed.mounts.values())
        self.rows.remarks = self.made.remarks()
        log = b"".join(line + b"\n" for line in taken.lines)
        return Recording(worlds.written(self.rows), log, seen.statuses, seen.spaces, self.made, changes_text(taken),
                         filters_text(taken), "".join(each + "\n" for each in taken.times))
