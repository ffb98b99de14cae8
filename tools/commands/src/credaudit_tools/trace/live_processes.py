"""Live processes while they are recorded: which belong together, which are traced, and how they are brought to a
stop."""
import os
import signal
import time
from collections.abc import Callable, Iterable
from dataclasses import dataclass

from ..formats.statuses import word_of_file
from ..system.proc import Proc
from ..system.rings import is_kernels_own

DEAD = ("Z", "X", "x")
HALTED = "T"                    # by a signal, and not by a tracer
STOPPED = (HALTED, "t")
STUCK = "D"
NUMBERS = (b"Tgid", b"PPid", b"TracerPid", b"voluntary_ctxt_switches", b"nonvoluntary_ctxt_switches")
PATIENCE, STUCK_PATIENCE, SECOND_PATIENCE, PAUSE = 10.0, 2.0, 3.0, 0.03


@dataclass(frozen=True)
class Glance:
    """A thread at one look: `switches` counts how often it was scheduled out."""
    tid: int
    tgid: int
    parent: int
    state: str
    tracer: int
    switches: int


def glance(proc: Proc, tid: int) -> Glance | None:
    """None where the thread is gone or dead, or is the kernel's own: such a one makes no calls, and can't be traced."""
    data = proc.read(tid, "status")
    state = "" if data is None else state_of(data)
    if data is None or state in ("", *DEAD):
        return None
    tgid, parent, tracer, willing, unwilling = (int(word_of_file(data, name) or b"0") for name in NUMBERS)
    if tgid != tid and is_kernels_own(proc, tid):
        return None
    return Glance(tid, tgid, parent, state, tracer, willing + unwilling)


def state_of(data: bytes) -> str:
    """The letter of a status file's state; empty where it tells none."""
    return (word_of_file(data, b"State") or b"")[:1].decode("latin-1")


def lives(proc: Proc, pid: int) -> bool:
    """Whether some thread of a process lives: its main thread may have ended before the others (pthread_exit(3))."""
    found = (glance(proc, tid) for tid in proc.tasks(pid))
    return any(each is not None and each.tgid == pid for each in found)


def is_dead(proc: Proc, tid: int) -> bool:
    """Whether a thread has ended and is still shown, as a main thread is whose other threads live."""
    data = proc.read(tid, "status")
    return data is not None and state_of(data) in DEAD


def ended_child() -> int | None:
    """A child of this process that has ended, and stays until it is waited for."""
    try:
        found = os.waitid(os.P_ALL, 0, os.WEXITED | os.WNOHANG | os.WNOWAIT)
    except ChildProcessError:
        return None
    return None if found is None else found.si_pid


def all_threads(proc: Proc) -> dict[int, Glance]:
    """All live threads of the system."""
    found = (glance(proc, tid) for tid in proc.threads())
    return {each.tid: each for each in found if each is not None}


def family(threads: dict[int, Glance], roots: Iterable[int], without: Iterable[int] = ()) -> dict[int, Glance]:
    """The threads of some processes and of all that descend from them, but those of `without` and below."""
    above = {each.tgid: each.parent for each in threads.values()}
    wanted, barred = set(roots), set(without)

    def belongs(pid: int) -> bool:
        seen: set[int] = set()
        while pid in above and pid not in seen and pid not in barred:
            if pid in wanted:
                return True
            seen.add(pid)
            pid = above[pid]
        return False

    return {tid: each for tid, each in threads.items() if belongs(each.tgid)}


def descendants(proc: Proc, roots: Iterable[int], without: Iterable[int] = ()) -> dict[int, Glance]:
    """The same of all threads of the system. Of each process one thread is looked at first, since most are of none of
    the family."""
    ones = (one for one in (living_thread(proc, pid) for pid in proc.pids()) if one is not None)
    members = processes(family({one.tid: one for one in ones}, roots, without).values())
    found = (glance(proc, tid) for pid in members for tid in proc.tasks(pid))
    return {each.tid: each for each in found if each is not None}


def living_thread(proc: Proc, pid: int) -> Glance | None:
    """The main thread of a process, or another one where that has ended; None where all have."""
    return glance(proc, pid) or next((each for each in (glance(proc, tid) for tid in proc.tasks(pid)) if each), None)


def traced(threads: dict[int, Glance], tracer: int) -> dict[int, Glance]:
    """The threads that a tracer traces; none of nobody (0)."""
    return {tid: each for tid, each in threads.items() if each.tracer == tracer != 0}


def send(pids: Iterable[int], number: signal.Signals) -> None:
    """A signal to processes; those that are gone are passed over."""
    for pid in pids:
        try:
            os.kill(pid, number)
        except ProcessLookupError:
            pass


def processes(threads: Iterable[Glance]) -> set[int]:
    """The processes of threads."""
    return {each.tgid for each in threads}


@dataclass(frozen=True)
class Halt:
    """What came of bringing processes to a stop: their threads, and those of them that still move."""
    threads: dict[int, Glance]
    moving: tuple[int, ...] = ()


def aliens(threads: Iterable[Glance], tracer: int) -> set[int]:
    """The processes that somebody else traces."""
    return {each.tgid for each in threads if each.tracer not in (0, tracer)}


def leading(threads: Iterable[Glance]) -> list[int]:
    """A thread of each process, the main one where it lives."""
    found: dict[int, int] = {}
    for each in sorted(threads, key=lambda one: one.tid):
        if each.tgid not in found or each.tid == each.tgid:
            found[each.tgid] = each.tid
    return sorted(found.values())


def bring_to_stop(members: Callable[[], dict[int, Glance]], wait: Callable[[float], None],
                  is_idle: Callable[[], bool] = lambda: True, note: Callable[[set[int]], None] = lambda _: None,
                  is_over: Callable[[], bool] = lambda: False, patience: float | None = None, tracer: int = 0) -> Halt:
    """Stops all processes of `members`, and those that are born meanwhile, until none of their threads runs any
    more, but not longer than `patience` (PATIENCE), and not once `is_over` says so. `wait` passes some time, `is_idle`
    says whether nothing is left to be told of them, `note` is told of the processes before they are stopped. Those that
    another one than `tracer` traces are left alone: they would stay stopped as long as that one likes."""
    told: set[int] = set()
    last: dict[int, Glance] = {}
    begun = time.monotonic()
    while True:
        now = members()
        alien = aliens(now.values(), tracer)
        fresh = processes(now.values()) - told - alien
        note(fresh)
        send(fresh, signal.SIGSTOP)
        told |= fresh
        waited = time.monotonic() - begun
        moving = tuple(sorted(each.tid for each in now.values()
                              if each.tgid not in alien and not is_quiet(each, waited)))
        if not fresh and now == last and not moving and is_idle():
            return Halt(now)
        if waited > (PATIENCE if patience is None else patience) or is_over():
            return Halt(now, moving)
        last = now
        wait(PAUSE)


def is_quiet(thread: Glance, waited: float) -> bool:
    """Whether a thread has stopped. One that waits for its child's execve (vfork(2)) can't, and runs nothing
    meanwhile."""
    return thread.state in STOPPED or (thread.state == STUCK and waited > STUCK_PATIENCE)
