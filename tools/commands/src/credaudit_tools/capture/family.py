"""A family at one instant: a process, all that descend from it, and the threads of each.

A system moves while it is looked at, and what was seen of one process may be over when the next one is looked at. So
all is read twice, and taken where no thread ran between: it was off its processor at both readings (/proc/PID/syscall
tells a thread that runs), and was never switched out meanwhile (the counts of its status, proc(5)). Only a thread's own
calls change its credential, and only a member's fork makes a member, so all that was read held at the end of the second
listing at once. Processes of the same number are told apart by their start.
"""
import time
from collections.abc import Callable
from dataclasses import dataclass

from ..command_line.command import Failure, Says, silent
from ..command_line.printable import plural, quoted
from ..formats.statuses import Status, from_file, parts_of_file
from ..system.kernel_questions import Kernel
from ..system.proc import Proc, stat_words

DEAD = ("Z", "X")
RUNNING = b"running"
TIMES = 5               # readings that agree, where threads may run meanwhile
PAUSE = 0.02
LISTINGS = 50           # of the folder, until nothing ended meanwhile
OF_PROGRAMS = "for the programs alone ask for another process that sees them, as the shell: $$"
ADVICE = ("it is read again for --patience SECONDS; --freeze stops its control group meanwhile, --running takes what"
          f" runs where {TIMES} readings agree; {OF_PROGRAMS}")


@dataclass(frozen=True)
class Listed:
    """A live thread of a listing: its process, the parent of that, and when the thread was born."""
    tid: int
    pid: int
    parent: int
    started: int


@dataclass(frozen=True)
class Thread:
    """A thread: `user` and `mounts` are the numbers of its user and its mount namespace."""
    listed: Listed
    status: Status
    user: int
    mounts: int

    def dead(self) -> bool:
        """Whether it has ended, and only its number is left."""
        return self.status.state in DEAD


@dataclass(frozen=True)
class Seen:
    """A thread, and what tells whether it ran: what it waited in before and after it was read, and its switches."""
    thread: Thread
    before: bytes
    after: bytes
    switches: tuple[str, str]


Reading = dict[int, Seen]


class Moved(Exception):
    """A reading that can't be used, for this reason."""


@dataclass(frozen=True)
class Family:
    """The live threads by number. `ran` names those that ran while they were read, `readings` counts the readings."""
    root: int
    threads: dict[int, Thread]
    readings: int
    ran: tuple[int, ...] = ()

    def processes(self) -> list[int]:
        """Their pids, ascending."""
        return sorted({thread.listed.pid for thread in self.threads.values()})


# ---- one reading -----------------------------------------------------------------------------------------------------


def stat_fields(data: bytes) -> tuple[int, int]:
    """The parent and the start of a stat file."""
    words = stat_words(data)
    return int(words[1]), int(words[19])


def stat_of(proc: Proc, pid: int, tid: int) -> tuple[int, int]:
    """The parent and the start of a thread. Moved where it ended meanwhile."""
    data = proc.read(pid, f"task/{tid}/stat")
    if data is None:
        raise Moved(f"process {tid} ended while it was read")
    return stat_fields(data)


def descendants(parents: dict[int, int], root: int, without: int) -> list[int]:
    """The processes whose parents lead to the root; without one, and what descends from it."""
    found, children = [], dict[int, list[int]]()
    for pid, parent in parents.items():
        children.setdefault(parent, []).append(pid)
    waiting = [root]
    while waiting:
        pid = waiting.pop()
        if pid != without:
            found.append(pid)
            waiting += children.get(pid, [])
    return sorted(found)


def listing(proc: Proc, root: int, reader: int) -> list[Listed]:
    """All threads of the family, but those of the reader itself. Whatever ends between the folder and its file may have
    been a member: then the folder is read again."""
    why = Moved("")
    for _ in range(LISTINGS):
        try:
            return listed_once(proc, root, reader)
        except Moved as moved:
            why = moved
    raise why


def listed_once(proc: Proc, root: int, reader: int) -> list[Listed]:
    """The threads of the family, as /proc lists them now. Moved where one ended meanwhile; fails where the root is not
    there."""
    stats = {pid: stat_of(proc, pid, pid) for pid in proc.pids()}
    if root not in stats:
        raise Failure(f"there is no process {root}")
    found = []
    for pid in descendants({pid: parent for pid, (parent, _) in stats.items()}, root, reader):
        tasks = proc.tasks(pid)
        if not tasks:
            raise Moved(f"process {pid} ended while it was read")
        found += [Listed(tid, pid, stats[pid][0], stat_of(proc, pid, tid)[1]) for tid in tasks]
    return found


def processes(kernel: Kernel, root: int) -> list[int]:
    """The processes of the family as a listing has them."""
    try:
        return sorted({listed.pid for listed in listing(kernel.proc, root, kernel.reader)})
    except Moved as moved:
        raise Failure(f"process {root} and what descends from it can't be listed: {moved}") from None


def waits_in(proc: Proc, listed: Listed) -> bytes:
    """What a thread waits in, `running` where it is on a processor."""
    data = proc.read(listed.pid, f"task/{listed.tid}/syscall")
    return RUNNING if data is None else data.strip()


def look(kernel: Kernel, listed: Listed) -> Seen:
    """One thread."""
    proc, before = kernel.proc, waits_in(kernel.proc, listed)
    data = proc.read(listed.pid, f"task/{listed.tid}/status")
    user, mounts = (kernel.space_of(listed.pid, listed.tid, kind) for kind in ("user", "mnt"))
    try:
        parts, status = parts_of_file(data or b""), from_file(data or b"")
    except (KeyError, ValueError):
        raise Moved(f"process {listed.tid} ended while it was read") from None
    if status.state in DEAD:
        return Seen(Thread(listed, status, 0, 0), b"", b"", ("", ""))
    if user is None or mounts is None:
        refused(proc, listed, status)
    switches = parts.get("voluntary_ctxt_switches", ""), parts.get("nonvoluntary_ctxt_switches", "")
    return Seen(Thread(listed, status, user or 0, mounts or 0), before, waits_in(proc, listed), switches)


def refused(proc: Proc, listed: Listed, status: Status) -> None:
    """A thread without namespaces has ended, or the kernel doesn't show them."""
    again = proc.read(listed.pid, f"task/{listed.tid}/status")
    if again is not None and from_file(again).state == status.state and status.state != "R":
        raise Failure(f"process {listed.tid} ({quoted(status.name)}) can't be looked into: the kernel doesn't show its"
                      " namespaces", OF_PROGRAMS)
    raise Moved(f"process {listed.tid} ended while it was read")


def reading(kernel: Kernel, root: int) -> Reading:
    """One look at the whole family."""
    return {listed.tid: look(kernel, listed) for listed in listing(kernel.proc, root, kernel.reader)}


# ---- readings that agree ---------------------------------------------------------------------------------------------


def constant(seen: Seen) -> tuple[object, ...]:
    """What two readings of a thread have to agree in; not whether it waits, nor its tracer."""
    thread = seen.thread
    return (thread.listed, thread.dead(), thread.user, thread.mounts, thread.status.credential, thread.status.name,
            thread.status.seccomp, thread.status.filters)


def ran(one: Seen, other: Seen) -> bool:
    """Whether a thread may have run between two readings."""
    if other.thread.dead():
        return False
    return RUNNING in (one.after, other.before) or one.after != other.before or one.switches != other.switches


def runners(one: Reading, other: Reading) -> tuple[int, ...]:
    """The threads that may have run between two readings that agree. Raises Moved where they don't."""
    if one.keys() != other.keys():
        odd = min(one.keys() ^ other.keys())
        raise Moved(f"process {odd} came or went")
    for tid in one:
        if constant(one[tid]) != constant(other[tid]):
            raise Moved(f"process {tid} ({quoted(other[tid].thread.status.name)}) changed")
    return tuple(tid for tid in one if ran(one[tid], other[tid]))


@dataclass
class Settling:
    """Readings one after another, until enough of them agree."""
    root: int
    running: bool                   # whether what runs is taken too
    last: Reading | None = None
    agreeing: int = 0
    readings: int = 0
    ran: frozenset[int] = frozenset()
    why: str = "nothing was read"

    def add(self, read: Callable[[], Reading]) -> Family | None:
        """One more reading; the family, once it is settled."""
        self.readings += 1
        before, self.last = self.last, None
        try:
            self.last = read()
            moving = runners(before, self.last) if before is not None else None
        except Moved as moved:
            self.why, self.agreeing, self.ran = str(moved), 1, frozenset()
            return None
        if moving is None:
            self.agreeing = 1
            return None
        return self.agreed(self.last, moving)

    def agreed(self, read: Reading, moving: tuple[int, ...]) -> Family | None:
        """A reading that is as the one before; `moving` ran between them."""
        self.agreeing += 1
        self.ran |= set(moving)
        if not moving:
            return self.family(read, ())
        self.why = f"process {moving[0]} ({quoted(read[moving[0]].thread.status.name)}) ran meanwhile"
        return self.family(read, tuple(sorted(self.ran))) if self.running and self.agreeing >= TIMES else None

    def family(self, read: Reading, moving: tuple[int, ...]) -> Family:
        """The family of two readings that agree. Fails where nothing of it lives."""
        live = {tid: seen.thread for tid, seen in read.items() if not seen.thread.dead()}
        if not live:
            raise Failure(f"process {self.root} has ended")
        return Family(self.root, live, self.readings, moving)


def settled(kernel: Kernel, root: int, running: bool, patience: float, says: Says = silent,
            clock: Callable[[], float] = time.monotonic, pause: Callable[[float], None] = time.sleep) -> Family:
    """The family at one instant. Fails where it doesn't hold still for `patience` seconds."""
    settling, ends = Settling(root, running), clock() + patience
    while True:
        family = settling.add(lambda: reading(kernel, root))
        if family is not None:
            return family
        if clock() >= ends:
            raise Failure(f"process {root} and what descends from it never held still in {settling.readings} readings:"
                          f" {settling.why}", ADVICE)
        says(f"{plural(settling.readings, 'reading')}, and no two agree yet: {settling.why}")
        pause(PAUSE if settling.last is None else PAUSE / 10)
