"""Control groups that stand still while they are looked at: cgroup.freeze of version 2, freezer.state of version 1
(cgroups(7)).

Each group that was running is let go in the end, whatever happens but a SIGKILL.
"""
import os
import signal
import time
from collections.abc import Callable, Iterator
from contextlib import contextmanager
from dataclasses import dataclass, field

from ..command_line.command import Failure
from ..system import mounts
from ..system.proc import Proc, stat_words

PATIENCE, PAUSE = 5.0, 0.01
APART = "start it in a group of its own, as `systemd-run --scope PROGRAM` does"


@dataclass(frozen=True)
class Way:
    """How the groups of a hierarchy are stopped: the file of a group that says so, its two words, and where the state
    stands."""
    top: str
    name: str
    stop: str
    go: str
    state: str
    stopped: str


def ways(proc: Proc) -> dict[str, Way]:
    """By the controllers of a line of /proc/PID/cgroup what is mounted here."""
    found = {}
    for mount in mounts.table(proc.read(os.getpid(), "mountinfo") or b""):
        top = os.fsdecode(mount.point)
        if mount.kind == b"cgroup2":
            found[""] = Way(top, "cgroup.freeze", "1", "0", "cgroup.events", "frozen 1")
        if mount.kind == b"cgroup" and b"freezer" in mount.whole:
            found["freezer"] = Way(top, "freezer.state", "FROZEN", "THAWED", "freezer.state", "FROZEN")
    return found


def groups_of(proc: Proc, pid: int) -> dict[str, str]:
    """By controllers the group of a process."""
    lines = os.fsdecode(proc.read(pid, "cgroup") or b"").split("\n")
    parts = [line.split(":", 2) for line in lines if line.count(":") >= 2]
    return {controllers: group for _, controllers, group in parts}


def group_of(proc: Proc, found: dict[str, Way], pid: int) -> tuple[Way, str]:
    """The group by which a process can be stopped."""
    groups = groups_of(proc, pid)
    for controllers, way in found.items():
        group = groups.get(controllers, "/")
        if group.startswith("/") and group != "/" and ".." not in group.split("/"):
            return way, group
    raise Failure(f"process {pid} is in no control group that can be frozen", APART)


def has_ended(proc: Proc, pid: int) -> bool:
    """Whether a process is gone, or has only its number left: then it counts for the root group."""
    data = proc.read(pid, "stat")
    return data is None or stat_words(data)[0] in (b"Z", b"X")


@dataclass
class Freezer:
    """The groups that are stopped."""
    proc: Proc
    found: dict[str, Way]
    reader: int
    stopped: list[tuple[Way, str]] = field(default_factory=list)
    known: set[tuple[str, str]] = field(default_factory=set)

    def stop(self, pid: int) -> bool:
        """Stops the group of a process; false where that was done before, or the process has ended."""
        try:
            way, group = group_of(self.proc, self.found, pid)
        except Failure:
            if has_ended(self.proc, pid):
                return False
            raise
        if (way.top, group) in self.known:
            return False
        own = next((told for controllers, told in groups_of(self.proc, self.reader).items()
                    if self.found.get(controllers) == way), "/")
        if mounts.below(os.fsencode(own), os.fsencode(group)):
            raise Failure(f"process {pid} is in the control group of this command, which would freeze itself", APART)
        self.known.add((way.top, group))
        if not self.is_stopped(way, group):
            self.stopped.append((way, group))
            self.say(way, group, way.stop)
            self.wait(way, group)
        return True

    def path(self, way: Way, group: str, name: str) -> str:
        """A file of a group."""
        return way.top + group + "/" + name

    def say(self, way: Way, group: str, word: str) -> None:
        """Writes a word to the group's file that stops it and lets it go."""
        with open(self.path(way, group, way.name), "w", encoding="ascii") as file:
            file.write(word)

    def is_stopped(self, way: Way, group: str) -> bool:
        """Whether the group stands still."""
        with open(self.path(way, group, way.state), encoding="ascii") as file:
            return way.stopped in file.read().split("\n")

    def wait(self, way: Way, group: str) -> None:
        """Waits until the group stands still. Fails where that takes too long."""
        ends = time.monotonic() + PATIENCE
        while not self.is_stopped(way, group):
            if time.monotonic() > ends:
                raise Failure(f"the control group {group} doesn't freeze")
            time.sleep(PAUSE)

    def let_go(self) -> None:
        """Lets all go that were stopped."""
        for way, group in self.stopped:
            self.say(way, group, way.go)
        self.stopped = []


def interrupted(number: int, _: object) -> None:
    """What a signal does while groups are stopped: it fails, and so they are let go."""
    raise Failure(f"ended by {signal.Signals(number).name}")


@contextmanager
def frozen(proc: Proc, reader: int, root: int, members: Callable[[], list[int]]) -> Iterator[None]:
    """The groups of a process and of all members that there are once it stands still don't run meanwhile."""
    freezer = Freezer(proc, ways(proc), reader)
    before = {number: signal.signal(number, interrupted) for number in (signal.SIGTERM, signal.SIGHUP, signal.SIGINT)}
    try:
        freezer.stop(root)
        while any([freezer.stop(pid) for pid in members()]):
            pass
        yield
    finally:
        freezer.let_go()
        for number, handler in before.items():
            signal.signal(number, handler)
