"""Which process a descriptor's path of a map file is of, whatever the spelling: the file lies on a mount of proc, which
may be a second one, a part of one, or one of another PID namespace (proc(5), pid_namespaces(7)).
"""
import os
import re
from collections.abc import Iterable, Sequence
from dataclasses import dataclass

from ..command_line.command import Failure
from ..command_line.files import read_regular
from ..executed.new_program import NewProgram, of_process
from ..formats.kernel_names import MAP_FILES
from ..system.held_mounts import HeldMounts
from ..system.mounts import Mount, table
from ..system.proc import Proc
from .followed_processes import Followed, Task

INSIDE = re.compile(rb"/([1-9][0-9]*)(?:/task/([1-9][0-9]*))?/(uid_map|gid_map|setgroups)")
NAMES = tuple(name.encode() for name in MAP_FILES)
MOST_STAT = 1 << 16


class Unclear(Exception):
    """A file may be a map file, and whose isn't certain."""


class Unseen(Unclear):
    """The mounts of a process can't be read any more."""


@dataclass(frozen=True)
class MapFile:
    """A map file of a process."""
    pid: int
    name: bytes


def may_be(path: bytes) -> bool:
    """Whether a path ends as those of map files do."""
    return path.rpartition(b"/")[2] in NAMES


def below(path: bytes, point: bytes) -> bytes | None:
    """What of a path stands below a mount point, None where it stands elsewhere."""
    front = point.rstrip(b"/")
    return path[len(front):] if path.startswith(front + b"/") else None


class MapFiles:
    """Asks the running kernel."""

    def __init__(self, proc: Proc) -> None:
        self.proc = proc

    def find(self, pid: int, top: bytes, path: bytes, family: Iterable[int], remounted: bool = True) -> MapFile | None:
        """The map file of a descriptor's path; None where it is another file. Unclear where that can't be said. `pid`
        is the process that has the descriptor, `top` where its paths can be looked up, `remounted` whether mounts may
        have changed since.

        A path below /proc is taken for one of proc, whatever is mounted by now: tools that make containers leave
        their mounts behind at once. If it was none, the end shows it: the kernel's maps are compared with those that
        were told."""
        if not may_be(path):
            return None
        point, inner = b"/proc", path.removeprefix(b"/proc")
        if INSIDE.fullmatch(inner) is None or inner == path:
            mount = self.mount_of(pid, top, path)
            if mount.kind != b"proc":
                if not remounted or os.path.lexists(top + path):
                    return None
                raise Unclear
            point = mount.point.rstrip(b"/")
            inner = (b"" if mount.part == b"/" else mount.part) + (below(path, mount.point) or b"")
        found = INSIDE.fullmatch(inner)
        if found is None:
            raise Unclear
        return MapFile(self.outer(int(found.group(2) or found.group(1)), top + point, inner, family), found.group(3))

    def bound(self, pid: int, top: bytes, path: bytes, family: Iterable[int]) -> MapFile | None:
        """The map file that is mounted at a path of another name; None where none is. Unclear where it isn't certain
        whose it is."""
        mounts = self.mounts(pid, top)
        if not mounts:
            raise Unseen
        parts = [mount.part for mount in mounts if mount.kind == b"proc" and mount.point == path]
        found = INSIDE.fullmatch(parts[-1]) if parts else None
        if found is None:
            return None
        named = [each for each in family if int(found.group(2) or found.group(1)) in self.numbers(each)]
        if len(named) != 1:
            raise Unclear
        return MapFile(named[0], found.group(3))

    def mounts(self, pid: int, top: bytes) -> list[Mount]:
        """The mounts that a process has now; none where they can't be read."""
        own = b"" if top else self.proc.read(os.getpid(), "mountinfo")
        return table(self.proc.read(pid, "mountinfo") or own or b"")

    def mount_of(self, pid: int, top: bytes, path: bytes) -> Mount:
        """The mount on which a path lies now, as the process has it."""
        mounts = [mount for mount in reversed(self.mounts(pid, top)) if below(path, mount.point) is not None]
        if not path.startswith(b"/") or not mounts:
            raise Unclear
        return max(mounts, key=lambda each: len(each.point.rstrip(b"/")))       # of those on one place the last

    def outer(self, number: int, mount: bytes, inner: bytes, family: Iterable[int]) -> int:
        """The process that a mount of proc shows under this number."""
        named = [pid for pid in family if number in self.numbers(pid)]
        if len(named) == 1:
            return named[0]
        folder = mount + inner.rpartition(b"/")[0]
        start = started(folder)
        same = [pid for pid in named if start is not None and started(os.fsencode(self.proc.path(pid))) == start]
        if len(same) == 1:
            return same[0]
        raise Unclear

    def numbers(self, pid: int) -> list[int]:
        """The pids that a process has in its PID namespaces, outermost first; its own where it is gone."""
        data = self.proc.read(pid, "status") or b""
        found = re.search(rb"^NSpid:\s+([0-9\s]+?)$", data, re.M)
        return [int(word) for word in found.group(1).split()] if found else [pid]


def started(folder: bytes) -> bytes | None:
    """When the process of a folder of proc was born. What stands there may be another file than proc's meanwhile."""
    try:
        return read_regular(folder + b"/stat", MOST_STAT).rpartition(b")")[2].split()[19]
    except (Failure, IndexError):
        return None


class RunningSystem:
    """What a filter asks, answered by the running system."""

    def __init__(self, proc: Proc) -> None:
        self.maps, self.proc, self.held = MapFiles(proc), proc, HeldMounts(proc)

    def top_of(self, task: Task, followed: Followed) -> bytes:
        """A process of the same mount namespace that lives has its root; where none lives, the namespace may be held.
        Of one that changed its root there no other has the same."""
        if task.place.view == 0:
            return b""
        same = [pid for pid, other in followed.tasks.items() if other.place.view == task.place.view]
        alive = [pid for pid in (task.pid, *(() if task.place.apart else same))
                 if os.path.exists(self.proc.path(pid, "root", "."))]
        held = None if alive or task.place.apart else self.held.top(task.place.view)
        return os.fsencode(self.proc.path(alive[0] if alive else task.pid, "root")) if held is None else held

    def map_file(self, task: Task, path: bytes, followed: Followed) -> MapFile | None:
        """As MapFiles.find, for what is followed."""
        return self.maps.find(task.pid, self.top_of(task, followed), path, {*followed.tasks, *followed.maps},
                              followed.mounts_vary())

    def bound_map(self, task: Task, path: bytes, followed: Followed) -> MapFile | None:
        """As MapFiles.bound, for what is followed."""
        return self.maps.bound(task.pid, self.top_of(task, followed), path, {*followed.tasks, *followed.maps})

    def exe_of(self, task: Task) -> str:
        """The link to what a process executes."""
        return self.proc.path(task.pid, "exe")

    def user_space(self, pid: int) -> int | None:
        """By its link in /proc (namespaces(7))."""
        found = re.fullmatch(r"user:\[([0-9]+)\]", self.proc.link(pid, "ns/user") or "")
        return int(found.group(1)) if found else None

    def last_capability(self) -> int | None:
        """The number of the kernel's last capability (/proc/sys/kernel/cap_last_cap, proc(5))."""
        try:
            with open(self.proc.path("sys", "kernel", "cap_last_cap"), "rb") as file:
                return int(file.read(MOST_STAT))
        except (OSError, ValueError):
            return None

    def mother_of(self, pid: int, among: Sequence[int]) -> int | None:
        """By the children that the kernel lists of each thread (/proc/TID/task/TID/children, proc(5))."""
        word = b"%d" % pid
        return next((tid for tid in among if word in (self.proc.read(tid, f"task/{tid}/children") or b"").split()),
                    None)

    def new_program(self, pid: int) -> NewProgram | None:
        """As the kernel shows it now."""
        return of_process(self.proc, pid)

    def hold(self, pid: int) -> None:
        """As HeldMounts.hold."""
        self.held.hold(pid)

    def holds(self, task: Task) -> None:
        """As HeldMounts.is_of."""
        self.held.is_of(task.pid, task.place.view)

    def let_go(self, pid: int, followed: Followed) -> None:
        """As HeldMounts.keep."""
        self.held.keep(pid, {task.place.view for task in followed.tasks.values()} if self.held.handles else ())
