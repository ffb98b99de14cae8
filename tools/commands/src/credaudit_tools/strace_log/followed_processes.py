"""What is followed of the processes of a log while it is recorded: which live, in which user namespace each stands,
what their descriptors and working directories are.

User namespaces are told apart by numbers of this module's own, called standings; 0 is that of the recording's start.
"""
from dataclasses import dataclass, field, replace

from ..filters.log_filters import Filter

UNKNOWN = -1        # the standing of a process that isn't followed; securebits that can't be read
DETACHED, UNKNOWN_VIEW = -1, -2     # views of files on a mount of no namespace, and of those of which it isn't known


@dataclass
class Place:
    """What processes born with CLONE_FS share: paths as the tracer's own root has them. `view` numbers mount
    namespaces, 0 is the tracer's own. In another one paths begin at the process's root; where that was changed
    there, strace's paths begin elsewhere, and `apart` is set: the working directory isn't known then. `cwd_view` and
    `root_view` are the views of these folders where they lie in another mount namespace than the process's. A root
    that isn't known is None: it stays so until the process stands in another mount namespace."""
    cwd: bytes | None
    root: bytes | None = b"/"
    view: int = 0
    apart: bool = False
    cwd_view: int | None = None
    root_view: int | None = None

    def stands_in(self, cwd: bytes) -> None:
        """The working directory, as strace tells it."""
        self.cwd = None if self.apart else cwd

    def changes_root(self, root: bytes | None) -> None:
        """A chroot; in another mount namespace the working directory isn't known then."""
        if self.view == 0 or root is None:
            self.root = root
        else:
            self.cwd, self.apart = None, True

    def copied(self) -> "Place":
        """A copy that goes its own way."""
        return replace(self)


@dataclass
class Files:
    """A table of descriptors, which processes born with CLONE_FILES share: by number the paths that strace told, and
    of map files that were seen to be opened the standing that each is for; the views of files that don't lie in the
    tracer's own mount namespace; the numbers of files that are named as map files are, and were none as they were
    opened."""
    paths: dict[int, bytes] = field(default_factory=dict)
    standings: dict[int, int] = field(default_factory=dict)
    views: dict[int, int] = field(default_factory=dict)
    plain: set[int] = field(default_factory=set)

    def opened(self, number: int, path: bytes, view: int = 0) -> None:
        """A number has another file from now on."""
        self.paths[number] = path
        self.standings.pop(number, None)
        self.plain.discard(number)
        if view != 0:
            self.views[number] = view
        else:
            self.views.pop(number, None)

    def copy_of(self, number: int, source: int) -> None:
        """A number is a copy of another one."""
        if self.paths.get(source) != self.paths.get(number):
            return
        if source in self.standings:
            self.standings[number] = self.standings[source]
        if source in self.plain:
            self.plain.add(number)

    def copied(self) -> "Files":
        """A copy that goes its own way."""
        return Files(dict(self.paths), dict(self.standings), dict(self.views), set(self.plain))


@dataclass
class Task:
    """A thread. `process` is the one to which it belongs, `filters` are those that stand for it, the first installed
    first, `securebits` those that a call set and no later one showed, UNKNOWN where its words can't be read."""
    pid: int
    standing: int
    place: Place
    files: Files
    exe: bytes | None = None
    process: int = 0
    filters: tuple[Filter, ...] = ()
    securebits: int | None = None
    exe_view: int | None = None     # of a program that lies in another mount namespace than the process


@dataclass
class Followed:
    """All of it. `maps` has of each process whose map files were opened the standings that these were for, `spaces` of
    each user namespace's number in the kernel the standing, `stood` of each pid all that it had. Views up to
    `first_view` are mount namespaces in which something stood at the start; `detached` says whether a mount of none was
    made, `remounted` whether mounts may have changed by which a file of proc is seen at another place."""
    tasks: dict[int, Task] = field(default_factory=dict)
    maps: dict[int, set[int]] = field(default_factory=dict)
    spaces: dict[int, int] = field(default_factory=dict)
    stood: dict[int, set[int]] = field(default_factory=dict)
    last_standing: int = 0
    last_view: int = 0
    first_view: int = 0
    detached: bool = False
    remounted: bool = False

    def mounts_vary(self) -> bool:
        """Whether a descriptor's file may lie on a mount that its process doesn't show, now or any more."""
        return self.remounted or self.detached or self.last_view > 0

    def add(self, task: Task) -> None:
        """A thread at the start, or that was born."""
        self.tasks[task.pid] = task
        self.stood.setdefault(task.pid, set()).add(task.standing)

    def new_standing(self) -> int:
        """A user namespace that was made."""
        self.last_standing += 1
        return self.last_standing

    def new_view(self) -> int:
        """A mount namespace that was made or joined."""
        self.last_view += 1
        return self.last_view

    def born(self, parent: Task, pid: int, flags: list[bytes]) -> None:
        """A child of a birth with these flags (clone(2))."""
        place = parent.place if b"CLONE_FS" in flags else parent.place.copied()
        if b"CLONE_NEWNS" in flags:
            place.view = self.new_view()
        files = parent.files if b"CLONE_FILES" in flags else parent.files.copied()
        standing = self.new_standing() if b"CLONE_NEWUSER" in flags else parent.standing
        process = parent.process if b"CLONE_THREAD" in flags else pid
        self.add(Task(pid, standing, place, files, parent.exe, process, parent.filters, parent.securebits,
                      parent.exe_view))

    def installed(self, task: Task, found: Filter, for_all: bool) -> None:
        """A filter was installed; for all threads of its process they have what its own has then (seccomp(2))."""
        task.filters = (*task.filters, found)
        for other in self.tasks.values():
            if for_all and other.process == task.process:
                other.filters = task.filters

    def stands(self, task: Task, standing: int) -> None:
        """A process stands in another user namespace."""
        task.standing = standing
        self.stood[task.pid].add(standing)

    def ends(self, pid: int) -> None:
        """An exit."""
        self.tasks.pop(pid, None)
        self.stood.pop(pid, None)

    def unshared(self, task: Task, flags: list[bytes]) -> None:
        """A successful unshare with these flags (unshare(2))."""
        if b"CLONE_NEWUSER" in flags:
            self.stands(task, self.new_standing())
        if b"CLONE_FS" in flags or b"CLONE_NEWNS" in flags:
            task.place = task.place.copied()
        if b"CLONE_NEWNS" in flags:
            task.place.view = self.new_view()
        if b"CLONE_FILES" in flags:
            task.files = task.files.copied()

    def opened_map(self, task: Task, number: int, owner: int) -> None:
        """A map file of a process was opened; of one that isn't followed it isn't known which namespace that is for."""
        standing = self.tasks[owner].standing if owner in self.tasks else UNKNOWN
        self.maps.setdefault(owner, set()).add(standing)
        task.files.standings[number] = standing

    def standing_of_map(self, task: Task, number: int, path: bytes, owner: int) -> int | None:
        """The user namespace that a descriptor of a map file of this process is for: the one for which that number
        was opened, else the one for which all its map files were; None where that isn't certain."""
        own = task.files.standings.get(number) if task.files.paths.get(number) == path else None
        seen = [own] if own is not None else sorted(self.maps.get(owner) or self.stood.get(owner) or [])
        return seen[0] if len(seen) == 1 and seen[0] != UNKNOWN else None

    def one_in(self, standing: int, first: int) -> int | None:
        """A process that stands in a namespace: `first` where it does, else the least."""
        if first in self.tasks and self.tasks[first].standing == standing:
            return first
        return min((pid for pid, task in self.tasks.items() if task.standing == standing), default=None)
