"""The start of a recording: what is to be recorded, checked and looked at while nothing of it runs, as the world
declares it and as the filter of lines follows it."""
import os
from collections.abc import Collection, Mapping, Sequence

from ..command_line.command import Failure
from ..command_line.printable import few
from ..filters.log_filters import Filter
from ..formats import worlds
from ..formats.statuses import Status
from ..strace_log import mount_views
from ..strace_log.followed_processes import Files, Followed, Place, Task
from ..system import space_rows
from ..system.namespaces import INITIAL_INODE
from ..system.proc import Proc
from ..system.running_kernel import Live
from . import live_processes
from .live_processes import Glance


def check(proc: Proc, roots: Sequence[int]) -> None:
    """Fails where a process that is asked for can't be recorded."""
    for pid in roots:
        check_is_there(proc, pid)
    threads = live_processes.family(live_processes.all_threads(proc), roots, [os.getpid()])
    check_runs(threads.values())
    check_untraced(threads.values())


def check_is_there(proc: Proc, pid: int) -> None:
    """Fails where a process that is asked for isn't there, or is a thread of one."""
    seen = live_processes.glance(proc, pid)
    if seen is None and not live_processes.lives(proc, pid):
        raise Failure(f"there is no process {pid}")
    if seen is not None and seen.tgid != pid:
        raise Failure(f"{pid} is a thread of process {seen.tgid}", f"-p {seen.tgid} records all its threads")


def check_runs(threads: Collection[Glance]) -> None:
    """Fails where a process was stopped before: the recording would let it go on in the end."""
    halted = sorted(live_processes.processes(each for each in threads if each.state == live_processes.HALTED))
    if halted:
        raise Failure(f"process {few([str(pid) for pid in halted])} is stopped already, and would go on after the"
                      " recording", "let it go on (kill -CONT), or end it")


def check_untraced(threads: Collection[Glance]) -> None:
    """Fails where a process has a tracer: it can't have another, and a stop of it would last as long as that one
    likes."""
    traced = sorted(live_processes.aliens(threads, 0))
    if traced:
        raise Failure(f"process {few([str(pid) for pid in traced])} has another tracer, so it can't be recorded",
                      "end that one first (TracerPid of /proc/PID/status names it)")


def follow(live: Live, start: Mapping[int, Status], followed: Followed,
           filters: Mapping[int, tuple[Filter, ...]]) -> None:
    """Takes what lives at the start, for the filter of lines, with the filters of system calls that stood before."""
    standings: dict[int, int] = {INITIAL_INODE: 0}
    own_mounts = os.stat("/proc/self/ns/mnt").st_ino
    views: dict[int, int] = {own_mounts: 0}
    proc = live.proc
    for tid, status in start.items():
        standing = standings.setdefault(status.space, len(standings))
        followed.spaces[status.space] = standing
        mounts = live.space_of(status.tgid, tid, "mnt") or own_mounts
        view = views.setdefault(mounts, len(views))
        cwd, root, exe = (proc.link(tid, name) for name in ("cwd", "root", "exe"))
        place = Place(None if cwd is None else os.fsencode(cwd), b"/", view)
        if view == 0 and root is not None:
            place.root = os.fsencode(root)
        files = Files({number: os.fsencode(told) for number, told in proc.descriptors(tid).items()})
        files.views = {number: view for number in files.paths}
        files.views |= mount_views.at_start(files.paths, proc.read(tid, "mountinfo") or b"",
                                            {number: proc.read(tid, f"fdinfo/{number}") for number in files.paths})
        followed.add(Task(tid, standing, place, files, None if exe is None else os.fsencode(exe), status.tgid,
                          filters.get(tid, ())))
    followed.last_standing = len(standings) - 1
    followed.first_view = followed.last_view = len(views) - 1


def rows(live: Live, start: Mapping[int, Status]) -> worlds.World:
    """The rows of the processes and spaces at the start."""
    declared = space_rows.rows(live, {status.space for status in start.values()}, [])
    made = worlds.World()
    made.spaces = declared.rows
    for status in sorted(start.values(), key=lambda own: (depth(start, own), own.pid)):
        space = declared.names[status.space]
        made.processes.append(worlds.Process(status.pid, status.credential, above(start, status), space))
    return made


def above(start: Mapping[int, Status], status: Status) -> int | None:
    """The process's parent among those that are recorded; of a thread the leader."""
    if status.tgid != status.pid and status.tgid in start:
        return status.tgid
    return status.parent if status.parent in start and status.tgid == status.pid else None


def depth(start: Mapping[int, Status], status: Status) -> int:
    """How many recorded processes stand above one."""
    parent = above(start, status)
    return 0 if parent is None else 1 + depth(start, start[parent])
