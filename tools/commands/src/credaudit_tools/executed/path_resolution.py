"""Which file a path names for a process: its working directory, its root and symbolic links are followed step by step.

Nothing is opened. Where a link of /proc leads to what a process holds open, executes or stands in, the answer is taken
from what was followed of that process in the log, since the link itself tells of a later moment.
"""
import os
import stat
from collections.abc import Callable
from dataclasses import dataclass

MOST_LINKS = 40     # path_resolution(7)
MAGIC = (b"exe", b"cwd", b"root")


@dataclass(frozen=True)
class View:
    """Where paths begin: `top` is the folder at which the mount namespace's root can be looked up (empty for one's
    own), `root` and `cwd` are the process's, as paths below `top`."""
    pid: int
    top: bytes
    root: bytes
    cwd: bytes | None


# Of a process and a name below /proc/PID the path that it stands for, None where it isn't known.
Magic = Callable[[int, bytes], bytes | None]


def parts_of(path: bytes) -> list[bytes]:
    """The names of a path."""
    return [part for part in path.split(b"/") if part not in (b"", b".")]


def joined(parts: list[bytes]) -> bytes:
    """The path of names."""
    return b"/" + b"/".join(parts)


def magic_name(parts: list[bytes]) -> tuple[int, bytes] | None:
    """The process and the name, where a path's parts end in one of /proc's links to what a process has."""
    if len(parts) >= 2 and parts[-1] in MAGIC and parts[-2].isdigit():
        return int(parts[-2]), parts[-1]
    if len(parts) >= 3 and parts[-1].isdigit() and parts[-2] == b"fd" and parts[-3].isdigit():
        return int(parts[-3]), b"fd/" + parts[-1]
    return None


def link_of(parts: list[bytes], view: View, magic: Magic) -> bytes | None:
    """Where a symbolic link leads, as the process sees it; None where that isn't known."""
    named = magic_name(parts)
    if named is not None:
        return magic(*named)
    told = os.readlink(view.top + joined(parts))
    if parts[-1] == b"self" and told == str(os.getpid()).encode():
        return str(view.pid).encode()
    if parts[-1] == b"thread-self" and told.startswith(str(os.getpid()).encode() + b"/task/"):
        return b"%d/task/%d" % (view.pid, view.pid)
    return told


def resolved(path: bytes, view: View, magic: Magic) -> bytes | None:
    """The path without links, `.` and `..`, below `top`. None where a folder on the way isn't known, or a link can't be
    followed. OSError where the way doesn't exist."""
    floor = parts_of(view.root)
    if not path.startswith(b"/") and view.cwd is None:
        return None
    at = list(floor) if path.startswith(b"/") else parts_of(view.cwd or b"/")
    queue, links = parts_of(path), 0
    while queue:
        part = queue.pop(0)
        if part == b"..":
            if at != floor and at:
                at.pop()
            continue
        candidate = [*at, part]
        if not stat.S_ISLNK(os.lstat(view.top + joined(candidate)).st_mode):
            at = candidate
            continue
        links += 1
        told = link_of(candidate, view, magic) if links <= MOST_LINKS else None
        if told is None:
            return None
        if magic_name(candidate) is not None:
            at = parts_of(told)
        else:
            at = list(floor) if told.startswith(b"/") else at
            queue = parts_of(told) + queue
    return joined(at)
