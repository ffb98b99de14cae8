"""Lines of strace that are left out at first sight: writes to files that are no maps, opens of such files, and copies
of their descriptors. Most lines of a log are of these kinds, so each is read by one pattern; what is odd in any way is
left to whoever reads lines whole.

What is followed of descriptors is followed here as there (`Maps` of map_writes.py): which file each is, and in which
mount namespace it lies.
"""
import re

from ..formats import strace_lines
from . import mount_views
from .followed_processes import Followed, Task
from .kept_log import Taken
from .map_files import NAMES
from .map_writes import LIKE_MAP

# What stands between the brackets behind a descriptor: a path, or what strace writes of a device, a pipe, a socket.
SHOWN = rb"[^<>\\\"]*(?:<[^<>]*>)?"
OTHER = SHOWN + b"".join(rb"(?<!%s)" % name for name in NAMES)      # of no map file
END = rb">(?:\(deleted\))?"
FAILED = rb"-1 E.*"
# What these names name is another file for each process.
QUOTED = rb'"(?!/proc/|/dev/fd)[^"\\]*(?:\\.[^"\\]*)*"(?:\.\.\.)?'
WRITE = rb"p?writev?(?:64|2)?\([0-9]+<" + OTHER + END + rb", (?!" + LIKE_MAP + rb").*(?P<write>)"
OPEN = (rb"open(?:at)?\((?:(?P<at>AT_FDCWD|[0-9]+)<(?P<folder>" + SHOWN + rb")" + END + rb", )?(?P<name>" + QUOTED
        + rb"), [A-Z_|]+(?:, 0[0-7]{0,3})?\) += (?:" + FAILED + rb"|(?P<number>[0-9]+)<(?P<path>(?!user:)" + OTHER
        + rb")" + END + rb")(?P<open>)")
COPY = (rb"(?:dup[23]?|fcntl(?:64)?)\((?P<source>[0-9]+)<(?P<what>" + OTHER + rb")" + END + rb"(?:, [0-9]+<" + SHOWN
        + END + rb"|, [A-Z0-9_|]+)*\) += (?:" + FAILED + rb"|[0-9]+|0x[0-9a-f]+ \(flags [A-Z_|]+\)"
        rb"|(?P<copy>[0-9]+)<(?P<copied>" + OTHER + rb")" + END + rb")(?P<copies>)")
LINE = re.compile(rb"(?P<pid>[0-9]+) +(?:" + rb"|".join((WRITE, OPEN, COPY)) + rb")", re.S)


class FirstSight:
    """Takes the lines of the most frequent kinds, each by the group at its pattern's end."""

    def __init__(self, followed: Followed, taken: Taken, begun: dict[int, bytes | None]) -> None:
        self.followed, self.taken, self.begun = followed, taken, begun
        self.takes = {"write": self.write, "open": self.open, "copies": self.copy}

    def leaves_out(self, line: bytes) -> bool:
        """Whether a line is left out; then it is counted, and what it tells of descriptors is followed."""
        found = LINE.fullmatch(line)
        return found is not None and found.lastgroup is not None and self.takes[found.lastgroup](found)

    def write(self, found: re.Match[bytes]) -> bool:
        """A write to another file than a map."""
        if found.string.endswith(strace_lines.UNFINISHED):
            self.begun[int(found["pid"])] = None
        self.taken.left_out["writes to other files"] += 1
        return True

    def open(self, found: re.Match[bytes]) -> bool:
        """An open of another file."""
        pid, at, folder, name, number, path = found.group("pid", "at", "folder", "name", "number", "path")
        if path is not None:
            task = self.followed.tasks.get(int(pid))
            if task is None:
                return False
            task.files.opened(int(number), path, view_of(task, name.startswith(b'"/'), at, folder))
            if at == b"AT_FDCWD":
                task.place.stands_in(folder)
        self.taken.left_out["opens of other files"] += 1
        return True

    def copy(self, found: re.Match[bytes]) -> bool:
        """A copy of a descriptor that is of no map, or a question about one."""
        pid, source, what, copy, copied = found.group("pid", "source", "what", "copy", "copied")
        if copied is not None:
            task = self.followed.tasks.get(int(pid))
            if task is None:
                return False
            task.files.opened(int(copy), copied, mount_views.of_descriptor(task, source, what))
        self.taken.left_out["copies of descriptors"] += 1
        return True


def view_of(task: Task, is_absolute: bool, at: bytes | None, folder: bytes | None) -> int:
    """Where the file of a path lies, which begins in a folder where it isn't absolute (mount_views.of_path)."""
    if is_absolute:
        return task.place.view if task.place.root_view is None else task.place.root_view
    return mount_views.of_folder(task) if at is None else mount_views.of_descriptor(task, at, folder)
