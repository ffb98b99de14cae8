"""The one place that looks into /proc: a folder of that shape, the kernel's own or a stored one.

Each look can fail since processes end: then the answer is None, or an empty list.
"""
import os
from dataclasses import dataclass

from ..command_line.command import Failure
from ..command_line.files import SAFE

MOST, PIECE = 1 << 24, 1 << 16
PROCESSOR = "x86_64"     # as uname(2) names it
GONE = (FileNotFoundError, ProcessLookupError, NotADirectoryError, PermissionError)


def content(handle: int) -> bytes:
    """What an open file holds, MOST bytes at most: by pieces, since Python asks for memory for all that may come."""
    pieces, left = list[bytes](), MOST
    while left > 0 and (piece := os.read(handle, min(left, PIECE))):
        pieces.append(piece)
        left -= len(piece)
    return b"".join(pieces)


@dataclass(frozen=True)
class Proc:
    """/proc, or a folder that is laid out so. In a stored one links are files' own symbolic links."""
    root: str = "/proc"

    def path(self, *parts: object) -> str:
        """A place below."""
        return "/".join([self.root, *map(str, parts)])

    def pids(self) -> list[int]:
        """The processes, ascending."""
        return sorted(int(name) for name in os.listdir(self.root) if name.isdigit())

    def tasks(self, pid: int) -> list[int]:
        """The threads of a process, itself among them, ascending."""
        try:
            return sorted(int(name) for name in os.listdir(self.path(pid, "task")) if name.isdigit())
        except GONE:
            return []

    def threads(self) -> list[int]:
        """The threads of all processes."""
        return [task for pid in self.pids() for task in self.tasks(pid)]

    def read(self, pid: int, name: str) -> bytes | None:
        """A file of a process or thread."""
        try:
            handle = os.open(self.path(pid, name), SAFE)
        except OSError:
            return None
        try:
            return content(handle)
        except OSError:
            return None
        finally:
            os.close(handle)

    def link(self, pid: int, name: str) -> str | None:
        """What a link of a process tells, such as `exe`, `cwd`, `root`, `ns/user`."""
        try:
            return os.readlink(self.path(pid, name))
        except OSError:
            return None

    def descriptors(self, pid: int) -> dict[int, str]:
        """By number what the open descriptors of a process are."""
        try:
            names = [name for name in os.listdir(self.path(pid, "fd")) if name.isdigit()]
        except GONE:
            return {}
        found = {int(name): self.link(pid, "fd/" + name) for name in names}
        return {number: told for number, told in found.items() if told is not None}


def stat_words(data: bytes) -> list[bytes]:
    """What a stat file has behind the name, from the state on (proc_pid_stat(5)). The name stands in parentheses, and
    may hold any byte. ValueError where it has no name."""
    return data[data.rindex(b")") + 1:].split()


def needs_root(advice: str = "") -> None:
    """Fails for all but root of the initial user namespace, whose ids worlds have; `advice` says why root is needed."""
    if os.geteuid() != 0:
        raise Failure("this is to be run as root", advice)
    with open("/proc/self/uid_map") as file:
        if file.read().split() != ["0", "0", "4294967295"]:
            raise Failure("this is to be run in the initial user namespace, whose ids worlds have")


def needs_processor() -> None:
    """Fails on another processor than x86-64: numbers of calls and what strace writes of them are of that one alone."""
    machine = os.uname().machine
    if machine != PROCESSOR:
        raise Failure(f"this is to be run on {PROCESSOR.replace('_', '-')}, and the processor here is {machine}",
                      "lines of strace and numbers of calls are read as they are on x86-64; record there")
