"""Mount namespaces that a recording keeps open, from the stop after an execve in one on until the log tells of nobody
there any more: what the log tells late of one that is gone can still be looked at.

The namespace alone is held (nsfs, mount_namespaces(7)), and none of its mounts: whoever unmounts something there
doesn't meet the recorder. Its root is opened once nobody lives there.
"""
import os
import threading
from collections.abc import Collection

from .namespace_holder import CLONE_NEWNS, LIBC
from .proc import Proc

CLONE_FS = 0x00000200
MOST = 256                  # held at once


class HeldMounts:
    """The namespaces of one recording, by the numbers that `followed` gives them."""

    def __init__(self, proc: Proc) -> None:
        self.proc = proc
        self.early: dict[int, int] = {}         # by a process that stands still
        self.handles: dict[int, int] = {}
        self.roots: dict[int, int] = {}

    def hold(self, pid: int) -> None:
        """Takes the namespace of a process that stands still."""
        self.drop(self.early, pid)
        try:
            self.early[pid] = os.open(self.proc.path(pid, "ns/mnt"), os.O_RDONLY | os.O_CLOEXEC)
        except OSError:
            pass

    def is_of(self, pid: int, view: int) -> None:
        """The number of the namespace that was taken at the last stop of a process."""
        if view != 0 and view not in self.handles and len(self.handles) < MOST and pid in self.early:
            self.handles[view] = self.early.pop(pid)
        self.drop(self.early, pid)

    def keep(self, pid: int, views: Collection[int]) -> None:
        """Lets go of what a process that has ended had, and of all namespaces but these."""
        self.drop(self.early, pid)
        for view in [each for each in self.handles if each not in views]:
            self.drop(self.roots, view)
            self.drop(self.handles, view)

    def top(self, view: int) -> bytes | None:
        """Where the files of a namespace can be looked up, None where it isn't held."""
        if view not in self.roots and view in self.handles:
            root = root_of(self.handles[view])
            if root is not None:
                self.roots[view] = root
        return b"/proc/self/fd/%d" % self.roots[view] if view in self.roots else None

    def close(self) -> None:
        """Gives back all."""
        for kept in (self.early, self.roots, self.handles):
            for key in list(kept):
                self.drop(kept, key)

    @staticmethod
    def drop(kept: dict[int, int], key: int) -> None:
        """Gives back one."""
        handle = kept.pop(key, None)
        if handle is not None:
            os.close(handle)


def root_of(handle: int) -> int | None:
    """The root of a mount namespace, as a place; None where it can't be entered. A thread enters it, whose folders are
    its own."""
    found: list[int] = []

    def enter() -> None:
        if LIBC.unshare(CLONE_FS) == 0 and LIBC.setns(handle, CLONE_NEWNS) == 0:
            found.append(os.open("/", os.O_PATH | os.O_DIRECTORY | os.O_CLOEXEC))

    thread = threading.Thread(target=enter)
    thread.start()
    thread.join()
    return found[0] if found else None
