"""The program that a process has just executed, looked at while the process stands still: the file that the kernel
itself took (/proc/PID/exe, proc(5)), whatever the path was and whatever stands there later, and the script that
brought it there.

A script's file is found by the path that the kernel keeps for the process (AT_EXECFN, getauxval(3)). Its root and its
working directory are the process's own at that moment, so no mount namespace has to be known.
"""
import os
import re
import stat
import struct
from dataclasses import dataclass

from ..system.mounts import table
from ..system.proc import Proc
from ..system.program_rows import LEVELS, counts, interpreter_path
from ..system.running_kernel import front
from ..system.safe_open import ROOTED, mount_number, safe_open
from .looked_up import Found, found_of

AT_EXECFN = 31
PATH_MOST = 4096
DELETED = b" (deleted)"
NARROW, WIDE = "I", "Q"
CLASS_AT, CLASS_32 = 4, 1
DESCRIPTOR = re.compile(rb"/(?:dev|proc/self|proc/thread-self)/fd/([0-9]+)(?:/(.*))?", re.S)


@dataclass(frozen=True)
class NewProgram:
    """`path` and `found` are the program's, of a script its interpreter's; `script` is the script's path, None where
    the program was executed itself. `own` is false where a rule reads the program, and it lies on no mount of the
    process's mount namespace."""
    path: bytes
    found: Found
    own: bool = True
    script: bytes | None = None
    script_found: Found | None = None


def of_process(proc: Proc, pid: int) -> NewProgram | None:
    """The program of a process that stands still; None where the process is gone."""
    exe = os.fsencode(proc.path(pid, "exe"))
    try:
        handle = os.open(exe, os.O_PATH | os.O_CLOEXEC)
    except OSError:
        return None
    try:
        path, looking = plain_path(os.readlink(exe), handle), Looking(proc, pid)
        found = found_of(handle, path)
        own = not counts(found.program) or is_on_mount(proc, pid, handle)
        script = looking.script_of(found, handle)
        if path == b"/":        # a mount of the file alone, which is gone
            path = looking.spelled(found) or path
        return NewProgram(path, found, own) if script is None else NewProgram(path, found, own, *script)
    except OSError:
        return None
    finally:
        os.close(handle)


def plain_path(told: bytes, handle: int) -> bytes:
    """The path that a link of /proc tells, without the mark of one that is gone."""
    is_gone = told.endswith(DELETED) and os.fstat(handle).st_nlink == 0
    return told.removesuffix(DELETED) if is_gone else told


def is_on_mount(proc: Proc, pid: int, handle: int) -> bool:
    """Whether an open file lies on a mount that a process sees. The kernel takes set-id bits and capabilities from
    no other (KERNEL.md, "Which file gives the credentials")."""
    mounts = table(proc.read(pid, "mountinfo") or b"")
    return mount_number(handle) in [mount.number for mount in mounts]


def identity(handle: int) -> tuple[int, int]:
    """What tells a file from others."""
    kept = os.fstat(handle)
    return kept.st_dev, kept.st_ino


class Looking:
    """Paths as a process that stands still has them."""

    def __init__(self, proc: Proc, pid: int) -> None:
        self.proc, self.pid = proc, pid

    def script_of(self, found: Found, handle: int) -> tuple[bytes, Found] | None:
        """The path and the file of the script whose interpreter was executed, None where there was none, or where it
        can't be found any more: the credentials come from the program alone (execve(2))."""
        spelled = self.spelled(found)
        if spelled is None:
            return None
        try:
            file = self.opened(spelled)
        except (OSError, ValueError):
            return None
        try:
            if identity(file) == identity(handle) or not stat.S_ISREG(os.fstat(file).st_mode):
                return None
            path = os.readlink(b"/proc/self/fd/%d" % file)
            script = found_of(file, path)
            return (path, script) if self.leads_to(script.program.start, handle) else None
        except (OSError, ValueError):
            return None
        finally:
            os.close(file)

    def leads_to(self, start: bytes, handle: int) -> bool:
        """Whether a script with this first line is run by that program."""
        for _ in range(LEVELS):
            path = interpreter_path(start)
            if path is None:
                return False
            file = self.opened(path)
            try:
                if identity(file) == identity(handle):
                    return True
                start = front(file)
            finally:
                os.close(file)
        return False

    def opened(self, path: bytes) -> int:
        """A place, by a path as the process has it. ValueError where that begins outside of the process's root."""
        root = os.open(self.proc.path(self.pid, "root"), os.O_PATH | os.O_DIRECTORY | os.O_CLOEXEC)
        try:
            return safe_open(root, self.inside(path).lstrip(b"/"), os.O_PATH | os.O_CLOEXEC, ROOTED)
        finally:
            os.close(root)

    def inside(self, path: bytes) -> bytes:
        """A path that begins at the process's root."""
        by_descriptor = DESCRIPTOR.fullmatch(path)
        if by_descriptor is None and path.startswith(b"/"):
            return path
        name = "cwd" if by_descriptor is None else f"fd/{int(by_descriptor.group(1))}"
        rest = path if by_descriptor is None else by_descriptor.group(2) or b""
        above, root = (self.proc.link(self.pid, each) for each in (name, "root"))
        if above is None or root is None:
            raise ValueError("its folder isn't known")
        front, floor = os.fsencode(above), os.fsencode(root).rstrip(b"/")
        if front != floor and not front.startswith(floor + b"/"):
            raise ValueError("its folder lies outside of its root")
        return front[len(floor):] + (b"/" + rest if rest else b"")

    def spelled(self, found: Found) -> bytes | None:
        """The path that was executed, as the kernel keeps it; None where it can't be read."""
        size = NARROW if found.program.start[CLASS_AT:CLASS_AT + 1] == bytes([CLASS_32]) else WIDE
        data = self.proc.read(self.pid, "auxv") or b""
        count = len(data) // (2 * struct.calcsize(size)) * 2
        words = struct.unpack_from(f"{count}{size}", data)
        pairs = dict(zip(words[::2], words[1::2]))
        if AT_EXECFN not in pairs:
            return None
        try:
            memory = os.open(self.proc.path(self.pid, "mem"), os.O_RDONLY | os.O_CLOEXEC)
        except OSError:
            return None
        try:
            text, end, _ = os.pread(memory, PATH_MOST, pairs[AT_EXECFN]).partition(b"\0")
            return text if end else None
        except (OSError, OverflowError):
            return None
        finally:
            os.close(memory)
