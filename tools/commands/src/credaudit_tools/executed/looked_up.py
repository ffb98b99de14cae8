"""Files that are executed, as they are looked at: what each is itself, and the flags of its mount."""
import os
import stat
from dataclasses import dataclass

from ..system.kernel_questions import Program, Trouble
from ..system.running_kernel import executable
from ..system.safe_open import ROOTED, safe_open


@dataclass(frozen=True)
class Found:
    """An executed file: its mount's flags beside what it is itself."""
    program: Program
    flags: int


def found_of(handle: int, path: bytes) -> Found:
    """A file that was opened as a place. OSError where it can't be looked at."""
    return Found(executable(handle, path), os.fstatvfs(handle).f_flag)


def look_up(top: bytes, path: bytes) -> Found | Trouble:
    """The file of a path below `top`, through symbolic links that stay below it."""
    try:
        root = os.open(top or b"/", os.O_PATH | os.O_DIRECTORY | os.O_CLOEXEC)
    except OSError as error:
        return Trouble(path, error.strerror)
    try:
        handle = safe_open(root, path.lstrip(b"/"), os.O_PATH | os.O_CLOEXEC, ROOTED)
    except OSError as error:
        return Trouble(path, error.strerror)
    finally:
        os.close(root)
    try:
        if not stat.S_ISREG(os.fstat(handle).st_mode):
            return Trouble(path, "it is no regular file")
        return found_of(handle, path)
    except OSError as error:
        return Trouble(path, error.strerror)
    finally:
        os.close(handle)


def running(link: str, spelled: bytes) -> Found | None:
    """The file that a process executes now, by its link in /proc: also where the file's mount is gone meanwhile. None
    where it isn't called as what was spelled, as the interpreter of a script isn't, or can't be looked at."""
    try:
        told = os.fsencode(os.readlink(link)).removesuffix(b" (deleted)")
        handle = os.open(link, os.O_PATH | os.O_CLOEXEC)
    except OSError:
        return None
    try:
        if told.rpartition(b"/")[2] != spelled.rpartition(b"/")[2] or not stat.S_ISREG(os.fstat(handle).st_mode):
            return None
        return found_of(handle, spelled)
    except OSError:
        return None
    finally:
        os.close(handle)
