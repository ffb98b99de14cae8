"""The program at its start: a process that is the program's user already, and has stopped right before it executes
it."""
import ctypes
import os
import pwd
import shutil
import signal
import struct
from collections.abc import Callable, Collection, Sequence

from ..command_line.command import Failure
from ..command_line.printable import quoted

PR_SET_PDEATHSIG, PR_GET_SECUREBITS, PR_SET_CHILD_SUBREAPER, PR_SET_NO_NEW_PRIVS = 1, 27, 36, 38


def prctl(option: int, value: int = 0) -> int:
    """prctl(2)."""
    return int(ctypes.CDLL(None, use_errno=True).prctl(option, value, 0, 0, 0))


def user_of(name: str) -> pwd.struct_passwd:
    """A user by name or number."""
    try:
        return pwd.getpwuid(int(name)) if name.isascii() and name.isdigit() else pwd.getpwnam(name)
    except KeyError as error:
        raise Failure(f"there is no user {quoted(name)}") from error


def own_groups(own: Collection[int], of_root: Collection[int]) -> list[int]:
    """The supplementary groups of this command that root doesn't have: it was given them, as by setpriv(1), and hands
    all of its own on. Where there are none, nothing is handed on."""
    return sorted(own) if set(own) - set(of_root) else []


def groups_of(entry: pwd.struct_passwd) -> list[int]:
    """The supplementary groups with which the program of a user begins: those that this command was given, else the
    user's (initgroups(3))."""
    return own_groups(os.getgroups(), os.getgrouplist("root", 0)) or os.getgrouplist(entry.pw_name, entry.pw_gid)


def begin(words: Sequence[str], user: str | None, without: Collection[int] = (),
          note: Callable[[int], None] = lambda _: None) -> tuple[int, int]:
    """A process that is the program's user and has stopped right before it executes the program: its pid and
    securebits. It doesn't have the descriptors of `without`; `note` is told of it as soon as it is there."""
    path = shutil.which(words[0]) if "/" not in words[0] else words[0]
    if path is None or not os.path.exists(path):
        raise Failure(f"{quoted(words[0])} can't be executed: it isn't there")
    entry = None if user is None else user_of(user)
    reading, writing = os.pipe()
    pid = os.fork()
    if pid == 0:
        for handle in without:
            os.close(handle)
        become(path, words, entry, writing)
    note(pid)
    os.close(writing)
    with os.fdopen(reading, "rb") as told:
        bits = told.read(4)
    _, status = os.waitpid(pid, os.WUNTRACED)
    if len(bits) != 4 or not os.WIFSTOPPED(status):
        raise Failure(f"a process of the user {quoted(user or 'root')} can't be made")
    return pid, int(struct.unpack("i", bits)[0])


def become(path: str, words: Sequence[str], entry: pwd.struct_passwd | None, writing: int) -> None:
    """In the child: takes the user's ids, says its securebits, stops, and executes the program. Never returns."""
    try:
        for number in (signal.SIGINT, signal.SIGTERM, signal.SIGPIPE, signal.SIGXFSZ):
            signal.signal(number, signal.SIG_DFL)
        if entry is not None:
            os.setgroups(groups_of(entry))
            os.setresgid(entry.pw_gid, entry.pw_gid, entry.pw_gid)
            os.setresuid(entry.pw_uid, entry.pw_uid, entry.pw_uid)
        os.write(writing, struct.pack("i", prctl(PR_GET_SECUREBITS)))
        os.close(writing)
        os.kill(os.getpid(), signal.SIGSTOP)
        os.execv(path, list(words))
    finally:
        os._exit(127)
