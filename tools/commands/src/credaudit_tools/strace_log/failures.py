"""Failed calls of which no rule speaks (RULES.md, "Errors from outside"): an error that no line of a log may name
(FORMATS.md), or one whose cause a line doesn't have. A reader refuses them, though they are true.

A call that failed changed nothing, so such a line is left out. What a rule speaks of stays: it shows where the replay
isn't what happened. A success is never left out here.
"""
import re
from collections.abc import Callable

from ..formats.plain_log import FOLDER_ERRORS, OUTSIDE, RULED
from ..formats.strace_lines import Call

BIRTHS = (b"fork", b"vfork", b"clone", b"clone3")
EXECUTIONS = (b"execve", b"execveat")
IDS = tuple(b"set" + name for name in (b"uid", b"reuid", b"resuid", b"gid", b"regid", b"resgid"))
ERROR = re.compile(rb"-1 (E[A-Z0-9]+)(?![A-Z0-9])")
NOTHING = re.compile(rb"0(?:x0)?|NULL")
PAGE = 4096
# From which argument on each option of prctl has words that must be 0 (PR_SET_NO_NEW_PRIVS(2const),
# PR_CAP_AMBIENT(2const)).
SPARE = {b"PR_SET_NO_NEW_PRIVS": 2, b"PR_CAP_AMBIENT": 3}


def error_of(made: Call) -> bytes | None:
    """The error of a call that failed; None of any other."""
    found = ERROR.match(made.result)
    return found.group(1) if found else None


def of_space(_pid: int, _made: Call, error: bytes) -> bool:
    """A birth, an unshare, a setns."""
    return error not in OUTSIDE + RULED + (b"ENOSPC",)


def of_sets(pid: int, made: Call, error: bytes) -> bool:
    """capset(2): of another process, or in a version that there isn't. The rules have the caller's own sets alone."""
    header = made.arguments[0] if made.arguments else b""
    told = re.search(rb"\bpid=([0-9]+)", header)
    return error not in (*OUTSIDE, b"EPERM") or told is None or int(told.group(1)) not in (0, pid)


def of_option(_pid: int, made: Call, error: bytes) -> bool:
    """prctl(2) with words that must be 0, and aren't."""
    option = made.arguments[0] if made.arguments else b""
    spare = SPARE.get(option)
    if made.arguments[:2] == (b"PR_CAP_AMBIENT", b"PR_CAP_AMBIENT_CLEAR_ALL"):
        spare = 2
    return error == b"EINVAL" and spare is not None and not all(map(NOTHING.fullmatch, made.arguments[spare:]))


def of_execution(_pid: int, _made: Call, error: bytes) -> bool:
    """execve and execveat, as EINVAL of flags. EPERM is the attribute's, where the file has one (executions.py)."""
    return error not in (*OUTSIDE, *FOLDER_ERRORS, b"EPERM")


def of_ids(_pid: int, _made: Call, error: bytes) -> bool:
    """The calls that set ids and groups."""
    return error not in OUTSIDE + RULED


KINDS: dict[bytes, Callable[[int, Call, bytes], bool]] = {
    **dict.fromkeys((*BIRTHS, b"unshare", b"setns"), of_space), b"capset": of_sets, b"prctl": of_option,
    **dict.fromkeys(EXECUTIONS, of_execution), **dict.fromkeys((*IDS, b"setgroups"), of_ids)}


def is_judged(made: Call) -> bool:
    """Whether a call failed of which a rule may speak."""
    return made.name in KINDS and error_of(made) is not None


def is_unspoken(pid: int, made: Call) -> bool:
    """Whether a call of a process failed in a way of which no rule speaks."""
    error, kind = error_of(made), KINDS.get(made.name)
    return error is not None and kind is not None and kind(pid, made, error)


def is_unspoken_write(made: Call, length: int, written: bool) -> bool:
    """Whether a write of a map or of the setgroups word of so many bytes failed in such a way: at another place of the
    file than its front, as behind what was `written` before, or for its length (user_namespaces(7))."""
    error = error_of(made)
    if error == b"EINVAL":
        return made.name.startswith(b"pwrite") or length >= PAGE or written
    return error is not None and error not in (*OUTSIDE, b"EPERM")
