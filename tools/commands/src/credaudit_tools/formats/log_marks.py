"""What a log's lines say of processes that no event has, and that rows of docs/KERNEL.md look at: who shares the root
and the working directory with another process, who has threads beside it, who asked whether a file may be executed
(clone(2), execveat(2)).
"""
from . import strace_lines

SHARED, THREAD, CHECKED = "shared", "thread", "checked"
FRONTS = (b"clone", b"execveat(")
EXECVE_CHECK = 0x10000      # AT_EXECVE_CHECK, since Linux 6.14; strace of before writes its number
Marks = dict[int, set[str]]


def is_check(made: strace_lines.Call) -> bool:
    """Whether a call only asks whether a file may be executed (execveat(2)): a kernel that doesn't know the flag
    refuses it."""
    told = made.arguments[4] if made.name == b"execveat" and len(made.arguments) > 4 else b""
    return any(word == b"AT_EXECVE_CHECK" or (word.startswith(b"0x") and int(word, 16) & EXECVE_CHECK)
               for word in strace_lines.words(strace_lines.COMMENT.sub(b"", told)))


def of_log(log: bytes) -> Marks:
    """By pid what is said of each process."""
    found: Marks = {}
    for line in log.split(b"\n"):
        parts = strace_lines.parted(line) if any(front in line for front in FRONTS) else None
        made = strace_lines.call_of(parts[1]) if parts is not None else None
        if parts is None or made is None or made.done is None:
            continue
        if is_check(made):
            found.setdefault(parts[0], set()).add(CHECKED)
        flags = strace_lines.flags_of(made) or [] if made.name.startswith(b"clone") else []
        marks = {THREAD} if b"CLONE_THREAD" in flags else {SHARED} if b"CLONE_FS" in flags else set()
        for pid in (parts[0], made.done) if marks else ():
            found.setdefault(pid, set()).update(marks)
    return found
