"""Rings of io_uring(7): what acts for a process without a call that a tracer sees, also by the credentials of an
earlier time (io_uring_register(2), IORING_REGISTER_PERSONALITY).

A ring shows by a descriptor, by its memory, or by a thread of its own. Such a thread runs in the kernel alone: it makes
no calls, and can't be traced.
"""
from collections.abc import Iterator, Sequence

from .proc import Proc, stat_words

RING = "anon_inode:[io_uring]"
FLAGS_AT = 6                                    # in proc_pid_stat(5), behind the name
IO_WORKER, USER_WORKER = 0x00000010, 0x00004000     # PF_ of the kernel's sched.h; the second since Linux 6.4


def flags_of(proc: Proc, tid: int) -> int:
    """The kernel's flags of a thread, 0 where they aren't shown."""
    data = proc.read(tid, "stat")
    try:
        words = [] if data is None else stat_words(data)
        return int(words[FLAGS_AT]) if len(words) > FLAGS_AT else 0
    except ValueError:
        return 0


def is_kernels_own(proc: Proc, tid: int) -> bool:
    """Whether a thread of a process runs in the kernel alone. One that ended meanwhile may have been one."""
    return bool(flags_of(proc, tid) & (IO_WORKER | USER_WORKER)) or proc.read(tid, "stat") is None


def is_of_ring(proc: Proc, tid: int) -> bool:
    """Whether a thread is that of a ring."""
    return bool(flags_of(proc, tid) & IO_WORKER)


def marks_of_process(proc: Proc, tid: int, tasks: Sequence[int]) -> Iterator[str]:
    """By what a process of these threads shows that a ring acts for it, beside descriptors."""
    maps = proc.read(tid, "maps") or b""
    if any(line.endswith(b" " + RING.encode()) for line in maps.split(b"\n")):
        yield "memory"
    if any(is_of_ring(proc, task) for task in tasks):
        yield "a thread"


def doubts(proc: Proc, tids: Sequence[int], when: str) -> list[str]:
    """Of each thread that has a ring a doubt; what its whole process has is told of the first of them. `when` says at
    which moment it was looked at."""
    found, known = [], set[int]()
    for tid in tids:
        marks = ["a descriptor"] if RING in proc.descriptors(tid).values() else []
        if tid not in known:
            tasks = proc.tasks(tid)
            known.update(tasks)
            marks += marks_of_process(proc, tid, tasks)
        if marks:
            found.append(f"process {tid} has a ring of io_uring {when}, by {' and '.join(marks)}: what that does isn't"
                         " seen")
    return found
