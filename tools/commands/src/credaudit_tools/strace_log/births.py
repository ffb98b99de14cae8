"""Births whose answer hasn't come. A parent that waits in vfork(2), posix_spawn(3) or a clone(2) with CLONE_VFORK gets
its answer once the child has executed a file or ended: the child's lines stand before that in strace's log, and the
child may live as long as it likes.
"""
from collections.abc import Collection, Mapping

from ..formats import strace_lines
from ..formats.strace_lines import Call

NAMES = (b"fork", b"vfork", b"clone", b"clone3")


def under_way(front: bytes | None) -> Call | None:
    """The birth whose front strace told, without a result; None where it is another call."""
    if front is None or strace_lines.name_of(front) not in NAMES:
        return None
    return strace_lines.call_of(front.rstrip(strace_lines.BLANKS) + b") = ?")


def waiting(begun: Mapping[int, bytes | None], told: Collection[int]) -> dict[int, Call]:
    """By parents that wait for their child the births, but those that are told already."""
    found = {pid: under_way(front) for pid, front in begun.items() if pid not in told}
    return {pid: made for pid, made in found.items() if made is not None and waits(made)}


def waits(made: Call) -> bool:
    """Whether the parent of a birth waits for its child."""
    return made.name == b"vfork" or b"CLONE_VFORK" in (strace_lines.flags_of(made) or [])
