"""The members of a captured family as rows of a world, and what isn't known of them."""
from collections.abc import Iterator
from dataclasses import replace

from ..command_line.printable import few
from ..formats import worlds
from ..system.kernel_questions import Kernel
from .family import Family, Thread
from .freezer import groups_of


# ---- rows ------------------------------------------------------------------------------------------------------------


def heads(family: Family) -> dict[int, Thread]:
    """Of each process the thread that stands for it: its leader, or the first one that lives where that has ended."""
    found: dict[int, Thread] = {}
    for tid in sorted(family.threads):
        thread = family.threads[tid]
        if tid == thread.listed.pid or thread.listed.pid not in found:
            found[thread.listed.pid] = thread
    return found


def in_order(family: Family) -> list[tuple[Thread, int | None]]:
    """The threads and the parent of each, parents first. Of a process its first thread is the others' parent, since the
    kernel doesn't tell which thread made one."""
    leading = heads(family)
    children: dict[int, list[int]] = {}
    for pid, head in leading.items():
        children.setdefault(head.listed.parent, []).append(pid)
    tops = [pid for pid, head in leading.items() if pid == family.root or head.listed.parent not in leading]
    found: list[tuple[Thread, int | None]] = []
    waiting: list[tuple[int, int | None]] = [(pid, None) for pid in tops]
    for pid, parent in waiting:
        head = leading[pid]
        found.append((head, parent))
        found += [(thread, head.listed.tid) for tid, thread in sorted(family.threads.items())
                  if thread.listed.pid == pid and tid != head.listed.tid]
        waiting += [(child, head.listed.tid) for child in sorted(children.get(pid, [])) if child != family.root]
    return found


def process_rows(family: Family, names: dict[int, str]) -> list[worlds.Process]:
    """The rows of all threads, parents first; `names` has the names of their namespaces."""
    return [worlds.Process(pid=thread.listed.tid, parent=parent, space=names[thread.user],
                           credential=replace(thread.status.credential, sec=0)) for thread, parent in in_order(family)]


def merged(rows: list[worlds.Process]) -> list[worlds.Process]:
    """Of equal members the first: what a copy of it can do, it can do by a fork."""
    kept: dict[tuple[object, ...], worlds.Process] = {}
    stands_for: dict[int | None, int | None] = {None: None}
    for row in rows:
        same = kept.setdefault((row.credential, row.space), replace(row, parent=stands_for[row.parent]))
        stands_for[row.pid] = same.pid
    return list(kept.values())


# ---- what isn't known ------------------------------------------------------------------------------------------------


def filtered(family: Family) -> list[str]:
    """The threads with filters of system calls."""
    return [f"{tid} ({thread.status.filters})" for tid, thread in sorted(family.threads.items())
            if thread.status.seccomp or thread.status.filters]


def beside(kernel: Kernel, family: Family) -> list[str]:
    """Who is in the control group of the asked process and doesn't descend from it."""
    proc, own = kernel.proc, groups_of(kernel.proc, family.root)
    if all(group == "/" for group in own.values()):
        return []
    inside = set(family.processes()) | {kernel.reader}
    return [str(pid) for pid in proc.pids() if pid not in inside and groups_of(proc, pid) == own]


def process_notes(kernel: Kernel, family: Family) -> Iterator[str]:
    """What isn't known of the members, and what was left out."""
    yield "not known: securebits, which a process tells of itself alone; none are taken to be set, which allows more"
    have = filtered(family)
    if have:
        yield (f"not known: what the filters of system calls exclude, of process {few(have)} (how many of them); no"
               " [filter] is declared")
    root = family.threads.get(family.root)
    if root is None:
        first = min(tid for tid, thread in family.threads.items() if thread.listed.pid == family.root) \
            if family.root in heads(family) else None
        instead = f"; ask for {first}" if first else ""
        yield f"left out: the first thread of process {family.root}, which has ended{instead}"
    others = beside(kernel, family)
    if others:
        yield f"left out: process {few(others)}, in the same control group, but not descended from {family.root}"
    yield "left out: this command itself; descendants whose parent had ended before, if another process took them over"
