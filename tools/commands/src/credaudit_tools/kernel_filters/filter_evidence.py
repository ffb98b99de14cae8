"""What the kernel shows of filters of system calls at a recording's end, held against those of the log: whether what
calls answered is the kernel's own (docs/RECORDING.md, "Filters").

Where the kernel shows the filters themselves, those of each living thread must be the log's, in their order. Where it
shows how many there are alone, as many must stand, each installed while nobody else lived who could exchange it.
"""
from collections.abc import Collection, Mapping, Sequence

from ..command_line.printable import few, plural
from ..evidence.evidence import Evidence
from ..evidence.premises import ANSWERS, SECUREBITS
from ..filters.bpf import Program
from ..filters.log_filters import Filter, doubts_of
from ..formats.statuses import Status
from ..strace_log.followed_processes import Task
from .shown_filters import Shown

FILTER_MODE = 2                                  # Seccomp of proc_pid_status(5)
SET_SECUREBITS = "prctl(PR_SET_SECUREBITS)"
AFTERWARDS = "what its calls told may not have happened"


def has_filters(status: Status) -> bool:
    """Whether a thread has filters, by its status."""
    return status.seccomp == FILTER_MODE or bool(status.filters)


def of_end(tasks: Mapping[int, Task], statuses: Collection[Status], shown: Mapping[int, Shown],
           all_of_log: Sequence[Filter]) -> Evidence:
    """What is found: `tasks` by the log, `shown` what the kernel shows of the filters of those that have any, and all
    filters that the log ever told of, with those from before it."""
    found, known = Evidence(), {each.program for each in all_of_log}
    found.establish(ANSWERS, by_words(statuses, shown, all_of_log))
    found.establish(SECUREBITS, "each call that set them was the kernel's to answer, or a later one showed them")
    for status in statuses:
        task = tasks.get(status.pid)
        for text in () if task is None else of_thread(status, task.filters, shown.get(status.pid, ()), known):
            found.doubt(ANSWERS, text)
        for text in () if task is None else securebits_of(status, task, shown.get(status.pid, ())):
            found.doubt(SECUREBITS, text)
    for text in unresolved(all_of_log, tasks, shown):
        found.doubt(ANSWERS, text)
    return found


def of_thread(status: Status, told: Sequence[Filter], seen: Shown, known: set[Program | None]) -> list[str]:
    """What is doubtful of the filters of a living thread."""
    if not has_filters(status):
        return [f"process {status.pid} installed {plural(len(told), 'filter')} by the log, and has none at the end:"
                f" {AFTERWARDS}"] if told else []
    if isinstance(seen, str):
        return counted(status, told, seen)
    found = []
    if len(seen) != len(told):
        found.append(f"process {status.pid} has {plural(len(seen), 'filter')} of system calls, and by the log"
                     f" {len(told)}: {AFTERWARDS}")
    differing = [place for place, (one, other) in enumerate(zip(told, seen), 1)
                 if one.program is not None and one.program != other]
    if differing:
        found.append(f"filter {few([str(each) for each in differing])} of process {status.pid} isn't the one that"
                     f" strace read: it was exchanged meanwhile, and {AFTERWARDS}")
    return found + [f"process {status.pid} has a filter that {why}: {AFTERWARDS}" for program in dict.fromkeys(seen)
                    if program not in known for why in doubts_of(program)]


def counted(status: Status, told: Sequence[Filter], why: str) -> list[str]:
    """What is doubtful where the kernel tells how many filters there are, and not which."""
    if status.filters is not None and status.filters != len(told):
        return [f"process {status.pid} has {plural(status.filters, 'filter')} of system calls, and by the log"
                f" {len(told)}; the kernel doesn't show them: {why}"]
    shared = sorted({each.pid for each in told if not each.alone})
    if status.filters is None or shared:
        who = few([str(each) for each in shared or [status.pid]])
        return [f"process {who} installed a filter while others lived, which could exchange it as strace read it; the"
                f" kernel doesn't show which one stands: {why}"]
    return []


def unresolved(all_of_log: Sequence[Filter], tasks: Mapping[int, Task], shown: Mapping[int, Shown]) -> list[str]:
    """Filters from before the recording that nothing shows."""
    seen = {id(each) for tid, task in tasks.items() if isinstance(shown.get(tid), tuple) for each in task.filters}
    pids = sorted({each.pid for each in all_of_log if each.before and each.program is None and id(each) not in seen})
    if not pids:
        return []
    return [f"process {few([str(pid) for pid in pids])} had a filter of system calls before the recording began, which"
            f" the kernel doesn't show: {AFTERWARDS}"]


def by_words(statuses: Collection[Status], shown: Mapping[int, Shown], all_of_log: Sequence[Filter]) -> str:
    """What shows that the answers are the kernel's, where nothing is doubtful."""
    if not all_of_log and not any(map(has_filters, statuses)):
        return "no process had a filter of system calls"
    if not any(map(has_filters, statuses)):
        return "no filter of the log can answer one of its calls in the kernel's place, and none stood at the end"
    if any(isinstance(each, str) for each in shown.values()):
        return ("as many filters stood at the end as the log tells, each installed while nobody else lived, and none"
                " can answer a call of the log in the kernel's place")
    return ("the filters of system calls were read from the kernel at the end, and none can answer a call of the log"
            " in its place")


# ---- securebits ------------------------------------------------------------------------------------------------------


def securebits_of(status: Status, task: Task, seen: Shown) -> list[str]:
    """What is doubtful of the securebits of a living thread: a call that set them, which no later one showed, and whose
    answer may be a filter's. Filters are never taken away, so those of the end tell of all times before."""
    if task.securebits is None or not has_filters(status):
        return []
    from ..filters.filter_verdicts import fakes          # most recordings have no filter to be followed
    if not isinstance(seen, str) and SET_SECUREBITS not in fakes(seen):
        return []
    return [f"process {status.pid} has securebits by a call that answered 0 under a filter of system calls, and nothing"
            " confirms it: PR_GET_SECUREBITS after it would"]
