"""Where in a log the world's [filter] begins to count. It binds the calls after the log (docs/FORMATS.md, "World"), so
it does at the log's end; before that it counts where each member, or a forebear before the birth, has a line that
installs a filter of system calls (seccomp(2)): what a process has its children have, also after an execve.

Such a line stands among the events, and so does the log's end where other lines stand behind the last event: moments at
which rights may go, though nobody becomes another one there. Of several lines of a process the last one counts.
"""
from collections.abc import Iterator

from .log_filters import installing
from ..formats import marked_calls, strace_lines
from ..formats.report import Event, Report
from ..formats.worlds import World

INSTALLS, ENDS = "seccomp", "[filter]"      # how both stand among the events
NOBODY = 0
INSTALLED = "0"
FRONTS = (b"seccomp(", b"prctl(PR_SET_SECCOMP")


def of_script(log: bytes) -> Iterator[tuple[int, int]]:
    """The marks of seccomp(2) that a script has, each a line and a process."""
    return ((mark.line, mark.pid) for mark in marked_calls.of_log(log, "script")
            if mark.call == INSTALLS and mark.result.isdigit())


def of_strace(log: bytes) -> Iterator[tuple[int, int]]:
    """The lines of strace's that install a filter: whole ones, since another doesn't tell what it did."""
    for number, line in enumerate(log.split(b"\n"), 1):
        parts = strace_lines.parted(line) if any(front in line for front in FRONTS) else None
        made = None if parts is None else strace_lines.call_of(parts[1])
        if parts is not None and made is not None and installing(made) is not None:
            yield number, parts[0]


def count(log: bytes) -> int:
    """How many lines a log has."""
    return len(log.removesuffix(b"\n").split(b"\n")) if log else 0


def events_with_filter(world: World, report: Report, log: bytes) -> list[Event]:
    """The events of an accepted replay, and where the world's filter excludes something those lines."""
    if not world.exclude:
        return report.events
    lines = list((of_strace if world.log == "strace" else of_script)(log))
    found, reached = list[Event](), 0
    for event in report.events:
        reached = max(reached, event.line)
        while lines and lines[0][0] < reached:
            found.append(installed(*lines.pop(0)))
        found.append(event)
    found += [installed(*each) for each in lines]
    if max(reached, found[-1].line if found else 0) < count(log):
        found.append(Event(count(log), NOBODY, ENDS, (), INSTALLED, ()))
    return found


def installed(line: int, pid: int) -> Event:
    """The event of a line that installs a filter."""
    return Event(line, pid, INSTALLS, (), INSTALLED, ())
