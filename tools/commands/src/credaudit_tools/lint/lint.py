"""A lint: the program's refusal in words, or, of what it accepts, what makes it suspect."""
from collections.abc import Callable, Iterator
from dataclasses import dataclass

from ..command_line.command import Failure, Says, silent
from ..command_line.files import read_regular
from ..doubts import log_doubts, world_doubts
from ..doubts.findings import LOG, WORLD, Finding, doubt
from ..evidence import evidence_text
from ..formats import worlds
from ..formats.report import Report
from ..replay.recording import Recording
from . import log_faults, other_faults, world_faults
from .world_faults import as_row

BAD_WORLD, BAD_LOG, UNREAD, LIMIT, IMPOSSIBLE, ACCEPTED = 4, 5, 7, 9, 3, 0


@dataclass
class Given:
    """What is looked at: two files by their paths, and of a recording what else it has."""
    world: str
    log: str
    recording: Recording | None = None


def form_of(data: bytes) -> str:
    """The form that a world says its log has."""
    try:
        told = worlds.table_of(data).get("log")
    except Failure:
        return "script"
    return "strace" if told == "strace" else "script"


def declared_pids(data: bytes) -> list[int]:
    """The pids that a world declares, also one that isn't accepted. Fails where it is no TOML."""
    rows = worlds.table_of(data).get("process", [])
    return [row["pid"] for row in map(as_row, rows) if isinstance(row.get("pid"), int)]


def refusal(report: Report, world: bytes, log: bytes, says: Says = silent) -> list[Finding]:
    """The last line of a report that doesn't accept. Of a line that the rules don't allow the cause may be another one,
    that was passed over."""
    told = report.ending[-1] if report.ending else ""
    if report.status == BAD_WORLD:
        return world_faults.faults(told, world)
    if report.status == BAD_LOG:
        return log_faults.faults(told, log, form_of(world))
    if report.status == LIMIT:
        return other_faults.limits(told)
    if report.status == IMPOSSIBLE:
        causes = log_doubts.of_strace(log, report, worlds.read(world), says) if form_of(world) == "strace" else []
        return [*other_faults.impossible(told, log, declared_pids(world)), *causes]
    return [Finding(LOG, None, f"the program ends with status {report.status}", told)]


def suspicion(report: Report, world: bytes, log: bytes, given: Given, says: Says) -> Iterator[Finding]:
    """What is odd of what the program accepts."""
    read, recording = worlds.read(world), given.recording
    try:
        yield from world_doubts.of_world(world, read, report, evidence_text.read_beside(given.world, world))
    except Failure as failure:
        yield doubt(WORLD, None, str(failure), failure.advice)
    if read.log == "strace":
        yield from log_doubts.of_strace(log, report, read, says)
        if recording is None:
            yield from log_doubts.living(log, report)
    else:
        yield from log_doubts.front_doubts(log, report)
    if recording is not None:
        yield from world_doubts.of_recording(recording, read, report)


def unread(given: Given) -> list[Finding]:
    """The files that can't be read, each with the reason. A pipe would keep the program waiting."""
    return [found for path, file in ((given.world, WORLD), (given.log, LOG))
            if (found := other_faults.unreadable(path, file)) is not None]


def findings(given: Given, replay: Callable[[], Report], says: Says = silent) -> list[Finding]:
    """All that is to be told of two files that can be read, and of what the program answers about them."""
    world, log = (read_regular(path, other_faults.LOG_MOST, follow=True) for path in (given.world, given.log))
    report = replay()
    if report.status != ACCEPTED:
        return refusal(report, world, log, says)
    return list(suspicion(report, world, log, given, says))
