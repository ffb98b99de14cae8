"""What makes a world, or a recording, suspect that the program accepts: what it may leave out of the family and its
files."""
from collections.abc import Iterator, Sequence

from ..command_line.printable import few, quoted
from ..evidence.evidence import Evidence
from ..evidence.premises import SCAN
from ..formats.report import Report
from ..formats.statuses import Status
from ..formats.toml_places import Places, places
from ..formats.worlds import World
from ..replay.end_world import births_of
from ..replay.recording import FORMAT, Recording, altered
from .findings import RECORDING, WORLD, Finding, doubt, note

INTERPRETERS = ("sh", "bash", "dash", "perl", "python", "ruby", "node", "php", "lua", "tclsh", "awk")


def is_interpreter(path: str) -> bool:
    """Whether a path is that of a program that runs scripts."""
    name = path.rpartition("/")[2]
    return name.rstrip("0123456789.") in INTERPRETERS


def of_world(data: bytes, world: World, report: Report, evidence: Evidence | None) -> Iterator[Finding]:
    """Doubts about an accepted world, with the report of a log in it."""
    yield from of_evidence(evidence)
    yield from of_rows(data, world, report)


def of_evidence(evidence: Evidence | None) -> Iterator[Finding]:
    """What stands beside a world: whether a scan made it, and the doubts of who made it."""
    if evidence is None or SCAN not in evidence.established:
        yield note(WORLD, None,
                   "nothing says that all files were looked for: a `yes` holds by the family's own calls alone",
                   "credaudit-capture looks for all programs with set-id bits or capabilities", scan=True)
    for each in evidence.doubts if evidence is not None else []:
        yield doubt(WORLD, None, each.text(), "the doubt of who made the world")


def of_rows(data: bytes, world: World, report: Report) -> Iterator[Finding]:
    """What is doubtful of the rows of an accepted world."""
    where = places(data.decode("utf-8", "replace").removeprefix("\ufeff"))
    yield from process_doubts(world, where)
    yield from file_doubts(world, where)
    yield from path_doubts(world, where, report)
    if world.exclude is not None and (len(world.processes) > 1 or not world.exclude):
        yield doubt(WORLD, where.line("filter", 0),
                    "[filter] holds for every process of the family, on all its paths and for all"
                    " architectures", "declare what each of them has, or nothing")


def process_doubts(world: World, where: Places) -> Iterator[Finding]:
    """What is doubtful of the processes."""
    alone = [number for number, row in enumerate(world.processes, 1) if row.parent is None]
    if len(alone) > 1:
        pids = [str(world.processes[number - 1].pid) for number in alone[1:]]
        yield doubt(WORLD, where.line("process", alone[1]),
                    f"process {few(pids)} has no parent, so it is in no other's family",
                    "parent = the pid of the process that made it; a thread has its process's first thread as parent")
    if world.spaces and all(row.space == "init" for row in world.processes):
        yield doubt(WORLD, where.line("space", 1), "user namespaces are declared, and no process stands in one",
                    "space = its name, in each process that does (`ls -l /proc/PID/ns/user`)")


def file_doubts(world: World, where: Places) -> Iterator[Finding]:
    """What is doubtful of the files and the mounts."""
    named = {row.interpreter for row in world.files}
    for number, row in enumerate(world.files, 1):
        privileged = row.caps is not None or row.mode & 0o6000
        if privileged and is_interpreter(row.path) and row.path not in named:
            yield doubt(WORLD, where.line("file", number),
                        f"{row.path} interprets scripts and has set-id bits or an attribute, and no script names it",
                        "a script runs with what its interpreter has: interpreter = its path")
    for number, mount in enumerate(world.mounts, 1):
        if mount.nosuid and any(row.mount == mount.name and (row.caps or row.mode & 0o6000) for row in world.files):
            yield doubt(WORLD, where.line("mount", number),
                        f"set-id programs are declared on {mount.name}, where they have no"
                        " effect", "see that no other mount shows them without nosuid (/proc/PID/mountinfo)")


def path_doubts(world: World, where: Places, report: Report) -> Iterator[Finding]:
    """Declared paths that begin at no root, and that the log doesn't execute so."""
    executed = {event.arguments[0] for event in report.events if event.call == "execve" and event.arguments}
    for number, row in enumerate(world.files, 1):
        if not row.path.startswith("/") and row.path not in executed:
            yield doubt(WORLD, where.line("file", number, "path"),
                        f"the path {quoted(row.path)} doesn't begin with /, so it isn't the file that the log"
                        " executes by its whole path", "the whole path, or the very text of the log's execve")


# ---- recordings ------------------------------------------------------------------------------------------------------


def of_recording(recording: Recording, world: World, report: Report) -> Iterator[Finding]:
    """Doubts that need what was read before strace let go."""
    alive = report.alive()
    shown_pids = {status.pid for status in recording.statuses}
    missing, ended = sorted(shown_pids - alive.keys()), sorted(alive.keys() - shown_pids)
    if missing:
        yield doubt(RECORDING, None,
                    f"process {few([str(pid) for pid in missing])} lived at the end, and neither the world nor the log"
                    " has it", "a child or a thread is left out: declare it, with its parent")
    if ended and recording.statuses:
        yield doubt(RECORDING, None,
                    f"process {few([str(pid) for pid in ended])} lives by the log, and wasn't there at the end",
                    "lines of exits are missing (-qq), or the log is cut")
    for pids in families(world, report):
        yield from filter_doubts([status for status in recording.statuses if status.pid in pids], world)
    yield from space_doubts(recording, report)
    for told in recording.made.doubts if recording.made is not None else []:
        yield doubt(RECORDING, None, told.text(), "the recorder's own doubt: recording.toml")
    if recording.made is not None and recording.made.format != FORMAT:
        yield doubt(RECORDING, None, "recording.toml is of an older form: nothing tells what was established",
                    "record anew; until then no right of it is called gone")
    for altered_one in altered(recording):
        yield doubt(RECORDING, None, altered_one, "record anew; what was altered can't be told")


def families(world: World, report: Report) -> list[list[int]]:
    """The families that live at a log's end, each by its first process: those from which no living one descends."""
    births = births_of(world, report)
    return [births.family(pid) for pid in report.alive() if births.parents.get(pid) is None]


def filter_doubts(statuses: Sequence[Status], world: World) -> Iterator[Finding]:
    """What is doubtful of a declared filter, by what the kernel showed of those of one family."""
    counts: dict[tuple[int | None, int | None], list[str]] = {}
    for status in statuses if world.exclude is not None else []:
        counts.setdefault((status.seccomp, status.filters), []).append(str(status.pid))
    if len(counts) > 1:
        told = "; ".join(f"{filters or 0} of process {few(pids)}" for (_, filters), pids in counts.items())
        yield doubt(RECORDING, None, f"the members have different filters of system calls: {told}",
                    "the world's [filter] would hold for all of them: leave it out")
    elif counts and all(status.filters in (None, 0) for status in statuses):
        yield doubt(RECORDING, None, "the world declares a [filter], and the kernel showed none", "leave [filter] out")


def space_doubts(recording: Recording, report: Report) -> Iterator[Finding]:
    """Who stands elsewhere for the kernel than in the replay."""
    alive = report.alive()
    odd = [str(status.pid) for status in recording.statuses
           if status.pid in alive and (status.space == 0) != (alive[status.pid].space == "init")]
    if odd:
        yield doubt(RECORDING, None, f"process {few(odd)} stands in another user namespace than by the log",
                    "space of its row, or the line of its unshare, clone or setns is missing")
