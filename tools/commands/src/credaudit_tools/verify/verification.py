"""Holds a recording's replay against what the kernel showed: each process that lived at the end, its user namespace,
and each answer to a call that asks. The replay is the program's own.
"""
import re
from dataclasses import dataclass, field

from ..command_line.command import Says, silent
from ..command_line.printable import plural, shown
from ..evidence import kernel_page_rows
from ..evidence.evidence import Evidence
from ..evidence.kernel_page_rows import Made
from ..evidence.premises import CREDENTIALS, MAPS, RECORDING
from ..formats import log_marks, report, strace_lines, worlds
from ..formats.credential import WORDS, differences
from ..formats.log_marks import Marks
from ..formats.report import Report, Standing
from ..formats.statuses import Status
from ..formats.worlds import INITIAL
from ..replay import recording
from ..replay.recording import Recording, SpaceSeen
from ..replay.spaces_of_report import SpacesTold, joined, map_words, of_world
from . import asking_calls
from .asking_calls import At

STEP = 4096                     # lines between two words of progress
IMPOSSIBLE = 3                  # the program's status of a log that its rules refuse


@dataclass
class Verdict:
    """What was compared and what differs, each difference in a line."""
    differences: list[str] = field(default_factory=list)
    notes: list[str] = field(default_factory=list)
    processes: int = 0
    answers: int = 0
    unread: int = 0         # answers that can't be compared
    lived: bool = False     # a process lived at the end, for the kernel or in the replay
    refused: bool = False   # the replay doesn't come to the log's end
    stopped: bool = False   # the recording ended before what the kernel showed at the end
    evidence: Evidence = field(default_factory=Evidence)

    def no_process(self) -> str:
        """Why no process was compared."""
        if self.stopped:
            return "the recording stopped before the end"
        return "none lived both for the kernel and in the replay" if self.lived else "none lived at the end"

    def no_answer(self) -> str:
        """Why no answer was compared."""
        return "their form isn't known" if self.unread else "no call asked for a credential"

    def nothing(self) -> str | None:
        """Why nothing was compared; None where something was."""
        if self.refused:
            return "the replay doesn't come to the log's end"
        if self.processes or self.answers:
            return None
        return f"processes: {self.no_process()}; answers: {self.no_answer()}"

    def faults(self) -> list[str]:
        """The differences; where there are none, and nothing was compared, that."""
        why = self.nothing()
        return self.differences or ([] if why is None else [f"nothing was compared: {why}"])

    def compared(self) -> str:
        """What was compared, and why nothing of a kind was."""
        why = self.nothing()
        if why is not None:
            return f"nothing was compared ({why})"
        if not self.answers:
            return f"{plural(self.processes, 'process')} compared, no answers ({self.no_answer()})"
        if not self.processes:
            return f"{plural(self.answers, 'answer')} compared, no processes ({self.no_process()})"
        return f"{plural(self.processes, 'process')}, {plural(self.answers, 'answer')} compared"


@dataclass
class Replayed:
    """A replay, with the state at its end and of each process its events; `foreign` are those that executed a program
    of another mount namespace."""
    standing: dict[int, Standing]
    spaces: SpacesTold
    history: dict[int, list[Made]]
    foreign: frozenset[int] = frozenset()
    marks: Marks = field(default_factory=dict)

    def row(self, pid: int, name: str, told: str, seen: str) -> str | None:
        """The row of docs/KERNEL.md for a field of a process that differs."""
        if pid in self.foreign:
            return kernel_page_rows.FOREIGN
        return kernel_page_rows.of_field(name, self.history.get(pid, []), told, seen, self.marks.get(pid, ()))


def changed_at(history: list[Made], field: str | None = None) -> str:
    """Where a process changed last, or a field of it."""
    lines_of_change = [made.event.line for made in history if field is None or changes(made, field)]
    return f"last changed at line {lines_of_change[-1]}" if lines_of_change else "as the world declares it"


def changes(made: Made, field: str) -> bool:
    """Whether an event left its caller another field, or gave birth to the process."""
    if made.before is None or not made.event.after:
        return True
    return bool(getattr(made.before.credential, field) != getattr(made.event.after[0].credential, field))


# ---- the log ---------------------------------------------------------------------------------------------------------


def through(kept: Recording, told: Report, verdict: Verdict, says: Says) -> Replayed:
    """Goes through the log beside the replay, and compares each answer at its line."""
    now = Replayed({one.pid: one for one in told.start}, of_world(worlds.read(kept.world)),
                   {one.pid: [] for one in told.start}, foreign_of(kept), log_marks.of_log(kept.log))
    events = iter(told.events)
    event = next(events, None)
    log = kept.log.split(b"\n")[:-1]
    for number, line in enumerate(log, 1):
        if number % STEP == 0:
            says(f"{number} of {len(log)} lines compared")
        event_here = event is not None and event.line == number
        while event is not None and event.line <= number:
            take(now, event)
            event = next(events, None)
        if not event_here:
            compare_answer(now, number, line, verdict)
    while event is not None:
        take(now, event)
        event = next(events, None)
    return now


def foreign_of(kept: Recording) -> frozenset[int]:
    """The processes that executed a program of another mount namespace, by the recorder's doubts."""
    doubts = [each.why for each in (kept.made.doubts if kept.made else [])
              if each.why.startswith(kernel_page_rows.FOREIGN)]
    return frozenset(int(found.group(1)) for why in doubts if (found := re.search(r"process ([0-9]+) executed", why)))


def take(now: Replayed, event: report.Event) -> None:
    """Takes the replay past an event."""
    before = now.standing.get(event.pid)
    now.spaces.turn(event, before)
    now.history.setdefault(event.pid, []).append(Made(event, before))
    for one in event.after[1:]:
        now.history[one.pid] = [Made(event, None)]
    report.turn(now.standing, event)


def compare_answer(now: Replayed, number: int, line: bytes, verdict: Verdict) -> None:
    """Compares what a line's call answered."""
    found = strace_lines.parted(line)
    if found is None:
        return
    pid, body = found
    differing = asking_calls.compared(At(now.standing, now.spaces, pid), body)
    if differing is None:
        made = strace_lines.call_of(body) if strace_lines.name_of(body) in asking_calls.ASKING else None
        answered = made is not None and made.done is not None and b"NULL" not in made.arguments
        verdict.unread += answered and strace_lines.name_of(body) != b"prctl"
        return
    verdict.answers += 1
    for each in differing:
        verdict.differences.append(with_row(
            f"process {pid}, {each.field}, line {number}: the replay has {each.told}, the kernel answered {each.seen}",
            now.row(pid, each.name, each.told, each.seen)))


def with_row(text: str, row: str | None) -> str:
    """A difference, with the row of docs/KERNEL.md that fits."""
    return text if row is None else f"{text} (known: {row})"


# ---- what lived at the end -------------------------------------------------------------------------------------------


def compare_processes(kept: Recording, now: Replayed, verdict: Verdict) -> None:
    """Who lives, and with what."""
    shown_ones = {status.pid: status for status in kept.statuses}
    verdict.lived = bool(shown_ones or now.standing)
    if len(shown_ones) != len(kept.statuses):
        verdict.differences.append(f"{recording.STATUS} has a process twice")
    for pid in sorted(set(shown_ones) - set(now.standing)):
        name = shown(shown_ones[pid].name)
        verdict.differences.append(f"process {pid} ({name}) lived for the kernel, and doesn't in the replay")
    for pid in sorted(set(now.standing) - set(shown_ones)):
        verdict.differences.append(f"process {pid} lives in the replay, and didn't for the kernel;"
                                   f" {changed_at(now.history.get(pid, []))}")
    for pid in sorted(set(now.standing) & set(shown_ones)):
        verdict.processes += 1
        compare_one(shown_ones[pid], now, verdict)


def compare_one(status: Status, now: Replayed, verdict: Verdict) -> None:
    """One process that lives on both sides."""
    history = now.history.get(status.pid, [])
    for name, told, seen in differences(now.standing[status.pid].credential, status.credential):
        verdict.differences.append(with_row(
            f"process {status.pid} ({shown(status.name)}), {WORDS[name]}: the replay has {told}, the kernel showed"
            f" {seen}; {changed_at(history, name)}", now.row(status.pid, name, told, seen)))


def compare_spaces(kept: Recording, now: Replayed, verdict: Verdict) -> None:
    """Which processes stand in one namespace, and of each namespace what the kernel showed."""
    pairs = {(INITIAL, 0)}
    for status in kept.statuses:
        if status.pid in now.standing:
            pairs.add((now.standing[status.pid].space, status.space))
    for side in (0, 1):
        doubled = [pair for pair in sorted(pairs) if sum(other[side] == pair[side] for other in pairs) > 1]
        if doubled:
            verdict.differences.append("user namespaces: " + ", ".join(
                f"{name} of the replay is {number} for the kernel" for name, number in doubled))
            return
    if kept.spaces is None:
        if len(pairs) > 1:
            verdict.notes.append("the recording doesn't tell the maps of its user namespaces: they aren't compared")
        return
    others = f"{plural(len(kept.spaces), 'user namespace')} compared with what the kernel showed at the end"
    none = "at the end all processes stand in the initial user namespace, for the kernel too"
    verdict.evidence.establish(MAPS, others if kept.spaces else none)
    seen = {space.number: space for space in kept.spaces}
    names = {number: name for name, number in pairs}
    for name, number in sorted(pairs - {(INITIAL, 0)}):
        if number not in seen:
            verdict.differences.append(f"{recording.SPACES} doesn't have the namespace {number}")
        else:
            compare_space(name, seen[number], names, now.spaces, verdict)
    for space in kept.spaces:
        if space.parent not in (0, *seen):
            verdict.differences.append(
                f"{recording.SPACES}, namespace {space.number}: its parent {space.parent} isn't there")


def compare_space(name: str, seen: SpaceSeen, names: dict[int, str], told: SpacesTold, verdict: Verdict) -> None:
    """One namespace in which something lives."""
    own = told.named[name]
    where = f"namespace {name}"
    for what, one, other in (("uid_map", own.uid_map, seen.uid_map), ("gid_map", own.gid_map, seen.gid_map)):
        if joined(one) != joined(other):
            text = f"{where}, {what}: the replay has {map_words(one)}, the kernel showed {map_words(other)}"
            verdict.differences.append(with_row(text, kernel_page_rows.MAPS))
    rest: list[tuple[str, object, object]] = [("owner", own.owner, seen.owner),
                                              ("setgroups word", own.setgroups, seen.setgroups)]
    if seen.parent in names:
        rest.append(("parent", own.parent, names[seen.parent]))
    for what, told_one, seen_one in rest:
        if told_one != seen_one:
            verdict.differences.append(f"{where}, {what}: the replay has {told_one}, the kernel showed {seen_one}")


# ---- all of it -------------------------------------------------------------------------------------------------------


def failure_of(kept: Recording, told: Report) -> str:
    """Why a log isn't read to its end, with the line."""
    ending = told.ending[-1] if told.ending else f"status {told.status}"
    found = re.search(r" line ([0-9]+)", ending)
    if found is None:
        return f"the replay ends with: {ending}"
    number = int(found.group(1))
    log = kept.log.split(b"\n")
    line = log[number - 1] if 0 < number <= len(log) else b""
    parts = strace_lines.parted(line)
    row = kernel_page_rows.of_impossible(parts[1].decode("latin-1")) if parts else None
    if told.status != IMPOSSIBLE and row != kernel_page_rows.BITS:
        row = None              # a line that can't be read: of what rules know these bits alone aren't
    return with_row(f"line {number}: {ending}: {shown(line[:200])}", row)


def verify(kept: Recording, told: Report, says: Says = silent) -> Verdict:
    """The verdict on a recording, by the program's report of its world and log."""
    verdict = Verdict()
    if kept.log and not kept.log.endswith(b"\n"):
        verdict.differences.append("the log ends within a line: it was cut")
    verdict.differences += recording.altered(kept)
    if told.status != 0:
        verdict.differences.append(failure_of(kept, told))
        verdict.refused = True
        return verdict
    now = through(kept, told, verdict, says)
    if kept.log and not told.events and verdict.answers < kept.log.count(b"\n"):
        verdict.differences.append("the log isn't empty, and no line of it is read as an event")
    if kept.made is None:
        verdict.notes.append(f"there is no {recording.MADE}: whether the recording had doubts, and whether its files"
                             " were changed since, isn't known")
    elif kept.made.format != recording.FORMAT:
        verdict.notes.append(f"its {recording.MADE} is of an older form: it tells nothing of what was established, and"
                             " has sums of some files alone")
    elif kept.made.end == "program" and verdict.answers:
        verdict.notes.append("the program had ended: what its calls answered is compared, and who lives")
    if kept.made is not None and kept.made.end == "stopped":
        verdict.stopped = True
        verdict.notes.append("the recording was stopped at a line that can't be told truly: what calls answered before"
                             " is compared; who lives, and with what, isn't, since that was seen later")
    else:
        compare_processes(kept, now, verdict)
        compare_spaces(kept, now, verdict)
    establish(kept, verdict)
    return verdict


def establish(kept: Recording, verdict: Verdict) -> None:
    """What the comparison establishes, where it found no difference."""
    if kept.made is not None and kept.made.format == recording.FORMAT and not recording.altered(kept):
        verdict.evidence.establish(RECORDING, f"the sums in {recording.MADE} fit all files")
    if verdict.processes:
        what = plural(verdict.processes, "process")
        verdict.evidence.establish(CREDENTIALS, f"{what} compared with what the kernel showed at the end")
    for text in verdict.differences:
        verdict.evidence.doubt(CREDENTIALS, text)
