"""A summary: for each right that a family had in a log, what became of it at the end."""
from collections.abc import Callable, Iterable, Sequence
from dataclasses import dataclass, field

from ..command_line.command import Broken, Failure, Says, silent
from ..command_line.printable import few, plural
from ..doubts import log_doubts, world_doubts
from ..doubts.findings import Finding
from ..evidence import premises
from ..evidence.evidence import Evidence
from ..explain.explain import process_words
from ..formats import worlds
from ..formats.report import Event, Report
from ..formats.rights import Right
from ..formats.worlds import INITIAL, World
from ..judge import class_output, groups_seen, holders, touched_rights
from ..judge.class_output import Answers
from ..judge.classify import Family, Judge, same_as_replayed
from ..judge.expected_classes import Unexpected
from ..judge.program_questions import Asking, Files
from ..judge.touched_rights import Facts, facts_of
from ..replay import scan_fits
from ..replay.end_world import births_of, end_of
from ..replay.own_filters import installs
from ..replay.recording import FORMAT, MADE, Recording, altered
from ..verify import verification
from .join_scan import joined
from .rights_had import rights_had

SUSPECT = 3         # of the findings of a lint so many are told
BY_HAND = "the word of who wrote the world and the log"


@dataclass
class Given:
    """What is looked at: a world and a log by their paths and texts, of a recording what else it has, and the evidence
    for what a `yes` rests on. `world` is the one that is asked about; `made` whether it isn't the text of its path."""
    files: Files
    world: World
    text: bytes
    log: bytes
    evidence: Evidence
    kept: Recording | None = None
    made: bool = False
    scan: Evidence | None = None
    notes: list[str] = field(default_factory=list)


# ---- what is looked at -----------------------------------------------------------------------------------------------


def with_scan(given: Given, data: bytes) -> tuple[bytes, bytes]:
    """The texts of the given world and log with the files of the scan of another world. Fails where they can't stand
    side by side."""
    made = joined(given.world, given.log, worlds.read(data), given.kept is not None)
    given.notes += made.notes()
    return worlds.written(made.world), made.log


def by_hand() -> Evidence:
    """The evidence of a world and a log that nobody recorded: the word of who wrote them, and no scan."""
    found = Evidence()
    for each in premises.TABLE:
        if not each.of_files() and each.name not in (premises.GROUPS, premises.POWER, premises.FS_IDS):
            found.establish(each.name, BY_HAND)
    return found


def unaltered(given: Given) -> None:
    """Fails where a file of a recording isn't as it was written."""
    changed = altered(given.kept) if given.kept is not None else []
    if changed:
        raise Broken(f"the recording isn't true: {few(changed, SUSPECT)}",
                     "record it anew; as WORLD, LOG and PID its files count as written by hand")


def of_older(given: Given) -> None:
    """Notes what a recording of before lacks."""
    made = given.kept.made if given.kept is not None else None
    if given.kept is not None and (made is None or made.format != FORMAT):
        given.notes.append(f"this recording is of an older form: its {MADE} doesn't tell what was established, so"
                           " nothing is called gone; record it anew")


def of_recording(given: Given, report: Report, says: Says = silent) -> None:
    """Holds a recording against what the kernel showed of it. Fails where it differs."""
    if given.kept is None:
        return
    told = verification.verify(given.kept, report, says)
    if told.differences:
        raise Broken(f"the recording isn't true: {few(told.differences, SUSPECT)}", "credaudit-verify tells more")
    given.evidence.add(told.evidence)
    given.notes += [*told.faults(), *told.notes]


def suspicion(given: Given, report: Report) -> list[Finding]:
    """What a lint finds, but for what the classes tell by themselves: that no scan made the world, and its doubts."""
    found = list(world_doubts.of_rows(given.text, given.world, report))
    found += log_doubts.of_strace(given.log, report, given.world) if given.world.log == "strace" else \
        log_doubts.front_doubts(given.log, report)
    return found


# ---- the process ----------------------------------------------------------------------------------------------------


def chosen(world: World, report: Report, pid: int | None) -> list[int]:
    """The processes that are asked about: the named one, or so many that each which lives is one of them or descends
    from one: those without a living ancestor, those of the world first. Fails where none of them lives at the end."""
    alive = report.alive()
    if pid is None:
        births = births_of(world, report)
        found = [each for each, above in births.parents.items() if above is None and each in alive]
        found += sorted(set(alive) - {each for root in found for each in births.family(root)})
    else:
        found = [pid] if pid in alive else []
    if not found:
        who = "no process lives" if pid is None else f"process {pid} doesn't live"
        living = few([str(each) for each in sorted(alive)])
        raise Failure(f"{who} at the log's end", f"these do: {living}" if alive else "there is nothing to ask about")
    return found


# ---- the whole -------------------------------------------------------------------------------------------------------


def accepted(ask: Asking, given: Given) -> Report:
    """The replay of the world and the log. Fails where the program refuses them."""
    report = ask.program.run("replay", given.files.world, given.files.log)
    if report.status in (3, 4, 5, 9):
        raise Broken(f"credaudit doesn't accept the world and the log: {report.ending[-1]}", "credaudit-lint tells why")
    if report.status != 0:
        raise Failure(f"credaudit ends with status {report.status}")
    return report


def of_filters(given: Given, family: Iterable[int], events: Iterable[Event]) -> Evidence:
    """What is known of the filters of one process's family: of the world's [filter], by what the kernel showed of those
    of its members, and of what these events, its own and those of whom it descends from, install."""
    found, pids, installed = Evidence(), set(family), any(installs(event) for event in events)
    if given.world.exclude is None and not installed:
        found.establish(premises.FILTERS, "the world declares none, and the log installs none that a member has")
    elif given.kept is None:
        found.establish(premises.FILTERS, BY_HAND)
    elif given.world.exclude is not None:
        own = [status for status in given.kept.statuses if status.pid in pids]
        found.establish(premises.FILTERS, f"the kernel showed as many filters for each of {plural(len(own), 'member')}")
        for each in world_doubts.filter_doubts(own, given.world):
            found.doubt(premises.FILTERS, each.why)
    if installed and given.kept is not None:
        found.doubt(premises.FILTERS, "the log installs a filter that the kernel wasn't asked about")
    return found


def evidence_of(given: Given, facts: Facts, family: Iterable[int]) -> Evidence:
    """The evidence for the family of one process: what goes for the whole, what is known of its filters, and the rows
    of docs/KERNEL.md."""
    found = given.evidence.copy()
    found.add(of_filters(given, family, [each.event for each in facts.made]))
    if given.scan is not None and given.kept is not None and given.kept.made is not None:
        scan_fits.tell(found, given.kept.made.evidence, given.scan, family)
    touched_rights.tell(found, facts)
    return found


@dataclass
class Summary:
    """The answers, a process with its family each, and what is to be said beside them."""
    answers: list[Answers]
    scanned: bool
    notes: list[str]


def answer(ask: Asking, given: Given, report: Report, pid: int, more: Sequence[Right]) -> Answers:
    """What the program says of each right that the family of a process had, and of those that are named beside."""
    own = rights_had(given.world, report, pid)
    end = end_of(given.world, report, pid)
    members = [each.pid for each in end.family]
    evidence = evidence_of(given, facts_of(given.world, report, given.log, end), members)
    unseen = groups_seen.tell(evidence, report, members)
    family = Family(given.files, pid, end, evidence)
    same_as_replayed(ask, family)
    judge = Judge(ask, family)
    outcomes = judge.outcomes(list(dict.fromkeys([*own, *more])))
    one = end.family[0]
    title = process_words(one, end.spaces.named[one.space] if one.space != INITIAL else None)
    if len(end.family) > 1:
        title += f"; with {plural(len(end.family) - 1, 'process')} that it started"
    executed = holders.programs(given.log, given.world.log == "strace", report)
    rows = {each.right: list(evidence.rows(each.right, family.space(each.right))) for each in outcomes}
    return Answers(title, outcomes, judge.what_ifs(outcomes), [groups_seen.note(unseen)] if unseen else [], rows, pid,
                   frozenset(members), holders.held_by(end, outcomes, family.space, executed),
                   holders.members(unseen, executed), runs=class_output.runs_of(end, outcomes))


def summed_up(ask: Asking, given: Given, pid: int | None, more: Callable[[int], Sequence[Right]]) -> Summary:
    """What the program says of the rights of a process, or, where none is named, of all that live at the log's end;
    `more` gives the rights that are named beside for the answer about a process."""
    unaltered(given)
    report = accepted(ask, given)
    of_older(given)
    of_recording(given, report, ask.says)
    answers = [answer(ask, given, report, each, more(each)) for each in chosen(given.world, report, pid)]
    without = set(report.alive()) - {member for each in answers for member in each.members}
    found = suspicion(given, report)
    notes = [*given.notes, *ask.notes, *(f"suspect: {each.why}" for each in found[:SUSPECT])]
    if len(found) > SUSPECT:
        notes.append(f"credaudit-lint tells {len(found) - SUSPECT} more suspect things")
    if without:
        names = few([str(each) for each in sorted(without)])
        if pid is None:
            raise Failure(f"process {names} lives at the log's end, and stands in no answer")
        notes.append(f"nothing is said of process {names}, which lives too")
    return Summary(answers, premises.SCAN in given.evidence.established, notes)


SCHEMA: dict[str, object] = {
    "format": "number", "scanned": "flag",
    "answers": [dict[str, object](process="number", about="text", **class_output.RIGHTS_SCHEMA, notes=["text"])],
    **class_output.END_SCHEMA}


def document(made: Summary, new: Sequence[Unexpected]) -> dict[str, object]:
    """All of it for other programs."""
    answers = [{"process": each.pid, "about": each.title, **class_output.rights_document(each), "notes": each.notes}
               for each in made.answers]
    return {"scanned": made.scanned, "answers": answers, **class_output.end_document(new, made.notes)}
