"""What the program says of the rights of one lane, a process with all that it started, at its moments.

The lane's last moment is judged as credaudit-summary judges a log's end, and tells what its evidence is. At an earlier
one there stands against a `yes` what does there, and besides what the family is then: what it may do without a listed
call, its fs ids, the rows of docs/KERNEL.md, groups that weren't seen by then. Of a process that has ended before the
log's end nothing was looked at, so its rights are gone by its own calls at best.
"""
from collections.abc import Mapping, Sequence
from dataclasses import dataclass, field, replace

from ..evidence.evidence import Evidence
from ..evidence.kernel_page_rows import Made, leaves_fs_id
from ..evidence.premises import FILTERS, GROUPS, OF_FILES
from ..formats.report import BIRTHS, Report
from ..formats.rights import Right
from ..formats.verdicts import YES
from ..judge import groups_seen, touched_rights
from ..judge.classes import PROGRAM, Outcome
from ..judge.classify import Family, Judge
from ..judge.program_questions import Answer, right_in
from ..judge.touched_rights import Facts, facts_of
from ..replay.end_world import End, without_files
from ..replay.own_filters import installs
from ..summary.summary import Given, evidence_of
from .remembering import Remembering
from .walk import Life, Walk


@dataclass
class Seen:
    """What the evidence of each lane is taken from, read once: the events that install filters or that the rows of
    docs/KERNEL.md look at, and those that show groups."""
    given: Given
    facts: Facts
    groups: Report

    def evidence(self, walk: Walk, life: Life, end: End) -> Evidence:
        """The evidence for a lane, whose family at its last moment this is."""
        last, members = walk.reached[walk.end(life)], pids_of(end)
        found = evidence_of(self.given, self.facts_until(end, last), members)
        groups_seen.tell(found, self.groups_until(last), members)
        return found if life.ended is None else of_ended(found, self.given, life)

    def evidence_before(self, evidence: Evidence, end: End, line: int) -> Evidence:
        """That of a lane, and what stands against it besides after an earlier line, where the family is this one."""
        found = evidence.copy()
        touched_rights.tell(found, self.facts_until(end, line))
        left = [] if self.given.evidence.holds(GROUPS) else groups_seen.unseen(self.groups_until(line), pids_of(end))
        if left:
            found.doubt(GROUPS, groups_seen.note(left))
        return found

    def facts_until(self, end: End, line: int) -> Facts:
        """What the rows look at, up to a line, of a family and those from which it descends."""
        made: list[Made] = [each for each in self.facts.made
                            if each.event.pid in end.lineage and each.event.line <= line]
        return replace(self.facts, end=end, made=made)

    def groups_until(self, line: int) -> Report:
        """The replay up to a line, as far as it shows groups."""
        return replace(self.groups, events=[each for each in self.groups.events if each.line <= line])

    def unseen(self, members: Sequence[int]) -> list[int]:
        """The members whose groups weren't seen."""
        return groups_seen.tell(self.given.evidence.copy(), self.groups, members)


def pids_of(end: End) -> list[int]:
    """The members of a family."""
    return [one.pid for one in end.family]


def of_ended(evidence: Evidence, given: Given, life: Life) -> Evidence:
    """The evidence for a process that ended before the log did: no scan, and no look at its filters."""
    found = evidence.without(OF_FILES)
    if given.world.exclude is not None and given.kept is not None:
        found.doubt(FILTERS, f"process {life.pid} had ended before the kernel showed filters")
    return found


def seen(given: Given, report: Report, walk: Walk, root: Life) -> Seen:
    """What evidence is taken from, of an accepted replay."""
    every = replace(walk.family_world(root, walk.end(root)), lineage=frozenset(each.pid for each in walk.lives))
    groups = [each for each in report.events if each.call == "setgroups" or each.call in BIRTHS]
    facts = facts_of(given.world, report, given.log, every)
    looked_at = [each for each in facts.made if each.event.call == "execve" or installs(each.event)
                 or any(leaves_fs_id(each, kind) for kind in ("uid", "gid"))]
    return Seen(given, replace(facts, made=looked_at), Report(report.start, groups))


@dataclass
class LaneJudge:
    """Asks about one lane. `last` is what is known at its last moment, of all rights, and `evidence` what goes for
    that."""
    ask: Remembering
    walk: Walk
    life: Life
    evidence: Evidence
    seen: Seen
    last: dict[Right, Outcome] = field(default_factory=dict)

    def family(self, moment: int) -> Family:
        """The family at a moment, with the files that the program reads of it."""
        end = self.walk.family_world(self.life, moment)
        return Family(self.ask.about(end), self.life.pid, end, self.evidence_at(moment, end))

    def evidence_at(self, moment: int, end: End) -> Evidence:
        """The evidence at a moment, where the family is this one."""
        return self.evidence if moment == self.walk.end(self.life) else \
            self.seen.evidence_before(self.evidence, end, self.walk.reached[moment])

    def begin(self, rights: Sequence[Right]) -> None:
        """Judges the last moment, of those rights that can be asked about then."""
        judge = Judge(self.ask, self.family(self.walk.end(self.life)))
        self.last = {each.right: each for each in judge.outcomes(rights)}

    def at(self, moment: int, rights: Sequence[Right]) -> Mapping[Right, Outcome]:
        """What is known of rights at a moment at which nobody holds them."""
        if moment == self.walk.end(self.life) and all(right in self.last for right in rights):
            return self.last
        judge = Judge(self.ask, self.family(moment))
        return {each.right: each for each in outcomes(judge, rights, f"line {self.walk.line(moment)}")}

    def shortened(self, moment: int, several: Sequence[Outcome]) -> list[Outcome]:
        """These outcomes of a moment with runs as short as the program confirms them. Of rights with one run the first
        one's is tried on the others."""
        judge, short = Judge(self.ask, self.family(moment)), dict[tuple[bytes, ...], tuple[bytes, ...]]()
        if all(self.last.get(each.right) is each for each in several):
            return list(several)

        def of(outcome: Outcome) -> Outcome:
            tried = short[outcome.run]
            if tried == outcome.run:
                return outcome
            holder = self.ask.confirms(judge.family.files, judge.family.pid, outcome.right.text(), tried)
            return judge.settled(outcome) if holder is None else replace(outcome, run=tried, holder=holder)
        for each in several:
            if each.run not in short:
                short[each.run] = judge.settled(each).run
        return self.ask.side_by_side("runs", of, several)


def outcomes(judge: Judge, rights: Sequence[Right], where: str) -> list[Outcome]:
    """The classes of rights at a moment. A run that executes nothing is by the family's own calls; of one that does it
    is asked whether it can do without."""
    family = judge.family
    told = dict(zip(rights, judge.ask.audits(f"process {family.pid}, {where}: audits", family.files, family.pid,
                                             [each.text() for each in rights])))
    if any(each.verdict.word == YES for each in told.values()):
        judge.tell_power(told)
    programs = [right for right, each in told.items() if executes(each)]
    alone = {right: each for right, each in told.items() if each.run and not executes(each)}
    if programs:
        own = judge.ask.files("own", without_files(family.end.world))
        alone |= zip(programs, judge.ask.audits(f"process {family.pid}, {where}: audits by own calls", own, family.pid,
                                                [right_in(each, family.token) for each in programs]))
    found = [judge.outcome(right, each, alone.get(right)) for right, each in told.items()]
    return [judge.settled(each) if each.kind == PROGRAM else each for each in found]


def executes(answer: Answer) -> bool:
    """Whether a run executes a file."""
    return any(b" execve " in line for line in answer.run)
