"""The same course by audits of each front of the log, instead of a search for borders: slow, and resting on nothing but
the program. Fronts of which the program's replay tells the same are one.
"""
from collections.abc import Iterator, Sequence
from dataclasses import dataclass, field, replace

from ..formats import worlds
from ..formats.report import Report
from ..formats.rights import Right
from ..judge.classes import Outcome
from ..judge.classify import Family, Judge
from ..judge.program_questions import Asking, Files
from ..replay.end_world import end_of
from ..summary.summary import Given
from .borders import NOT_YET, Course
from .held_rights import space_of
from .lane_judge import LaneJudge, outcomes
from .walk import Walk


@dataclass
class Prefix:
    """A front of the log that the program accepts, its replay, and the moment of its end."""
    files: Files
    report: Report
    moment: int


def prefixes(ask: Asking, given: Given, walk: Walk) -> Iterator[Prefix]:
    """The fronts of a log, line by line. One that isn't accepted is left out: the birth of a process may stand behind
    its first lines."""
    lines, before = [line + b"\n" for line in given.log.removesuffix(b"\n").split(b"\n")], -1
    for count in range(len(lines) + 1):
        files = Files(given.files.world, ask.put(f"prefix-{count}", b"".join(lines[:count])))
        report = ask.program.run("replay", files.world, files.log)
        if report.status == 0 and walk.moment(count) != before:
            before = walk.moment(count)
            yield Prefix(files, report, before)


@dataclass
class EveryLine:
    """Audits at each prefix, for lanes of one log."""
    ask: Asking
    given: Given
    walk: Walk
    every: list[Prefix] = field(default_factory=list)

    def __post_init__(self) -> None:
        self.every = list(prefixes(self.ask, self.given, self.walk))
        self.free = self.ask.put("without-filter", worlds.written(replace(self.given.world, exclude=None)))

    def course(self, lane: LaneJudge, rights: Sequence[Right]) -> Course:
        """What each right is at each moment of a lane that a prefix ends at. Where none ends at its birth, what comes
        next stands for it."""
        life = lane.life
        own = [each for each in self.every if life.lives(each.moment)]
        found = Course([life.born, *(each.moment for each in own[1:])], {right: [] for right in rights})
        for prefix in own:
            world = self.walk.world_at(life, prefix.moment)
            files = prefix.files if world == self.walk.world else replace(prefix.files, world=self.free)
            end = end_of(world, prefix.report, life.pid)
            judge = Judge(self.ask, Family(files, life.pid, end, lane.evidence_at(prefix.moment, end)))
            there = [right for right in rights if right.space is None
                     or space_of(right, end.spaces) in end.spaces.named]
            told = {each.right: each for each in outcomes(judge, there, f"line {self.walk.line(prefix.moment)}")}
            for right in rights:
                found.outcomes[right].append(told.get(right, Outcome(right, NOT_YET)))
        return found
