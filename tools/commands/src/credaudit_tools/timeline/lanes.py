"""What is told of a family: a lane for each process that ever belonged to it, with the spans of each right, and equal
ones joined.
"""
from collections.abc import Collection, Iterable, Iterator, Sequence
from dataclasses import dataclass, field

from ..explain import run_words
from ..explain.run_words import place_at
from ..filters.filter_lines import NOBODY
from ..formats.marked_calls import Mark
from ..formats.report import Event
from ..formats.rights import Right
from ..judge.classes import DOUBTED, HELD, IS_GONE, Outcome
from ..judge.held_by import holders
from .borders import NOT_YET, Course
from .held_rights import Holding
from .walk import Life, Walk


@dataclass(frozen=True)
class Span:
    """What a right is from a moment on until before another: its class, and what is known of it there. `run` is in
    words how the family gets it, `call` after which it begins."""
    kind: str
    begin: int
    end: int
    outcome: Outcome
    call: str = ""
    run: str = ""

    def same(self) -> tuple[object, ...]:
        """What must be alike for rights to stand in one line."""
        told = self.outcome
        return self.kind, self.begin, self.end, self.run, told.holder, told.programs, told.rule, told.row, told.reasons


@dataclass(frozen=True)
class Row:
    """Rights of which the same is to be told, and their spans."""
    rights: tuple[Right, ...]
    spans: tuple[Span, ...]

    def last(self) -> Span:
        """The last span."""
        return self.spans[-1]


@dataclass
class Lane:
    """A process with all that it started: its life, the program that it executed last, the rows of its rights, its
    marks. `alike` has the other processes of which the same is to be told, at other lines."""
    life: Life
    rows: list[Row] = field(default_factory=list)
    marks: list[Mark] = field(default_factory=list)
    program: bytes | None = None
    alike: list["Lane"] = field(default_factory=list)

    def pids(self) -> list[int]:
        """The processes of this lane, in order of birth."""
        return [self.life.pid, *(each.life.pid for each in self.alike)]

    def first_marks(self) -> list[Mark]:
        """The first mark of each call."""
        found = dict[str, Mark]()
        for mark in self.marks:
            found.setdefault(mark.call, mark)
        return list(found.values())

    def rights(self) -> Iterator[tuple[Right, tuple[Span, ...]]]:
        """Each right with its spans."""
        return ((right, row.spans) for row in self.rows for right in row.rights)


def event_text(event: Event | None) -> str:
    """The call of an event as a line of a script has it, without the pid; nothing for the log's beginning, and of its
    end that the world's filter counts there."""
    if event is None or event.pid == NOBODY:
        return "" if event is None else event.call
    return " ".join([event.call, *event.arguments, "=", event.result])


def held(outcome: Outcome, walk: Walk, life: Life, moment: int, holding: Holding) -> Outcome:
    """A right that is held, with who holds it and by what."""
    place = holding.rights.index(outcome.right)
    family = tuple(each.at(moment) for each in walk.family(life, moment))
    by = holders(family, outcome.right, holding.places[place], walk.spaces_at(moment).named)
    return Outcome(outcome.right, HELD, reasons=by)


def spans(walk: Walk, life: Life, course: Course, right: Right, holding: Holding) -> tuple[Span, ...]:
    """The spans of a right in a lane."""
    begins = [(course.moments[place], course.outcomes[right][place]) for place in course.begins(right)]
    ends = [*(moment for moment, _ in begins[1:]), walk.end(life) + 1]
    return tuple(span(walk, life, holding, moment, end, outcome) for (moment, outcome), end in zip(begins, ends))


def span(walk: Walk, life: Life, holding: Holding, moment: int, end: int, outcome: Outcome) -> Span:
    """One span."""
    if outcome.kind == HELD:
        outcome = held(outcome, walk, life, moment, holding)
    run = ""
    if outcome.run:
        family = [each.at(moment) for each in walk.family(life, moment)]
        place = place_at(walk.spaces_at(moment), walk.world.files, family)
        run = run_words.sentence(outcome.calls(), place, outcome.holder)
    return Span(outcome.kind, moment, end, outcome, event_text(walk.event(moment)), run)


def rows(walk: Walk, life: Life, course: Course, holding: Holding) -> list[Row]:
    """The rows of a lane: rights of which the same is to be told stand in one, in the order of the rights."""
    found: dict[tuple[object, ...], tuple[tuple[Span, ...], list[Right]]] = {}
    for right in holding.rights:
        own = spans(walk, life, course, right, holding)
        found.setdefault(tuple(each.same() for each in own), (own, []))[1].append(right)
    return [Row(tuple(rights), own) for own, rights in found.values()]


def marks_of(walk: Walk, lives: Collection[Life], every: Iterable[Mark]) -> dict[Life, list[Mark]]:
    """By life the marks that are its own. The lines of a child may stand before the one that answers its birth."""
    by_pid: dict[int, list[Life]] = {}
    for life in walk.lives:
        by_pid.setdefault(life.pid, []).append(life)
    found: dict[Life, list[Mark]] = {life: [] for life in lives}
    for mark in every:
        moment, several = walk.moment(mark.line), by_pid.get(mark.pid, [])
        own = next((life for life in several if life.lives(moment)), None) or \
            next((life for life in several if life.born > moment), None)
        if own is not None and own in found:
            found[own].append(mark)
    return found


def shape(lane: Lane) -> tuple[object, ...]:
    """What is alike in lanes of which the same is to be told: what each right became by which call, whatever the
    lines."""
    calls = [(right, tuple((each.kind, each.call.partition(" ")[0]) for each in own)) for right, own in lane.rights()]
    marked = tuple(mark.call for mark in lane.first_marks())
    return lane.program, lane.life.ended is None, tuple(sorted(calls, key=lambda pair: pair[0].text())), marked


def folded(lanes: Sequence[Lane], alone: Collection[int]) -> list[Lane]:
    """The lanes with alike ones as one, which has its first; those of `alone`, by their pids, stay by themselves."""
    found = list[Lane]()
    first: dict[tuple[object, ...], Lane] = {}
    for lane in lanes:
        if lane.life.pid in alone:
            found.append(lane)
            continue
        kind = shape(lane)
        if kind in first:
            first[kind].alike.append(lane)
        else:
            first[kind] = lane
            found.append(lane)
    return found


def gone_since(own: Sequence[Span]) -> int | None:
    """The moment since which a right is gone for good; None where it isn't gone at the lane's end. What isn't called
    gone counts where it isn't at the end either."""
    if own[-1].kind not in IS_GONE:
        return None
    at, same = len(own) - 1, IS_GONE if own[-1].kind == DOUBTED else (own[-1].kind,)
    while at > 0 and own[at - 1].kind in same:
        at -= 1
    return own[at].begin


def is_shown(own: Sequence[Span]) -> bool:
    """Whether anything is to be told of a right: its namespace stood."""
    return any(each.kind != NOT_YET for each in own)
