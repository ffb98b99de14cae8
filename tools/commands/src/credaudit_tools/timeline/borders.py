"""From when to when each right of a family is of which class: what is held is read off the replay, all else is asked of
the program, and no more of it than tells the borders.

Between two moments a family goes by its own calls alone, which the rules allow. So what is gone at the first is gone at
the second: the program's bounds of the first hold all that can come. That isn't so where another process acted on the
family, or where the world's filter counts no more, since a member came that no line says to have it (filter_lines.py);
nor is it for what comes back by own calls where a program was executed that changed a credential. Such moments part the
log into stretches, and so do those at which a right is held. In a stretch both ends are asked, and where their classes
differ the moment between them, and so on: a border stands between two moments that both were asked.
"""
from collections.abc import Callable, Iterator, Mapping, Sequence
from dataclasses import dataclass, field

from ..command_line.command import Failure
from ..formats.rights import Right
from ..judge.classes import GONE, GONE_BY_OWN_CALLS, HELD, Outcome
from .held_rights import Holding
from .walk import Life, Walk

NOT_YET = "not-yet"                                 # the right's user namespace doesn't stand
FOR_GOOD = (GONE, GONE_BY_OWN_CALLS)                # what stands against a `yes` may go later
Ask = Callable[[int, Sequence[Right]], Mapping[Right, Outcome]]     # of a moment, about rights that nobody holds then


@dataclass(frozen=True)
class Stretch:
    """Moments of a lane, by their places in its list, with the first and the last of them."""
    first: int
    last: int


@dataclass
class Course:
    """By right what it is at each moment at which the family changes, in the order of `moments`. Of moments between
    two that were asked and answered alike the outcome is the first one's."""
    moments: list[int]
    outcomes: dict[Right, list[Outcome]] = field(default_factory=dict)

    def begins(self, right: Right) -> Iterator[int]:
        """The places in `moments` at which the class of a right becomes another one."""
        before = None
        for place, outcome in enumerate(self.outcomes[right]):
            if outcome.kind != before:
                yield place
            before = outcome.kind

    def shorten(self, shortened: Callable[[int, Sequence[Outcome]], Sequence[Outcome]]) -> None:
        """Exchanges the runs with which spans begin for shorter ones, which `shortened` gives for a moment."""
        runs: dict[int, list[Outcome]] = {}
        for right, own in self.outcomes.items():
            for place in self.begins(right):
                if own[place].run:
                    runs.setdefault(place, []).append(own[place])
        for place, several in runs.items():
            for each in shortened(self.moments[place], several):
                self.outcomes[each.right][place] = each


def is_cut(walk: Walk, life: Life, moment: int) -> bool:
    """Whether what holds right before a moment needn't hold at it, though it holds for all later calls of the
    family."""
    event = walk.event(moment)
    if event is None or moment == life.born:
        return False
    members = {each.pid for each in life.descendants() if each.born < moment and each.lives(moment - 1)}
    if event.pid not in members:
        return True
    return event.call == "execve" or (bool(walk.world.exclude) and walk.is_bound(life, moment - 1)
                                      and not walk.is_bound(life, moment))


def stretches(moments: Sequence[int], free: Sequence[bool], cuts: Sequence[bool]) -> list[Stretch]:
    """The stretches of moments at which a right is neither held nor without its namespace."""
    found = list[Stretch]()
    begun: int | None = None
    for at in range(len(moments) + 1):
        goes_on = at < len(moments) and free[at] and not (cuts[at] and begun is not None)
        if not goes_on and begun is not None:
            found.append(Stretch(begun, at - 1))
            begun = None
        if begun is None and at < len(moments) and free[at]:
            begun = at
    return found


@dataclass
class Search:
    """The search for the borders of one lane. `ask` answers about rights that nobody holds at a moment."""
    walk: Walk
    life: Life
    holding: Holding
    ask: Ask
    asked: dict[tuple[int, Right], Outcome] = field(default_factory=dict)

    def __post_init__(self) -> None:
        self.moments = self.walk.changes(self.life)

    def course(self) -> Course:
        """All of it."""
        rights, found = self.holding.rights, Course(self.moments)
        held = [self.holding.of_family(self.life, moment) for moment in self.moments]
        there = [self.holding.there(moment) for moment in self.moments]
        cuts = [is_cut(self.walk, self.life, moment) for moment in self.moments]
        parts: dict[Stretch, list[Right]] = {}
        for place, right in enumerate(rights):
            found.outcomes[right] = [Outcome(right, HELD if own >> place & 1 else NOT_YET) for own in held]
            free = [bool(now >> place & 1) and not own >> place & 1 for own, now in zip(held, there)]
            for stretch in stretches(self.moments, free, cuts):
                parts.setdefault(stretch, []).append(right)
        for stretch, several in parts.items():
            self.fill(found, several, stretch)
        return found

    def answers(self, place: int, rights: Sequence[Right]) -> dict[Right, Outcome]:
        """What is known of rights at a moment, asked once. Fails where the program says that one is held, which by the
        replay nobody holds."""
        missing = [right for right in rights if (place, right) not in self.asked]
        if missing:
            told = self.ask(self.moments[place], missing)
            for right in missing:
                if told[right].kind == HELD:
                    raise Failure(f"after line {self.walk.line(self.moments[place])} credaudit says that {right.text()}"
                                  f" is held in the family of process {self.life.pid}, and its replay doesn't show it")
                self.asked[place, right] = told[right]
        return {right: self.asked[place, right] for right in rights}

    def fill(self, found: Course, rights: Sequence[Right], stretch: Stretch) -> None:
        """Finds the classes in a stretch: its ends first, and then what lies between two that differ."""
        waiting = [(stretch, list(rights))]
        while waiting:
            part, several = waiting.pop()
            first, last = part.first, part.last
            begin = self.answers(first, several)
            open_ones = [right for right in several if begin[right].kind not in FOR_GOOD]
            end = self.answers(last, open_ones)
            for right in several:
                self.put(found, begin[right], first, last)
            later = [right for right in open_ones if end[right].kind != begin[right].kind]
            for right in later:
                self.put(found, end[right], last, last)
            if later and last - first > 1:
                middle = (first + last) // 2
                waiting += [(Stretch(first, middle), later), (Stretch(middle, last), later)]

    def put(self, found: Course, outcome: Outcome, first: int, last: int) -> None:
        """What a right is from one moment to another."""
        for at in range(first, last + 1):
            found.outcomes[outcome.right][at] = outcome
