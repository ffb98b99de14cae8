"""One walk over an accepted replay: who lived when, what each process was from moment to moment, and the user
namespaces then.

A moment is 0, before the log's first event, or N, right after its N-th event. What is asked about at a moment is a
process with all that it started and that lives then, as a world of its own (end_world.py).
"""
from bisect import bisect_right
from collections.abc import Iterable, Iterator, Mapping, Sequence
from dataclasses import dataclass, field, replace

from ..filters.filter_lines import INSTALLS, events_with_filter
from ..formats.report import BIRTHS, Event, Report, Standing
from ..formats.worlds import World
from ..replay.end_world import End, end_with
from ..replay.own_filters import NOTHING, installed, shared
from ..replay.spaces_of_report import SpacesTold, of_world, succeeded

# Calls that change the user namespaces themselves, and not only who stands in which.
SPACE_CALLS = ("unshare", "clone_user", "write_uid_map", "write_gid_map", "write_setgroups")


@dataclass(eq=False)
class Life:
    """A process from its birth to its end, None where it lives at the log's end. `seen` has what it was from a moment
    on, a pair for each change; `filters` likewise the calls that its own filter excludes, where it has one. From
    `bound` on a line tells that the world's filter binds it."""
    pid: int
    maker: "Life | None" = None
    born: int = 0
    ended: int | None = None
    seen: list[tuple[int, Standing]] = field(default_factory=list)
    children: list["Life"] = field(default_factory=list)
    filters: list[tuple[int, frozenset[str]]] = field(default_factory=list)
    bound: int | None = None

    def lives(self, moment: int) -> bool:
        """Whether it lives at a moment."""
        return self.born <= moment and (self.ended is None or moment < self.ended)

    def at(self, moment: int) -> Standing:
        """What it was at a moment at which it lives."""
        return self.seen[bisect_right(self.seen, moment, key=moment_of) - 1][1]

    def filter_at(self, moment: int) -> frozenset[str]:
        """The calls that its own filter excludes at a moment."""
        at = bisect_right(self.filters, moment, key=moment_of)
        return self.filters[at - 1][1] if at else NOTHING

    def installs(self, names: frozenset[str], moment: int) -> None:
        """Its own filter excludes these calls too."""
        before = self.filter_at(moment)
        if names - before:
            self.filters.append((moment, before | names))

    def shows(self, one: Standing, moment: int) -> None:
        """What a report shows of it after an event."""
        if not self.seen or self.seen[-1][1] != one:
            self.seen.append((moment, one))

    def descendants(self) -> Iterator["Life"]:
        """It, and all that ever descended from it, makers first."""
        waiting = [self]
        while waiting:
            each = waiting.pop()
            yield each
            waiting += reversed(each.children)

    def forebears(self) -> Iterator["Life"]:
        """All from which it descends, the nearest first."""
        at = self.maker
        while at is not None:
            yield at
            at = at.maker


def moment_of(pair: tuple[int, object]) -> int:
    """The moment from which on something was so."""
    return pair[0]


@dataclass
class Walk:
    """All of it: the lives in order of birth, and by moment the namespaces from there on, a pair for each change.
    `events` are those of the report, and what filter_lines.py has besides."""
    world: World
    report: Report
    events: Sequence[Event]
    lives: list[Life] = field(default_factory=list)
    spaces: list[tuple[int, SpacesTold]] = field(default_factory=list)

    def __post_init__(self) -> None:
        # A child's lines may stand before the birth that answers its pid: an event comes where all of it is read.
        self.reached = [0]
        for event in self.events:
            self.reached.append(max(self.reached[-1], event.line))

    @property
    def last(self) -> int:
        """The moment of the log's end."""
        return len(self.events)

    def line(self, moment: int) -> int:
        """The line of the log after which a moment begins; 0 is before the first one."""
        return self.events[moment - 1].line if moment else 0

    def moment(self, line: int) -> int:
        """The moment that is reached once a line of the log is read."""
        return bisect_right(self.reached, line) - 1

    def event(self, moment: int) -> Event | None:
        """The event after which a moment begins."""
        return self.events[moment - 1] if moment else None

    def spaces_at(self, moment: int) -> SpacesTold:
        """The namespaces at a moment."""
        return self.spaces[bisect_right(self.spaces, moment, key=moment_of) - 1][1]

    def end(self, life: Life) -> int:
        """The last moment at which a process lives."""
        return self.last if life.ended is None else life.ended - 1

    def family(self, life: Life, moment: int) -> list[Life]:
        """A process that lives at a moment, and all that descends from it and lives then, by birth."""
        found = [each for each in life.descendants() if each.lives(moment)]
        return sorted(found, key=lambda each: (each is not life, each.born))

    def is_bound(self, life: Life, moment: int) -> bool:
        """Whether the world's filter counts for that family at that moment: at the log's end it does as declared."""
        return moment == self.last or all(each.bound is not None and each.bound <= moment
                                          for each in self.family(life, moment))

    def world_at(self, life: Life, moment: int) -> World:
        """The world, without its filter where that doesn't count yet."""
        return self.world if not self.world.exclude or self.is_bound(life, moment) else \
            replace(self.world, exclude=None)

    def family_world(self, life: Life, moment: int) -> End:
        """That family at that moment, as a world of its own."""
        family = self.family(life, moment)
        parents = {each.pid: next((above.pid for above in each.forebears() if above in family), None)
                   for each in family}
        lineage = {above.pid for each in family for above in (each, *each.forebears())}
        return end_with(self.world_at(life, moment), [each.at(moment) for each in family], parents,
                        self.spaces_at(moment), lineage, shared(each.filter_at(moment) for each in family))

    def changes(self, life: Life) -> list[int]:
        """The moments at which the family of a process may become another one: a credential of a member, a birth, an
        exit, a user namespace, a filter that is installed, the world's filter. The first is that of its own birth."""
        found = {life.born, *(moment for moment, _ in self.spaces), *([self.last] if self.world.exclude else [])}
        for each in life.descendants():
            found.update(moment for moment, _ in (*each.seen, *each.filters))
            found.update(moment for moment in (each.ended, each.bound) if moment is not None)
        return sorted(moment for moment in found if life.lives(moment))


def copied(spaces: SpacesTold) -> SpacesTold:
    """The same namespaces, which stay as they are."""
    return SpacesTold({name: replace(own) for name, own in spaces.named.items()})


def bind(lives: Iterable[Life], told: Mapping[Life, int], broken: Mapping[Life, int]) -> None:
    """Sets from when on the world's filter binds each of these, makers first: `told` has its last line that installs a
    filter, `broken` the last call that the filter would have refused, and didn't: then it isn't that line's."""
    for life in lives:
        above = None if life.maker is None else life.maker.bound
        found = life.born if above is not None and above <= life.born else told.get(life)
        life.bound = found if found is not None and broken.get(life, -1) < found else None


def walked(world: World, report: Report, log: bytes = b"") -> Walk:
    """The walk over an accepted replay of a world and a log."""
    walk, living = Walk(world, report, events_with_filter(world, report, log)), dict[int, Life]()
    told, broken = dict[Life, int](), dict[Life, int]()
    spaces = of_world(world)
    walk.spaces.append((0, copied(spaces)))

    def begins(pid: int, maker: int | None, moment: int) -> None:
        above = None if maker is None else living.get(maker)
        life = living[pid] = Life(pid, above, moment)
        life.installs(NOTHING if above is None else above.filter_at(moment), moment)
        walk.lives.append(life)
        if above is not None:
            above.children.append(life)

    def shown(several: Iterable[Standing], moment: int) -> None:
        for one in several:
            living[one.pid].shows(one, moment)

    for row in world.processes:
        begins(row.pid, row.parent, 0)
    shown(report.start, 0)
    for moment, event in enumerate(walk.events, 1):
        before = living.get(event.pid)
        if before is not None and event.call == INSTALLS:
            told[before] = moment
        elif before is not None and event.call in (world.exclude or ()) and event.result != "EPERM":
            broken[before] = moment
        if event.call in SPACE_CALLS and succeeded(event):
            spaces.turn(event, None if before is None else before.seen[-1][1])
            walk.spaces.append((moment, copied(spaces)))
        if before is not None:
            before.installs(installed(event), moment)
        if event.call in BIRTHS and event.result.isdigit():
            begins(int(event.result), event.pid, moment)
        shown(event.after, moment)
        if event.call == "exit" and before is not None:
            living.pop(event.pid).ended = moment
    bind(walk.lives, told, broken)
    return walk
