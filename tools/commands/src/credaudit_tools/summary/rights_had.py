"""The rights that a family had: each that any member had at any moment of a log, and what its forebears had before it
was born.

A capability counts where it is permitted, since capset(2) makes it effective. So it does over the user namespaces below
the member's own, and each one where the member's effective user id owns the namespace on the way down
(user_namespaces(7), "Capabilities"). Of a namespace in which a member stood the first id of each extent of its maps
counts too: the others of an extent are as near.
"""
from collections.abc import Iterable, Iterator
from dataclasses import dataclass, field

from ..formats.kernel_names import ALL, CAPABILITIES
from ..formats.report import BIRTHS, Report, Standing
from ..formats.rights import Right, ordered
from ..formats.worlds import INITIAL, World
from ..judge.held_by import way_down
from ..replay.spaces_of_report import SpacesTold, of_world

START = -1          # the moment before the first event


@dataclass(eq=False)
class Life:
    """A process from its birth to its end: who gave birth to it, and at which event."""
    maker: "Life | None" = None
    born: int = START


@dataclass
class Lives:
    """All that ever lived, makers first; `moments` has for the start and for each event who stands where then."""
    every: list[Life] = field(default_factory=list)
    last: dict[int, Life] = field(default_factory=dict)
    moments: list[list[tuple[Life, Standing]]] = field(default_factory=list)

    def begins(self, pid: int, maker: int | None, born: int) -> None:
        """A process is there."""
        self.last[pid] = Life(None if maker is None else self.last.get(maker), born)
        self.every.append(self.last[pid])

    def stands(self, shown: Iterable[Standing]) -> None:
        """The credential lines of the start or of an event."""
        self.moments.append([(self.last[one.pid], one) for one in shown])


def lives_of(world: World, report: Report) -> Lives:
    """Who lived, in an accepted replay of that world."""
    lives = Lives()
    for row in world.processes:
        lives.begins(row.pid, row.parent, START)
    lives.stands(report.start)
    for at, event in enumerate(report.events):
        if event.call in BIRTHS and event.result.isdigit():
            lives.begins(int(event.result), event.pid, at)
        lives.stands(event.after)
    return lives


def family_of(lives: Lives, pid: int) -> dict[Life, int]:
    """The lives that count, each with the first event at which it counts no more: of the process and of all that
    descends from it none, of its forebears the birth that leads to it."""
    asked, never = lives.last[pid], len(lives.moments)
    found = {asked: never}
    for each in lives.every:
        if each.maker is not None and found.get(each.maker) == never:
            found[each] = never
    at = asked
    while at.maker is not None and at.born != START and at.maker not in found:
        found[at.maker] = at.born
        at = at.maker
    return found


def over(one: Standing, space: str, spaces: SpacesTold) -> int:
    """The capabilities that a process has, or can make effective, over a namespace."""
    way = way_down(one.space, space, spaces.named)
    if way is None:
        return 0
    owned = len(way) > 1 and spaces.named[way[1]].owner == one.credential.uid[1]
    return ALL if owned else one.credential.prm


def rights_of(one: Standing, spaces: SpacesTold) -> Iterator[Right]:
    """What a process has where it stands."""
    own = one.credential
    yield from (Right("uid", each) for each in (own.uid[1], *own.uid))
    yield from (Right("gid", each) for each in (own.gid[1], *own.gid, *sorted(own.groups)))
    for space in spaces.named:
        bits = over(one, space, spaces)
        yield from (Right("cap", number, space) for number in range(len(CAPABILITIES)) if bits >> number & 1)


def mapped(stood: Iterable[str], spaces: SpacesTold) -> Iterator[Right]:
    """The first id of each extent of the maps of these namespaces."""
    for name in stood:
        if name != INITIAL:
            yield from (Right("uid", low) for _, low, _ in spaces.named[name].uid_map)
            yield from (Right("gid", low) for _, low, _ in spaces.named[name].gid_map)


@dataclass
class Had:
    """What was had so far: in which namespaces somebody stood, and the rights, each once."""
    spaces: SpacesTold
    stood: dict[str, None] = field(default_factory=dict)
    rights: dict[Right, None] = field(default_factory=dict)
    looked_at: set[tuple[object, ...]] = field(default_factory=set)

    def add(self, one: Standing) -> None:
        """What a process has now. One that stands as another did before has nothing new."""
        own = one.credential
        key = own.uid, own.gid, own.groups, own.prm, one.space, len(self.spaces.named)
        if key not in self.looked_at:
            self.looked_at.add(key)
            self.stood[one.space] = None
            self.rights.update(dict.fromkeys(rights_of(one, self.spaces)))


def rights_had(world: World, report: Report, pid: int) -> list[Right]:
    """The rights that the family of a process had, by an accepted replay at whose end the process lives."""
    lives = lives_of(world, report)
    counts, had, living = family_of(lives, pid), Had(of_world(world)), dict[int, tuple[Life, Standing]]()
    for at, shown in enumerate(lives.moments, START):
        spaces = len(had.spaces.named)
        if at > START:
            event = report.events[at]
            before = living.pop(event.pid, None) if event.call == "exit" else living.get(event.pid)
            had.spaces.turn(event, None if before is None else before[1])
        living.update((one.pid, (life, one)) for life, one in shown)
        # Whoever stands above a new namespace has capabilities over it too.
        for life, one in living.values() if len(had.spaces.named) > spaces else shown:
            if counts.get(life, START) > at:
                had.add(one)
    return ordered([*had.rights, *mapped(had.stood, had.spaces)])
