"""The user namespaces of a replay: which a report makes, and the ids that their maps take to which
(user_namespaces(7)).

All of it is read from the report's own lines and from the world that was replayed; nothing is judged here.
"""
from dataclasses import dataclass, field

from ..formats.kernel_names import NUMBERS
from ..formats.report import Event, Report, Standing, turn
from ..formats.worlds import INITIAL, World
from ..system.namespaces import Extents

SETFCAP = NUMBERS["CAP_SETFCAP"]
OVERFLOW = 65534            # the id that the kernel shows for one without a mapping (user_namespaces(7))
EVERY: Extents = ((0, 0, 4294967295),)


@dataclass
class SpaceTold:
    """A namespace of a replay. The outside numbers of its maps are ids as the initial namespace has them; a map that
    isn't written is empty."""
    parent: str | None
    owner: int
    uid_map: Extents = ()
    gid_map: Extents = ()
    setgroups: str = "allow"
    setfcap: bool = False       # its creator had CAP_SETFCAP


@dataclass
class SpacesTold:
    """By name the namespaces so far."""
    named: dict[str, SpaceTold] = field(default_factory=dict)

    def turn(self, event: Event, before: Standing | None) -> None:
        """Takes them from before an event to after it; `before` is the caller's standing then."""
        if before is None or not succeeded(event):
            return
        if event.call in ("unshare", "clone_user") and event.after:
            inner = event.after[-1].space
            above = self.named[before.space]
            self.named[inner] = SpaceTold(before.space, before.credential.uid[1], setgroups=above.setgroups,
                                          setfcap=bool(before.credential.eff >> SETFCAP & 1))
        elif event.call in ("write_uid_map", "write_gid_map"):
            own = self.named[event.arguments[0]]
            key = event.call.removeprefix("write_")
            setattr(own, key, self.taken_down(own.parent, key, triples(event.arguments[1:])))
        elif event.call == "write_setgroups":
            self.named[event.arguments[0]].setgroups = event.arguments[1]

    def taken_down(self, parent: str | None, key: str, extents: Extents) -> Extents:
        """Extents with outside numbers of the parent, as extents with those of the initial namespace."""
        above: Extents = EVERY if parent is None else getattr(self.named[parent], key)
        found = []
        for inside, outside, length in extents:
            for first, low, count in above:
                if first <= outside and outside + length <= first + count:
                    found.append((inside, low + outside - first, length))
        return tuple(found)


def of_world(world: World) -> SpacesTold:
    """The namespaces that a world declares."""
    told = SpacesTold({INITIAL: SpaceTold(None, 0, EVERY, EVERY)})
    for space in world.spaces:
        maps = [told.taken_down(space.parent, key, own or ()) for key, own in
                (("uid_map", space.uid_map), ("gid_map", space.gid_map))]
        told.named[space.name] = SpaceTold(space.parent, space.owner, maps[0], maps[1], space.setgroups,
                                           space.creator_setfcap)
    return told


def at_end(read: Report, world: World) -> SpacesTold:
    """The namespaces at the end of a replay of that world. KeyError where the report has one that the world can't
    have."""
    told, standing = of_world(world), {one.pid: one for one in read.start}
    for event in read.events:
        told.turn(event, standing.get(event.pid))
        turn(standing, event)
    return told


def succeeded(event: Event) -> bool:
    """Whether an event's result is none of an error."""
    return event.result.isdigit()


def triples(words: tuple[str, ...]) -> Extents:
    """The extents of an event's words."""
    values = [int(word) for word in words]
    return tuple((values[at], values[at + 1], values[at + 2]) for at in range(0, len(values), 3))


def inner(extents: Extents, number: int) -> int | None:
    """The inside id that a map takes to an id of the initial namespace; None where there is none."""
    for first, low, count in extents:
        if low <= number < low + count:
            return first + number - low
    return None


def inside(extents: Extents, number: int) -> int:
    """An id as the processes of a namespace see it."""
    found = inner(extents, number)
    return OVERFLOW if found is None else found


def joined(extents: Extents) -> Extents:
    """The same map in one form: ascending, neighbours as one."""
    found: list[tuple[int, int, int]] = []
    for first, low, count in sorted(extents):
        if found and found[-1][0] + found[-1][2] == first and found[-1][1] + found[-1][2] == low:
            found[-1] = (found[-1][0], found[-1][1], found[-1][2] + count)
        else:
            found.append((first, low, count))
    return tuple(found)


def map_words(extents: Extents) -> str:
    """A map for the eye."""
    return ", ".join(" ".join(map(str, each)) for each in joined(extents)) or "not written"
