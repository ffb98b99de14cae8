"""The world at a log's end: the family of a process as the replay leaves it, the namespaces and the files, with an
empty log. It is asked what the world and the log can't be: what the family can by its own calls, without files, and
what another start would change.

All of it is read from the report's own lines and from the world that was replayed. A world can't declare a process's
own filter: what those of the whole family exclude stands in its [filter], and what only some of them exclude is taken
to be permitted.
"""
from collections.abc import Iterable, Mapping, Sequence
from dataclasses import dataclass, field, replace

from ..formats.report import Report, Standing
from ..formats.worlds import INITIAL, Map, Process, Space, World
from ..system.namespaces import Extents
from .own_filters import NOTHING, at_end as filters_at_end, shared
from .spaces_of_report import SpaceTold, SpacesTold, at_end

# Calls by which a process takes ids, groups, capabilities or user namespaces: what a strict filter would refuse.
CHANGING = ("setuid setreuid setresuid setfsuid setgid setregid setresgid setfsgid setgroups capset securebits keepcaps"
            " amb_raise clone_user unshare setns write_uid_map write_gid_map write_setgroups").split()


@dataclass
class Births:
    """Who descends from whom: `parents` has the nearest living ancestor of each living process, `makers` whoever gave
    birth to each that ever lived."""
    parents: dict[int, int | None] = field(default_factory=dict)
    makers: dict[int, list[int]] = field(default_factory=dict)

    def born(self, child: int, parent: int | None) -> None:
        """A process is there."""
        self.parents.pop(child, None)
        self.parents[child] = parent
        if parent is not None:
            self.makers.setdefault(child, []).append(parent)

    def ended(self, pid: int) -> None:
        """A process is gone; its children go to the nearest living ancestor."""
        above = self.parents.pop(pid, None)
        for child, parent in self.parents.items():
            if parent == pid:
                self.parents[child] = above

    def family(self, root: int) -> list[int]:
        """The process and the living that descend from it, parents first."""
        found = [root]
        for pid, parent in self.parents.items():
            if parent in found and pid != root:
                found.append(pid)
        return found

    def lineage(self, pids: list[int]) -> set[int]:
        """These, and all from which they descend: whoever's calls can have made them what they are."""
        found, left = set(pids), list(pids)
        while left:
            for maker in set(self.makers.get(left.pop(), [])) - found:
                found.add(maker)
                left.append(maker)
        return found


def births_of(world: World, read: Report) -> Births:
    """The births and ends of a world and a replay in it."""
    births = Births()
    for row in world.processes:
        births.born(row.pid, row.parent)
    for event in read.events:
        if event.call in ("fork", "clone_user") and event.result.isdigit():
            births.born(int(event.result), event.pid)
        elif event.call == "exit":
            births.ended(event.pid)
    return births


@dataclass(frozen=True)
class End:
    """The end of a replay: the world there, whose family has the asked process first, and the names that it gives to
    the namespaces which calls made."""
    world: World
    family: tuple[Standing, ...]
    spaces: SpacesTold
    names: dict[str, str]
    lineage: frozenset[int]

    def token(self, name: str) -> str:
        """A namespace of the replay by its name in this world."""
        return self.names.get(name, name)


def parents_ids(extents: Extents, above: Extents) -> Map | None:
    """A map as the kernel has it, with outside ids of the parent; None where it isn't written."""
    found = []
    for first, low, count in extents:
        for inside, start, length in above:
            if start <= low and low + count <= start + length:
                found.append((first, inside + low - start, count))
                break
    return tuple(found) or None


def new_names(spaces: SpacesTold) -> dict[str, str]:
    """Names for the namespaces that calls made: a world can't declare `#N`."""
    taken, found = set(spaces.named), dict[str, str]()
    for name in spaces.named:
        if name.startswith("#"):
            word = "made-" + name.removeprefix("#")
            while word in taken:
                word += "x"
            found[name] = word
            taken.add(word)
    return found


def row_of(name: str, own: SpaceTold, spaces: SpacesTold, names: dict[str, str]) -> Space:
    """The row of a namespace."""
    above = spaces.named[own.parent or INITIAL]
    return Space(names.get(name, name), names.get(own.parent or INITIAL, own.parent or INITIAL), own.owner,
                 parents_ids(own.uid_map, above.uid_map), parents_ids(own.gid_map, above.gid_map), own.setgroups,
                 own.setfcap)


def excluding(world: World, excluded: frozenset[str]) -> list[str] | None:
    """What the world's filter excludes, and these calls; None where it has none."""
    declared = world.exclude or []
    return [*declared, *sorted(excluded - set(declared))] if excluded else world.exclude


def end_with(world: World, family: Sequence[Standing], parents: Mapping[int, int | None], spaces: SpacesTold,
             lineage: Iterable[int], excluded: frozenset[str] = NOTHING) -> End:
    """The end where a family stands so, the asked process first and parents before their children, in these
    namespaces. `parents` has the nearest living ancestor of each member but the first; `excluded` is what the filters
    of all members exclude."""
    names = new_names(spaces)
    rows = [row_of(name, own, spaces, names) for name, own in spaces.named.items() if name != INITIAL]
    members = [Process(one.pid, one.credential, parents[one.pid] if place else None, names.get(one.space, one.space))
               for place, one in enumerate(family)]
    made = World("script", rows, list(world.mounts), list(world.files), members, excluding(world, excluded))
    return End(made, tuple(family), spaces, names, frozenset(lineage))


def end_of(world: World, read: Report, pid: int) -> End:
    """The end of an accepted replay, of the family of a process that lives then."""
    births, alive = births_of(world, read), read.alive()
    family, filters = births.family(pid), filters_at_end(read.events)
    return end_with(world, [alive[each] for each in family], births.parents, at_end(read, world),
                    births.lineage(family), shared(filters.get(each, NOTHING) for each in family))


# ---- what would change -----------------------------------------------------------------------------------------------


def without_files(world: World) -> World:
    """The world without declared programs: what the family can by its own calls."""
    return replace(world, files=[])


def limited(world: World) -> World:
    """The world where each member has no_new_privs."""
    return replace(world, processes=[replace(each, credential=replace(each.credential, nnp=True))
                                     for each in world.processes])


def unbounded(world: World) -> World:
    """The world where each member has an empty bounding set."""
    return replace(world, processes=[replace(each, credential=replace(each.credential, bnd=0))
                                     for each in world.processes])


def filtered(world: World) -> World:
    """The world where a filter refuses each member every call that takes ids, capabilities or user namespaces."""
    return replace(world, exclude=[*(world.exclude or []), *(each for each in CHANGING
                                                             if each not in (world.exclude or []))])
