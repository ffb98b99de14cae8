"""How a process has a right now: by which id, or by which set over which user namespace (docs/VERDICT.md;
user_namespaces(7), "Capabilities").
"""
from collections.abc import Iterator, Mapping

from ..formats.report import Standing
from ..formats.rights import Right
from ..replay.spaces_of_report import SpaceTold


def way_down(above: str, space: str, named: Mapping[str, SpaceTold]) -> list[str] | None:
    """The namespaces from one down to another, both of them too; None where the second isn't below the first."""
    way = [space]
    while way[-1] != above:
        parent = named[way[-1]].parent if way[-1] in named else None
        if parent is None:
            return None
        way.append(parent)
    return way[::-1]


def over(one: Standing, right: Right, space: str, named: Mapping[str, SpaceTold]) -> Iterator[str]:
    """By what a process has a capability over a namespace: the effective set of its own one, where that is it or above
    it, and its effective user id, where that owns the one on the way down from its own."""
    way, own = way_down(one.space, space, named), one.credential
    if way is not None and own.eff >> right.number & 1:
        yield "effective set" if len(way) == 1 else f"effective set in {one.space}, above {space}"
    if way is not None and len(way) > 1 and named[way[1]].owner == own.uid[1]:
        yield f"effective user id {own.uid[1]}, owner of {way[1]}"


def ways(one: Standing, right: Right, space: str | None, named: Mapping[str, SpaceTold]) -> list[str]:
    """By what a process has a right; `space` is the name of its namespace. Nothing where it doesn't have it."""
    own = one.credential
    if right.kind == "uid":
        return ["effective user id"] if own.uid[1] == right.number else []
    if right.kind == "gid":
        found = ["effective group id"] if own.gid[1] == right.number else []
        return found + (["supplementary group"] if right.number in own.groups else [])
    return [] if space is None else list(over(one, right, space, named))


def holders(family: tuple[Standing, ...], right: Right, space: str | None,
            named: Mapping[str, SpaceTold]) -> tuple[str, ...]:
    """The members that have a right, by ascending pid, each with all by which it has it."""
    told = [(one.pid, ways(one, right, space, named)) for one in sorted(family, key=lambda one: one.pid)]
    return tuple(f"process {pid} ({' and '.join(each)})" for pid, each in told if each)
