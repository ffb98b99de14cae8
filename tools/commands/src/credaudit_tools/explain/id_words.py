"""Ids, sets and namespaces for the eye: ids with what they are inside and outside of a user namespace, sets by the
names of their capabilities."""
from collections.abc import Callable

from ..formats.certificates import Ids
from ..formats.kernel_names import ALL, CAPABILITIES, SECUREBITS
from ..replay.spaces_of_report import EVERY, SpaceTold, inner
from ..system.namespaces import Extents

NONE_ID = 4294967295        # -1: leaves an id as it is
LAST_ID, FEW_LEFT_OUT, MOST = 4294967294, 8, 12


def set_words(bits: int) -> str:
    """A set by names: all of them, none, those that it has, or all but a few."""
    if bits in (0, ALL):
        return "all capabilities" if bits else "no capabilities"
    absent = [name for number, name in enumerate(CAPABILITIES) if not bits >> number & 1]
    if len(absent) <= FEW_LEFT_OUT:
        return "all capabilities but " + ", ".join("CAP_" + name for name in absent)
    return ", ".join("CAP_" + name for number, name in enumerate(CAPABILITIES) if bits >> number & 1)


def securebits_words(bits: int) -> str:
    """The bits by name (capabilities(7))."""
    found = [f"SECBIT_{name}" for name, bit in SECUREBITS.items() if bits & bit]
    found += [f"SECBIT_{name}_LOCKED" for name, bit in SECUREBITS.items() if bits & bit << 1]
    return ", ".join(found) or "none"


def outside(extents: Extents, number: int) -> int | None:
    """The id of the initial namespace that a map takes an inside one to; None where it takes it to none."""
    for first, low, count in extents:
        if first <= number < first + count:
            return low + number - first
    return None


def beside(extents: Extents | None, number: int, side: str, other: Callable[[Extents, int], int | None]) -> str:
    """An id, with what it is on the other side of a map where that is another; without a map, as it stands."""
    if extents is None or extents == EVERY:
        return str(number)
    found = other(extents, number)
    if found is None:
        return f"{number} ({side}: none)"
    return str(number) if found == number else f"{number} ({side} {found})"


def given_id(extents: Extents | None, number: int) -> str:
    """An id as a call gives it, with what it is outside."""
    return "-1" if number == NONE_ID else beside(extents, number, "outside", outside)


def seen_id(extents: Extents | None, number: int) -> str:
    """An id of the initial namespace, with what it is inside."""
    return beside(extents, number, "inside", inner)


def interval_words(extents: Extents | None, first: int, last: int) -> str:
    """An interval of ids of the initial namespace, with the inside ones of its ends."""
    if first == last:
        return seen_id(extents, first)
    return f"{seen_id(extents, first)} to {seen_id(extents, last)}"


def ids_words(ids: Ids, extents: Extents | None = None) -> str:
    """A set of ids."""
    if ids == ((0, LAST_ID),):
        return "every id"
    told = [interval_words(extents, first, last) for first, last in ids[:MOST]]
    more = len(ids) - MOST
    return (", ".join(told) + (f" and {more} more intervals" if more > 0 else "")) or "none"


def map_lines(space: SpaceTold) -> list[str]:
    """The maps of a namespace for the eye."""
    found = []
    for name, extents in (("uid_map", space.uid_map), ("gid_map", space.gid_map)):
        if extents == EVERY:
            told = "each id is itself"
        elif not extents:
            told = "not written"
        else:
            told = ", ".join(range_words(*each) for each in extents[:MOST])
            told += f" and {len(extents) - MOST} more" if len(extents) > MOST else ""
        found.append(f"{name}: {told}")
    return found


def range_words(first: int, low: int, count: int) -> str:
    """One extent: inside and outside ids."""
    if count == 1:
        return f"{first} is {low} outside"
    return f"{first} to {first + count - 1} are {low} to {low + count - 1} outside"
