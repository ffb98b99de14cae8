"""Sets of ids as ascending intervals that don't touch, and maps of ids (user_namespaces(7))."""
from collections.abc import Iterable, Sequence

NO_ID = 4294967295
LAST_ID = NO_ID - 1
MOST_LINES = 340

Interval = tuple[int, int]      # first and last, both in the set
Ids = tuple[Interval, ...]
MapLine = tuple[int, int, int]  # inside, outside, length
IdMap = tuple[MapLine, ...]

IDENTITY: IdMap = ((0, 0, NO_ID),)


# ---- sets of ids


def ids_of(intervals: Iterable[Interval]) -> Ids:
    """The set of what lies in some of the intervals."""
    found: list[Interval] = []
    for first, last in sorted(intervals):
        if found and first <= found[-1][1] + 1:
            found[-1] = found[-1][0], max(found[-1][1], last)
        else:
            found.append((first, last))
    return tuple(found)


def these(ids: Iterable[int]) -> Ids:
    """The set of some ids."""
    return ids_of((one, one) for one in ids)


def together(*sets: Ids) -> Ids:
    """The union."""
    return ids_of(interval for ids in sets for interval in ids)


def common(left: Ids, right: Ids) -> Ids:
    """The intersection."""
    found = []
    at = of = 0
    while at < len(left) and of < len(right):
        first, last = max(left[at][0], right[of][0]), min(left[at][1], right[of][1])
        if first <= last:
            found.append((first, last))
        if left[at][1] < right[of][1]:
            at += 1
        else:
            of += 1
    return tuple(found)


def has(ids: Ids, one: int | None) -> bool:
    """Whether an id is in the set; none is in no set."""
    return one is not None and any(first <= one <= last for first, last in ids)


def within(inner: Ids, outer: Ids) -> bool:
    """Whether each id of the one is in the other: each interval lies within one of the other's."""
    at = 0
    for first, last in inner:
        while at < len(outer) and outer[at][1] < first:
            at += 1
        if at == len(outer) or not (outer[at][0] <= first and last <= outer[at][1]):
            return False
    return True


def has_another(ids: Ids, one: int | None) -> bool:
    """Whether the set has an id other than this one; where this is none, whether it has any."""
    return any((first, last) != (one, one) for first, last in ids)


# ---- maps


def down(lines: IdMap | None, inside: int) -> int | None:
    """The outside id of an inside one. A map that isn't written (None) maps nothing."""
    for start, outside, length in lines or ():
        if start <= inside < start + length:
            return outside + inside - start
    return None


def up(lines: IdMap | None, outside: int | None) -> int | None:
    """The inside id of an outside one."""
    if outside is not None:
        for inside, start, length in lines or ():
            if start <= outside < start + length:
                return inside + outside - start
    return None


def outside_ids(lines: IdMap | None) -> Ids:
    """All outside ids of a map."""
    return ids_of((start, start + length - 1) for _, start, length in lines or ())


def is_map(lines: Sequence[MapLine]) -> bool:
    """Whether a list is a map: 1 to 340 lines, none empty, none past the last id, no two that meet."""
    if not 1 <= len(lines) <= MOST_LINES:
        return False
    if any(length < 1 or max(inside, outside) + length - 1 > LAST_ID for inside, outside, length in lines):
        return False
    for side in (0, 1):
        ranges = sorted((line[side], line[2]) for line in lines)
        if any(start + length > after for (start, length), (after, _) in zip(ranges, ranges[1:])):
            return False
    return True


def taken_down(lines: Sequence[MapLine], through: IdMap | None) -> IdMap | None:
    """The lines with their outside ranges taken through a parent's map; None where one lies in no line of that."""
    found = []
    for inside, outside, length in lines:
        for start, below, size in through or ():
            if start <= outside and outside + length <= start + size:
                found.append((inside, below + outside - start, length))
                break
        else:
            return None
    return tuple(found)
