"""The user namespaces of a live system as rows of a world (user_namespaces(7)).

The kernel shows their maps to the initial namespace with ids as that one has them. A world has the outside numbers as
the parent sees them, so each range is taken up through the parent's map. Parents stand before their children.
"""
from dataclasses import dataclass

from ..command_line.command import Failure
from ..formats import worlds
from .kernel_questions import Kernel, Trouble
from .namespaces import INITIAL_INODE, Extents, UserSpace

MOST = 255


@dataclass(frozen=True)
class Spaces:
    """Rows, and by the kernel's number the name of each, `init` for the initial one."""
    rows: list[worlds.Space]
    names: dict[int, str]
    open_maps: list[str]         # the names of those whose uid_map isn't written
    troubles: list[Trouble]


def inside_parent(extents: Extents, parent: Extents) -> Extents:
    """The ranges with outside numbers as the parent sees them, of ranges that have them as the initial namespace
    does."""
    found = []
    for inside, outside, length in extents:
        holding = [(first, low) for first, low, count in parent if low <= outside and outside + length <= low + count]
        if not holding:
            raise Failure(f"a namespace maps the ids from {outside}, and its parent doesn't")
        first, low = holding[0]
        found.append((inside, first + outside - low, length))
    return tuple(found)


def with_parents(kernel: Kernel, keys: set[int]) -> dict[int, UserSpace]:
    """The namespaces of these numbers and all above them, but the initial one."""
    found: dict[int, UserSpace] = {}
    waiting = sorted(keys)
    while waiting:
        key = waiting.pop()
        if key == INITIAL_INODE or key in found:
            continue
        found[key] = kernel.user_space(key)
        above = found[key].parent
        if above is None:
            raise Failure("a namespace's parent isn't shown", "capture from the initial user namespace")
        waiting.append(above)
    return found


def depth(spaces: dict[int, UserSpace], key: int) -> int:
    """How many namespaces are above that one, 0 for the initial one."""
    above = spaces[key].parent if key in spaces else None
    return 0 if above is None else 1 + depth(spaces, above)


def row_of(space: UserSpace, name: str, parent_name: str, parent: UserSpace | None) -> worlds.Space:
    """One row. Who made a namespace is over: that it had CAP_SETFCAP is taken where it can still matter, since that
    allows more maps."""
    maps = []
    for own, above in ((space.uid_map, parent.uid_map if parent else None),
                       (space.gid_map, parent.gid_map if parent else None)):
        maps.append((own if above is None else inside_parent(own, above)) or None)
    return worlds.Space(name=name, parent=parent_name, owner=space.owner, uid_map=maps[0], gid_map=maps[1],
                        setgroups=space.setgroups or "allow", creator_setfcap=maps[0] is None)


def rows(kernel: Kernel, keys: set[int], troubles: list[Trouble]) -> Spaces:
    """The rows of these namespaces and of all above them: by depth, then in the order of the kernel's numbers."""
    spaces = with_parents(kernel, keys)
    order = sorted(spaces, key=lambda key: (depth(spaces, key), key))
    if len(order) > MOST:
        raise Failure(f"there are {len(order)} user namespaces, and a world has at most {MOST}",
                      "--own-spaces declares those alone in which the family stands, and those above them")
    names = {INITIAL_INODE: worlds.INITIAL}
    names.update((key, f"space{number}") for number, key in enumerate(order, 1))
    found = []
    for key in order:
        above = spaces[key].parent or INITIAL_INODE
        found.append(row_of(spaces[key], names[key], names[above], spaces.get(above)))
    return Spaces(found, names, [row.name for row in found if row.creator_setfcap], troubles)
