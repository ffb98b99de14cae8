"""Which rights the family of a process holds at each moment, read off the replay (docs/VERDICT.md has what holding is).

Sets of rights are bits of a number here, one for each right of a list: a family holds what one of its members does.
"""
from collections.abc import Iterable, Sequence
from dataclasses import dataclass, field

from ..formats.report import Standing
from ..formats.rights import Right
from ..judge.held_by import ways
from ..replay.spaces_of_report import SpacesTold
from .walk import Life, Walk


def space_of(right: Right, spaces: SpacesTold) -> str | None:
    """The name of a right's namespace in the log: `#N` may name a declared one."""
    names, token = list(spaces.named), right.space
    if token is None or not token.startswith("#"):
        return token
    number = int(token[1:])
    return names[number] if number < len(names) else token


@dataclass
class Holding:
    """What each standing holds of a list of rights, looked at once."""
    rights: Sequence[Right]
    walk: Walk
    looked_at: dict[tuple[object, ...], int] = field(default_factory=dict)

    def __post_init__(self) -> None:
        self.spaces = self.walk.spaces[-1][1]
        self.places = [space_of(right, self.spaces) for right in self.rights]

    def of(self, one: Standing) -> int:
        """The rights that a process holds where it stands. It may be that their namespaces don't stand yet."""
        own = one.credential
        key = own.uid[1], own.gid[1], own.groups, own.eff, one.space
        if key not in self.looked_at:
            self.looked_at[key] = bits(at for at, (right, space) in enumerate(zip(self.rights, self.places))
                                       if ways(one, right, space, self.spaces.named))
        return self.looked_at[key]

    def there(self, moment: int) -> int:
        """The rights that can be asked about at a moment: those whose namespace stands."""
        named = self.walk.spaces_at(moment).named
        return bits(at for at, space in enumerate(self.places) if space is None or space in named)

    def of_family(self, life: Life, moment: int) -> int:
        """The rights that the family of a process holds at a moment."""
        found = 0
        for each in self.walk.family(life, moment):
            found |= self.of(each.at(moment))
        return found & self.there(moment)


def bits(places: Iterable[int]) -> int:
    """The number with these bits."""
    found = 0
    for at in places:
        found |= 1 << at
    return found
