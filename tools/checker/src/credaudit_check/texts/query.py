"""Queries: a process, a right, and the family (FORMATS.md, "Words")."""
from dataclasses import dataclass

from .ends import Ended, limit
from ..rules.capabilities import NUMBERS
from ..rules.ids import LAST_ID
from ..rules.machine import State, World
from .script import number_of, pid_of, space_of

MOST_OF_FAMILY = 256


@dataclass(frozen=True)
class Right:
    """A user id, a group id, or a capability (as a set of one) over a space."""
    kind: str
    number: int
    space: int = 0


def right_of(text: bytes, world: World) -> Right | None:
    """The right that a text tells; None where it is none."""
    kind, colon, rest = text.partition(b":")
    if not colon:
        return None
    if kind in (b"uid", b"gid"):
        number = number_of(rest, LAST_ID)
        return None if number is None else Right(kind.decode(), number)
    name, at, token = rest.partition(b"@")
    space = space_of(token, world)
    number = NUMBERS.get(name.decode("utf-8", "replace"))
    if kind != b"cap" or not at or space is None or number is None:
        return None
    return Right("cap", 1 << number, space)


def family_and_right(world: World, state: State, pid_text: bytes, right_text: bytes) -> tuple[list[int], Right]:
    """The family and the right of a query that stands; what refuses it is raised."""
    pid = pid_of(pid_text)
    if pid is None or pid not in state.processes:
        raise Ended("bad query: pid", 12)
    right = right_of(right_text, world)
    if right is None:
        raise Ended("bad query: right", 12)
    if right.space >= len(state.spaces):
        raise Ended("bad query: space", 12)
    family = state.family(pid)
    if len(family) > MOST_OF_FAMILY:
        raise limit("family", MOST_OF_FAMILY)
    return family, right
