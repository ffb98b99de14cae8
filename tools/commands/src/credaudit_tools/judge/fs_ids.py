"""Members whose fs ids aren't among their effective ones: they make files of these ids (credentials(7), setfsuid(2)).

A file that a process makes has its fs user id and its fs group id, and its owner may set its set-id bits (chmod(2)). So
such a process can give itself the ids by an execve, which the rules know only of declared files. What that gives is for
the program to say: it is asked with such a file declared.
"""
from collections.abc import Sequence
from dataclasses import dataclass, replace

from ..formats.report import Standing
from ..formats.rights import Right
from ..formats.worlds import File, World
from ..system.program_rows import name_for

MODE = 0o6777


@dataclass(frozen=True)
class Among:
    """Some rights."""
    rights: frozenset[Right]

    def touches(self, right: Right, _space: str | None) -> bool:
        """Whether a right is one of them."""
        return right in self.rights


def apart(one: Standing) -> list[str]:
    """The fs ids of a process that aren't among its effective ids and its groups, in words."""
    uid, gid = one.credential.uid, one.credential.gid
    found = [] if uid[3] == uid[1] else [f"fs user id {uid[3]}"]
    return found + ([] if gid[3] == gid[1] or gid[3] in one.credential.groups else [f"fs group id {gid[3]}"])


def reasons(family: Sequence[Standing]) -> list[str]:
    """Who has such ids, each in a sentence."""
    return [f"process {one.pid} has the {' and the '.join(apart(one))} beside other effective ids: it makes files of"
            " it, and gives these set-id bits (setfsuid(2), chmod(2))" for one in family if apart(one)]


def with_files_of(world: World, family: Sequence[Standing]) -> World:
    """The world where each member with such ids has made a file of them, with set-id bits, that everybody may
    execute."""
    taken, made = {row.path for row in world.files}, dict[tuple[int, int], File]()
    for one in family:
        ids = one.credential.uid[3], one.credential.gid[3]
        if apart(one) and ids not in made:
            made[ids] = File(name_for(b"/made", taken), *ids, MODE)
            taken.add(made[ids].path)
    return replace(world, files=[*world.files, *made.values()])
