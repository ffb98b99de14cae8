"""Evidence for premises (premises.py): what established each, and the doubts that stand against it.

A premise is established where something established it and no doubt of it stands. What nobody speaks of isn't.
"""
from collections.abc import Iterable, Iterator
from dataclasses import dataclass, field
from typing import TYPE_CHECKING, Protocol

from . import premises
from .premises import BY_NAME, TABLE, Premise

if TYPE_CHECKING:
    from ..formats.rights import Right

NOT_SEEN = "nothing establishes it"


class Reach(Protocol):
    """Which rights a doubt touches; `space` is the name of a right's namespace."""

    def touches(self, right: "Right", space: str | None) -> bool:
        """Whether it touches a right."""


@dataclass(frozen=True)
class Doubt:
    """A reason why a premise may not be so; `reach` None: for every right that the premise touches."""
    premise: str
    why: str
    reach: Reach | None = None

    def text(self) -> str:
        """By its row's name."""
        return f"{self.premise}: {self.why}"

    def touches(self, right: "Right", space: str | None) -> bool:
        """Whether it speaks of a right."""
        return BY_NAME[self.premise].touches(right) and (self.reach is None or self.reach.touches(right, space))


@dataclass
class Evidence:
    """By premise what established it, and all doubts; `seen` is what is compared with other evidence later, such as
    times and mount namespaces (scan_fits.py)."""
    established: dict[str, str] = field(default_factory=dict)
    doubts: list[Doubt] = field(default_factory=list)
    seen: dict[str, str] = field(default_factory=dict)

    def establish(self, premise: str, by: str) -> None:
        """Something was seen that a premise rests on: told once, the first one first."""
        told = self.established.get(BY_NAME[premise].name)
        if told is None:
            self.established[premise] = by
        elif by not in told.split("; "):
            self.established[premise] = f"{told}; {by}"

    def doubt(self, premise: str, why: str, reach: Reach | None = None) -> None:
        """Something was seen that stands against a premise; told once."""
        found = Doubt(BY_NAME[premise].name, why, reach)
        if found not in self.doubts:
            self.doubts.append(found)

    def add(self, other: "Evidence", only: Iterable[str] | None = None) -> None:
        """Takes over what another one has, of all premises or of some."""
        names = set(BY_NAME if only is None else only)
        for premise, by in other.established.items():
            if premise in names:
                self.establish(premise, by)
        for each in other.doubts:
            if each.premise in names and each not in self.doubts:
                self.doubts.append(each)

    def copy(self) -> "Evidence":
        """Another one with the same."""
        return self.without(())

    def without(self, names: Iterable[str]) -> "Evidence":
        """Another one with the same, but for these premises."""
        gone = set(names)
        return Evidence({name: by for name, by in self.established.items() if name not in gone},
                        [each for each in self.doubts if each.premise not in gone], dict(self.seen))

    def against(self, premise: Premise, right: "Right", space: str | None) -> tuple[str, ...]:
        """The doubts of a premise for a right; where nothing established it, that too."""
        missing = () if premise.name in self.established else (NOT_SEEN,)
        return (*missing, *(each.why for each in self.doubts
                            if each.premise == premise.name and each.touches(right, space)))

    def lacking(self, right: "Right", space: str | None) -> dict[str, tuple[str, ...]]:
        """Each premise that touches a right and isn't established for it, with the reasons."""
        found = {each.name: self.against(each, right, space) for each in TABLE if each.touches(right)}
        return {name: reasons for name, reasons in found.items() if reasons and not self.follows(name, reasons)}

    def follows(self, premise: str, reasons: tuple[str, ...]) -> bool:
        """Whether what lacks is only that there was no scan, which is a reason of its own."""
        return reasons == (NOT_SEEN,) and premise in premises.OF_FILES and premise != premises.SCAN \
            and premises.SCAN not in self.established

    def holds(self, premise: str) -> bool:
        """Whether a premise is established for every right."""
        return premise in self.established and all(each.premise != premise for each in self.doubts)

    def only_own_calls(self, lacking: Iterable[str]) -> bool:
        """Whether what lacks is about programs alone, since nobody looked for all of them."""
        return premises.SCAN not in self.established and all(BY_NAME[name].of_files() for name in lacking)

    def rows(self, right: "Right", space: str | None) -> Iterator[str]:
        """The rows that touch a right, a line each: what established it, or why it isn't."""
        for each in TABLE:
            if each.touches(right):
                reasons = self.against(each, right, space)
                told = f"doubted: {'; '.join(reasons)}" if reasons else \
                    f"established: {self.established[each.name]}"
                yield f"{each.name}: {each.holds}. {told[:1].upper()}{told[1:]}"


def reasons_of(lacking: dict[str, tuple[str, ...]]) -> tuple[str, ...]:
    """The reasons, each by its row's name."""
    return tuple(f"{name}: {why}" for name, reasons in lacking.items() for why in reasons)
