"""The answer about a family in words: the verdict first, then what the process is, then its rights. Those of which the
same is to be told stand in one line, a set of capabilities by a name where it has one. No line is wider than
shown.WIDE, but where a single word is.
"""
from collections.abc import Callable, Iterator, Mapping, Sequence

from ..command_line.printable import folded, plural, shown
from ..explain.id_words import FEW_LEFT_OUT
from ..formats.kernel_names import CAPABILITIES
from ..formats.rights import Right
from . import classes
from .classes import DOUBTED, GONE, GONE_BY_OWN_CALLS, HELD, OPEN, OWN_CALLS, PROGRAM, Outcome

LABEL = 28              # a longer label stands in lines of its own
# What is said of rights of a class, of one and of several: the worst first.
VERDICTS = {OWN_CALLS: ("comes back by its own calls", "come back by its own calls"),
            PROGRAM: ("comes back through programs", "come back through programs"),
            OPEN: ("is open", "are open"), DOUBTED: ("isn't called gone", "aren't called gone"),
            HELD: ("is held", "are held"),
            GONE_BY_OWN_CALLS: ("is gone by its own calls", "are gone by its own calls"),
            GONE: ("is gone", "are gone")}


def verdict(who: str, outcomes: Sequence[Outcome]) -> str:
    """How many rights are of which class, in one sentence, the worst first."""
    kinds = [each.kind for each in outcomes]
    counts = [(kinds.count(kind), words[kinds.count(kind) > 1]) for kind, words in VERDICTS.items() if kind in kinds]
    if not counts:
        return f"{who}: there is no right to tell of"
    if len(counts) == 1:
        [(count, words)] = counts
        return f"{who}: {'its one right' if count == 1 else f'all {count} rights'} {words}"
    return f"{who}: of {plural(len(kinds), 'right')} " + ", ".join(f"{count} {words}" for count, words in counts)


def capabilities(numbers: Sequence[int], space: str) -> str:
    """Several capabilities over a user namespace: all of them, all but a few, or so many with their names."""
    absent = ["CAP_" + name for number, name in enumerate(CAPABILITIES) if number not in numbers]
    if len(absent) <= FEW_LEFT_OUT:
        return f"all {len(numbers)} capabilities over {space}" if not absent else \
            f"{len(numbers)} capabilities over {space} (all but {', '.join(absent)})"
    names = ", ".join("CAP_" + CAPABILITIES[number] for number in numbers)
    return f"{len(numbers)} capabilities over {space} ({names})"


def label(rights: Sequence[Right]) -> str:
    """Rights of one kind by their names: a right alone as the program reads it."""
    first = rights[0]
    if first.space is None or len(rights) == 1:
        return ", ".join(each.text() for each in rights)
    return capabilities([each.number for each in rights], first.space)


def joined(outcomes: Sequence[Outcome], words: Callable[[Outcome], str]) -> Iterator[tuple[str, str]]:
    """A label and what is told of it: the rights of one kind, and over one user namespace, of which the same is."""
    found: dict[tuple[str, str | None, str], list[Right]] = {}
    for each in outcomes:
        found.setdefault((each.right.kind, each.right.space, words(each)), []).append(each.right)
    return ((label(rights), told) for (_, _, told), rights in found.items())


def right_lines(outcomes: Sequence[Outcome], words: Callable[[Outcome], str]) -> Iterator[str]:
    """The lines of the rights: labels at the left, what is told of them beside, or below a long label."""
    rows = [(shown(name), shown(told)) for name, told in joined(outcomes, words)]
    wide = max((len(name) for name, _ in rows if len(name) <= LABEL), default=2)
    for name, told in rows:
        if len(name) <= wide:
            yield from folded(f"{name:{wide}}  {told}", " " * (wide + 2))
        else:
            yield from folded(name + ":")
            yield from folded(" " * (wide + 2) + told, " " * (wide + 2))


def lines(who: str, title: str, outcomes: Sequence[Outcome], what_ifs: Sequence[str], folder: str | None,
          runs: Mapping[Right, str]) -> list[str]:
    """All of it. `folder` is where certificates were put, `runs` has the run of each right that has one."""
    def words(outcome: Outcome) -> str:
        return classes.words(outcome, folder if outcome.certificate is not None else None, runs.get(outcome.right))
    return [*folded(shown(verdict(who, outcomes))), *folded(shown(title)), *right_lines(outcomes, words),
            *(line for each in what_ifs for line in folded(shown(each)))]
