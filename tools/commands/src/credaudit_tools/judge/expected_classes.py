"""Expected classes of rights, for a check that runs again and again: a text of lines

  RIGHT CLASS[,CLASS ..]      what a right may be; `cap:*`, `uid:*` or `gid:*` for RIGHT: each right of this kind
                              without a line of its own, `*`: each right without any of these
  RIGHT CLASS before CALL     likewise, and where it is gone, since a line before that of the family's first CALL that
                              succeeded or is a mark; `by CALL`: since that line or an earlier one (of timelines alone)
  groups SEEN[,SEEN ..]       whether the groups of the members were seen (groups_seen.py)
  process PID                 the lines below are for the answer about this process, those above the first for each

CLASS may be `held:PATH` or `held:PID`: then a member holds the right that executed this program last, or has this pid,
and no other. SEEN is `seen`, `unseen`, `unseen:PATH` or `unseen:PID`; without the line groups have to be seen. A remark
begins with `#`, at a line's front or behind a blank. A right without a line fails, and so does a text that can't be
whole.
"""
import re
from collections.abc import Iterable, Iterator, Mapping, Sequence
from dataclasses import dataclass, field

from ..command_line.command import Failure
from ..command_line.printable import few, quoted, unescaped
from ..formats.rights import KINDS, Reading, Right
from . import groups_seen
from .classes import CLASSES, HELD, IS_GONE, Outcome
from .holders import Member

ALL_OTHERS, GROUPS, PROCESS, SEEN, UNSEEN = "*", "groups", "process", "seen", "unseen"
OF_KIND = {f"{kind}:*": kind for kind in KINDS}
BEFORE, BY = "before", "by"
MOST, SHOWN = 1 << 20, 200
FORMS = f"RIGHT CLASS, the class one of {', '.join(CLASSES)}, held:PATH, held:PID"
WITH_CALL = f"{FORMS}; behind a class of what is gone may stand before CALL, or by CALL"
CALL = re.compile("[a-z][a-z0-9_]*")


@dataclass(frozen=True)
class Unexpected:
    """What isn't as expected: in the answer about which process, of which right, or of groups, its class and, where
    that matters, whose; what is expected, nothing where no line is for it; and all of it in words."""
    process: int
    right: str
    kind: str
    expected: tuple[str, ...]
    why: str


def is_whose(word: str, front: str) -> bool:
    """Whether a word is `FRONT:PATH` or `FRONT:PID`."""
    name, colon, whose = word.partition(":")
    return name == front and bool(colon) and (whose.startswith("/") or (whose.isascii() and whose.isdigit()))


def others(wanted: Sequence[str], front: str, members: Sequence[Member]) -> list[Member]:
    """Those of the members that no word of these allows."""
    if front in wanted:
        return []
    whose = [each.partition(":")[2] for each in wanted if is_whose(each, front)]
    pids = {int(each) for each in whose if not each.startswith("/")}
    programs = {unescaped(each) for each in whose if each.startswith("/")}
    return [each for each in members if each.pid not in pids and each.program not in programs]


@dataclass(frozen=True)
class When:
    """By when a right has to be gone: `before` the family's first call of that name, or `by` it."""
    word: str
    call: str

    def text(self) -> str:
        """As a line has it."""
        return f"{self.word} {self.call}"


@dataclass
class Lines:
    """By right the classes that it may have; `kinds` are those of rights of a kind without a line, `others` of all
    others, `groups` what may be of groups; None: no line is for them. `when` has of a line's first word by when."""
    rights: dict[Right, tuple[str, ...]] = field(default_factory=dict)
    others: tuple[str, ...] | None = None
    groups: tuple[str, ...] | None = None
    kinds: dict[str, tuple[str, ...]] = field(default_factory=dict)
    when: dict[str, When] = field(default_factory=dict)

    def tells_of_a_right(self) -> bool:
        """Whether a line is for some right."""
        return bool(self.rights or self.kinds) or self.others is not None

    def word(self, right: Right) -> str:
        """The first word of the line that is for a right."""
        of_kind = f"{right.kind}:*"
        return right.text() if right in self.rights else of_kind if right.kind in self.kinds else ALL_OTHERS

    def wanted(self, right: Right) -> tuple[str, ...] | None:
        """The classes that a right may have; None where no line is for it."""
        return self.rights.get(right, self.kinds.get(right.kind, self.others))

    def of_right(self, outcome: Outcome, holders: Sequence[Member], pid: int) -> Unexpected | None:
        """What isn't as expected of a right; None where all is."""
        right, kind, wanted = outcome.right.text(), outcome.kind, self.wanted(outcome.right)
        if wanted is None:
            return Unexpected(pid, right, kind, (), f"{right} is {kind}, and no line of the expected classes is for it")
        if kind != HELD or not any(each.startswith(HELD) for each in wanted):
            said = f"{right} is {kind}, and expected is {' or '.join(wanted)}"
            return None if kind in wanted else Unexpected(pid, right, kind, wanted, said)
        wrong = others(wanted, HELD, holders or [Member(outcome.holder or 0)])
        if not wrong:
            return None
        said = f"{right} is held by {few([each.words() for each in wrong])}, and expected is {' or '.join(wanted)}"
        return Unexpected(pid, right, kinds_of(HELD, wrong), wanted, said)

    def of_groups(self, unseen: Sequence[Member], pid: int) -> Iterator[Unexpected]:
        """What isn't as expected of groups."""
        wanted = self.groups or (SEEN,)
        wrong = others(wanted, UNSEEN, unseen)
        if wrong:
            who = few([each.words() for each in wrong])
            yield Unexpected(pid, GROUPS, kinds_of(UNSEEN, wrong), wanted,
                             f"{who} {groups_seen.WHY}; {groups_seen.ADVICE}, or allow it by a line `groups unseen`")

    def below(self, common: "Lines") -> "Lines":
        """These lines, and the common ones where these have none."""
        words = {right.text() for right in self.rights} | {f"{kind}:*" for kind in self.kinds}
        words |= {ALL_OTHERS} if self.others is not None else set()
        when = {word: each for word, each in common.when.items() if word not in words}
        return Lines({**common.rights, **self.rights}, common.others if self.others is None else self.others,
                     common.groups if self.groups is None else self.groups, {**common.kinds, **self.kinds},
                     {**when, **self.when})


def kinds_of(front: str, members: Sequence[Member]) -> str:
    """A class with the pids of whose it is, as an expectation would allow it."""
    return ",".join(f"{front}:{each.pid}" for each in members)


@dataclass
class Expected:
    """The lines for each answer, and those for the answer about one process."""
    common: Lines = field(default_factory=Lines)
    of_process: dict[int, Lines] = field(default_factory=dict)

    def lines(self, pid: int) -> Lines:
        """The lines for the answer about a process."""
        return self.of_process.get(pid, Lines()).below(self.common)

    def new(self, pid: int, outcomes: Iterable[Outcome], held_by: Mapping[Right, Sequence[Member]],
            unseen: Sequence[Member] = ()) -> list[Unexpected]:
        """What isn't as expected in the answer about a process: of the rights, of which those that are held have their
        holders in `held_by`, and of the members whose groups weren't seen."""
        own = self.lines(pid)
        if self.of_process and pid not in self.of_process:
            return [Unexpected(pid, PROCESS, "living", (), f"process {pid} lives, and no line `process {pid}` of the"
                                                           " expected classes is for it")]
        told = (own.of_right(each, held_by.get(each.right, ()), pid) for each in outcomes)
        return [*(each for each in told if each is not None), *own.of_groups(unseen, pid)]

    def without_answer(self, pids: Iterable[int]) -> list[Unexpected]:
        """The processes for which there are lines, and that aren't asked about: these have an answer."""
        return [Unexpected(pid, PROCESS, "ended", (), f"process {pid} of the expected classes isn't asked about: it has"
                                                      " ended, or descends from another one")
                for pid in sorted(self.of_process.keys() - set(pids))]


# ---- the text --------------------------------------------------------------------------------------------------------


def without_remark(line: str) -> list[str]:
    """The words of a line before its remark."""
    words = line.split()
    first = next((at for at, word in enumerate(words) if word.startswith("#")), len(words))
    return words[:first]


def kinds(words: Sequence[str], number: int, forms: str) -> tuple[str, ...]:
    """The classes of a line. Fails where one is none; `forms` says then what a line may be."""
    right, *rest = words[:2] if when_of(words) is not None else words
    found = tuple(rest[0].split(",")) if len(rest) == 1 else ()
    known, front = ((SEEN, UNSEEN), UNSEEN) if right == GROUPS else (tuple(CLASSES), HELD)
    if not found or not all(each in known or is_whose(each, front) for each in found):
        form = "groups seen, unseen, unseen:PATH or unseen:PID" if right == GROUPS else forms
        raise Failure(f"line {number} of the expected classes is none: {quoted(' '.join(words)[:SHOWN])}", form)
    return found


def when_of(words: Sequence[str]) -> When | None:
    """By when the right of a line has to be gone; None where the line doesn't say it."""
    if len(words) != 4 or words[0] == GROUPS or words[2] not in (BEFORE, BY) or CALL.fullmatch(words[3]) is None:
        return None
    return When(words[2], words[3]) if set(words[1].split(",")) & set(IS_GONE) else None


def read(data: bytes, reading: Reading, with_calls: bool = False) -> Expected:
    """The expected classes of a text. Fails at a line that is none, with its number, and where the text can't be
    whole; unless `with_calls` is given also at a line that tells by when."""
    found, text = Expected(), data.decode("utf-8", "replace").removeprefix("\ufeff")
    at = found.common
    for number, line in enumerate(text.split("\n"), 1):
        words = without_remark(line)
        if words[:1] == [PROCESS]:
            at = section(found, words, number)
        elif words:
            if when_of(words) is not None and not with_calls:
                raise Failure(f"line {number} of the expected classes: {quoted(' '.join(words)[:SHOWN])} tells by when",
                              "credaudit-timeline --expect reads such lines")
            take(at, words, number, reading, WITH_CALL if with_calls else FORMS)
    if not any(each.tells_of_a_right() for each in (found.common, *found.of_process.values())):
        raise Failure("the expected classes have no line of a right, so nothing would be checked",
                      "--classes FILE writes them")
    if not text.endswith("\n"):
        raise Failure("the expected classes end within a line: they were cut", "a line feed ends the last line too")
    return found


def twice(words: Sequence[str], number: int) -> Failure:
    """A line of which there was one before."""
    return Failure(f"line {number} of the expected classes: {quoted(' '.join(words)[:SHOWN])} stands twice")


def section(found: Expected, words: Sequence[str], number: int) -> Lines:
    """The lines of a process, which begin here. Fails where that is no pid, or was there before."""
    if len(words) != 2 or not words[1].isascii() or not words[1].isdigit():
        raise Failure(f"line {number} of the expected classes is none: {quoted(' '.join(words)[:SHOWN])}",
                      "process PID")
    if int(words[1]) in found.of_process:
        raise twice(words, number)
    return found.of_process.setdefault(int(words[1]), Lines())


def take(into: Lines, words: Sequence[str], number: int, reading: Reading, forms: str = FORMS) -> None:
    """Takes a line. Fails where it is none, or stands twice."""
    wanted, first, when = kinds(words, number, forms), words[0], when_of(words)
    named = first in (GROUPS, ALL_OTHERS, *OF_KIND)
    right = None if named else reading.right(first)
    if first == GROUPS and into.groups is None:
        into.groups = wanted
    elif first == ALL_OTHERS and into.others is None:
        into.others = wanted
    elif first in OF_KIND and OF_KIND[first] not in into.kinds:
        into.kinds[OF_KIND[first]] = wanted
    elif right is not None and right not in into.rights:
        into.rights[right] = wanted
    elif right is None and not named:
        raise Failure(f"line {number} of the expected classes names no right: {quoted(first[:SHOWN])}")
    else:
        raise twice(words[:1], number)
    if when is not None:
        into.when[first if right is None else right.text()] = when


def written(outcomes: Iterable[Outcome]) -> list[str]:
    """The lines of a text that expects what is."""
    return [f"{each.right.text()} {each.kind}" for each in outcomes]
