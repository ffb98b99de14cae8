"""Whether rights are gone by when it is expected (expected_classes.py): since a line before that of the family's first
call of a name, or by that line.

A call counts where it succeeded, or where it is a mark, whatever it answered: who asked the network, and got nothing,
could have got something.
"""
from collections.abc import Iterator

from ..formats.rights import Right
from ..judge.expected_classes import BEFORE, Expected, Unexpected, When
from ..replay.spaces_of_report import succeeded
from .lanes import gone_since
from .timeline import Answer
from .walk import Walk


def first_call(walk: Walk, answer: Answer, name: str) -> int | None:
    """The line of the family's first call of a name; None where it never comes."""
    lives = list(answer.life.descendants())
    found = [walk.reached[moment] for moment, event in enumerate(walk.events, 1)
             if event.call == name and succeeded(event) and any(life.pid == event.pid and life.lives(moment - 1)
                                                                for life in lives)]
    found += [mark.line for lane in answer.lanes for each in (lane, *lane.alike) for mark in each.marks
              if mark.call == name]
    return min(found, default=None)


def why_late(when: When, since: int, call: int | None) -> str | None:
    """Why a right that is gone since a line isn't so by when it is expected, where the call's first line is this one;
    None where it is."""
    if call is None:
        return f"expected is {when.text()}, which never comes"
    if since < call if when.word == BEFORE else since <= call:
        return None
    return f"expected is {when.text()}, whose first line is {call}"


def late(walk: Walk, answer: Answer, expected: Expected) -> Iterator[Unexpected]:
    """The rights of an answer that are gone, and not by when it is expected."""
    lines = expected.lines(answer.life.pid)
    calls = {each.call: first_call(walk, answer, each.call) for each in lines.when.values()}
    for right, spans in answer.lanes[0].rights():
        when, moment = lines.when.get(lines.word(right)), gone_since(spans)
        if when is None or moment is None:
            continue
        since = walk.reached[moment]
        why = why_late(when, since, calls[when.call])
        if why is not None:
            yield unexpected(answer.life.pid, right, spans[-1].kind, since, when, why)


def unexpected(pid: int, right: Right, kind: str, line: int, when: When, why: str) -> Unexpected:
    """A right that is gone too late."""
    return Unexpected(pid, right.text(), kind, (f"{kind} {when.text()}",),
                      f"{right.text()} is {kind} since line {line}, and {why}")


def new(walk: Walk, answer: Answer, expected: Expected) -> list[Unexpected]:
    """What isn't as expected in an answer: the classes at the log's end, and by when."""
    outcomes = [spans[-1].outcome for _, spans in answer.lanes[0].rights()]
    return [*expected.new(answer.life.pid, outcomes, answer.held_by, answer.unseen), *late(walk, answer, expected)]
