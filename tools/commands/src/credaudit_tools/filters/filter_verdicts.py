"""What filters of system calls do with a call: let it through, refuse it, or tell an answer that isn't the kernel's
(seccomp(2)). Of several filters that one decides whose action comes first in the manual page's order; of two with the
same action the one that was installed later.
"""
from collections.abc import Iterable, Sequence

from . import bpf
from .bpf import Program
from .bpf_walk import returns, start
from .call_numbers import LISTED, Asked

# What a filter can make of a call.
MADE, REFUSED, FAKED = "made", "refused", "faked"
SUCCESS = "answers calls with success, without making them"
COMPUTED = "answers what it works out, which isn't known"
NOTIFIED = "hands calls to another process (user notification), which may answer anything"
TRACED = "hands calls to a tracer, which may answer anything"
FAKES = {bpf.NOTIFY: NOTIFIED, bpf.TRACE: TRACED}

Answer = int | None         # what a filter returned; None where it is worked out of what isn't known


def fake_of(answer: Answer) -> str | None:
    """Why a return may hide a call that wasn't made; None where it doesn't."""
    if answer is None:
        return COMPUTED
    if answer & bpf.ACTION == bpf.ERRNO and answer & bpf.DETAIL == 0:
        return SUCCESS
    return FAKES.get(answer & bpf.ACTION)


def outcome_of(answer: Answer) -> str:
    """What becomes of a call by what the filters return. An action that the kernel doesn't know ends the process."""
    if fake_of(answer) is not None:
        return FAKED
    return MADE if answer is not None and answer & bpf.ACTION in (bpf.ALLOW, bpf.LOG) else REFUSED


def rank(answer: Answer) -> int:
    """The place of an action in the manual page's order, which is that of the actions as numbers with a sign; what
    isn't known may be any, and stands first."""
    if answer is None:
        return -1 << 32
    action = answer & bpf.ACTION
    return action - (1 << 32) if action >> 31 else action


def decided(later: Answer, earlier: Answer) -> Answer:
    """What two filters together return."""
    return earlier if rank(earlier) < rank(later) else later


# ---- programs --------------------------------------------------------------------------------------------------------


def can_fake(program: Program) -> bool:
    """Whether any return of a program may hide a call, wherever it stands."""
    return any(one.code & 7 == bpf.RETURN and (one.code & bpf.RETURN_A or fake_of(one.k) is not None)
               for one in program)


def answers(programs: Sequence[Program], architecture: int, number: int, asked: Asked) -> frozenset[Answer]:
    """All that filters, the first installed first, can return together for a call."""
    found: frozenset[Answer] = frozenset((bpf.ALLOW,))
    begin = start(architecture, number, dict(asked.words))
    for program in programs:
        own = {each.number for each in returns(program, begin)}
        found = frozenset(decided(later, earlier) for later in own for earlier in found)
    return found


def outcomes(programs: Sequence[Program], asked: Asked) -> frozenset[str]:
    """All that can become of a call, by whichever architecture it comes: certainly refused is `{REFUSED}` alone,
    certainly let through `{MADE}` alone."""
    return frozenset(outcome_of(answer) for architecture, number in asked.numbers
                     for answer in answers(programs, architecture, number, asked))


def fakes(programs: Sequence[Program], calls: Iterable[Asked] = LISTED) -> dict[str, str]:
    """Of the calls those whose answer filters can fake, and why."""
    if not any(map(can_fake, programs)):
        return {}
    found: dict[str, str] = {}
    for asked in calls:
        for architecture, number in asked.numbers:
            told = sorted(why for answer in answers(programs, architecture, number, asked)
                          if (why := fake_of(answer)) is not None)
            if told:
                found.setdefault(asked.name, told[0])
    return found


def refuses(programs: Sequence[Program], asked: Asked) -> bool:
    """Whether filters may answer a call with an error, without making it."""
    return any(fake_of(answer) is not None or (answer is not None and answer & bpf.ACTION == bpf.ERRNO)
               for architecture, number in asked.numbers
               for answer in answers(programs, architecture, number, asked))
