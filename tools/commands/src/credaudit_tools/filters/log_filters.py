"""Filters of system calls (seccomp(2)) as a log tells of them: what each may answer in the kernel's place, and which
stand for each thread."""
from collections.abc import Sequence
from dataclasses import dataclass

from ..command_line.printable import few
from ..formats.strace_lines import Call, words
from .bpf import Program, of_text

SHOWN_NAMES = 3
NOT_WHOLE = "isn't shown whole"


@dataclass(frozen=True)
class Filter:
    """A filter that was installed: by whom, its text, its program where it is shown whole, and why what it answers
    can't be trusted. `before` is set where it stood before the recording began, `alone` where nobody else of the
    recording lived as it was installed: then nothing of it could be exchanged while strace read it."""
    pid: int
    text: str
    program: Program | None
    doubts: tuple[str, ...]
    before: bool = False
    alone: bool = True


def doubts_of(program: Program) -> tuple[str, ...]:
    """Why what a filter answers can't be trusted, with the calls."""
    from .filter_verdicts import fakes          # most recordings have no filter to be followed
    names: dict[str, list[str]] = {}
    for name, why in fakes((program,)).items():
        names.setdefault(why, []).append(name)
    return tuple(f"{why} ({few(told, SHOWN_NAMES)})" for why, told in sorted(names.items()))


def of_argument(pid: int, argument: bytes, alone: bool = True) -> Filter:
    """The filter of the argument that strace decoded."""
    program = of_text(argument)
    doubts = (NOT_WHOLE,) if program is None else doubts_of(program)
    return Filter(pid, argument.decode("ascii", "backslashreplace"), program, doubts, alone=alone)


def may_refuse(standing: Sequence[Filter], call: Call) -> bool:
    """Whether filters may answer a call with an error: then that may be theirs, and no rule tells it. One that isn't
    known may."""
    from .call_numbers import LISTED            # as above
    from .filter_verdicts import refuses
    name = call.name.decode("ascii", "replace")
    option = call.arguments[0].decode("ascii", "replace") if call.arguments else ""
    asked = [each for each in LISTED if each.name in (name, f"{name}({option})", f"{name}(CLONE_NEWUSER)")]
    programs = [each.program for each in standing if each.program is not None]
    return len(programs) < len(standing) or any(refuses(programs, each) for each in asked)


def before(pid: int, program: Program | None) -> Filter:
    """A filter that stood before the recording began; None where it isn't known."""
    return Filter(pid, "", program, () if program is None else doubts_of(program), before=True)


# ---- calls that install one ------------------------------------------------------------------------------------------


@dataclass(frozen=True)
class Installing:
    """A call that installed a filter: its argument, and whether all threads of the process have it."""
    argument: bytes
    for_all: bool


def installing(call: Call) -> Installing | None:
    """What a call installed, None where it installed no filter. With SECCOMP_FILTER_FLAG_TSYNC and without a listener a
    positive number is that of a thread which kept it from being installed."""
    if call.done is None:
        return None
    if call.name == b"prctl" and call.arguments[:2] == (b"PR_SET_SECCOMP", b"SECCOMP_MODE_FILTER"):
        return Installing(argument_of(call), False)
    if call.name != b"seccomp" or call.arguments[:1] != (b"SECCOMP_SET_MODE_FILTER",):
        return None
    flags = words(call.arguments[1]) if len(call.arguments) > 1 else []
    for_all = b"SECCOMP_FILTER_FLAG_TSYNC" in flags
    if for_all and call.done > 0 and b"SECCOMP_FILTER_FLAG_NEW_LISTENER" not in flags:
        return None
    return Installing(argument_of(call), for_all)


def argument_of(call: Call) -> bytes:
    """The text of a filter."""
    return call.arguments[2] if len(call.arguments) > 2 else b""
