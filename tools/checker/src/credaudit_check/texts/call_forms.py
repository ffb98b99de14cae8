"""The calls that a recording has (CHECKER.md, "Recordings"): what arguments and what result each has, and what it is
read as.
"""
import re
from dataclasses import dataclass

from .call_arguments import READERS, Values, number_of, pid_of
from .call_text import Call, call_of, error_of, is_answer, name_of
from .ends import Ended, not_judged
from .script import ERRORS

AMBIENT, UNKNOWN = "PR_CAP_AMBIENT", ""          # an option that strace knows no name for
UNKNOWN_OPTION = re.compile(rb"0x[0-9a-f]+ /\* PR_CAP_AMBIENT_\?\?\? \*/")


@dataclass(frozen=True)
class Form:
    """A row of the tables: the call as which it is read, none for one that is no event by itself; the kinds of the
    arguments, and of the result."""
    event: str | None
    kinds: tuple[str, ...]
    result: str


@dataclass(frozen=True)
class Told:
    """A call that was read: its name in the recording, the call as which it is read, with values and a result."""
    name: str
    event: str | None
    values: Values
    result: int | str


@dataclass(frozen=True)
class Line:
    """Where a line stands, and the pid that it begins with."""
    number: int
    pid: int

    def refused(self, word: str) -> Ended:
        """The line is none of a recording."""
        return refused(self.number, word)


def refused(number: int, word: str) -> Ended:
    """A line is none of a recording."""
    return not_judged(f"line {number}: {word}")


def form(event: str | None, kinds: str, result: str = "done") -> Form:
    """A form, its kinds parted by blanks."""
    return Form(event, tuple(kinds.split()), result)


# Of prctl the options are part of the name; blanks part them.
ROWS = {
    **{name: form(name, "id") for name in ("setuid", "setgid")},
    **{name: form(name, "id id") for name in ("setreuid", "setregid")},
    **{name: form(name, "id id id") for name in ("setresuid", "setresgid")},
    **{name: form(name, "id", "number") for name in ("setfsuid", "setfsgid")},
    "setgroups": form("setgroups", "count ids"),
    "capset": form("capset", "own sets"),
    "prctl PR_SET_KEEPCAPS": form("keepcaps", "any number"),
    "prctl PR_SET_NO_NEW_PRIVS": form("no_new_privs", "any number zero zero zero"),
    "prctl PR_SET_SECUREBITS": form("securebits", "any bits"),
    "prctl PR_CAPBSET_DROP": form("bset_drop", "any cap"),
    f"prctl {AMBIENT} PR_CAP_AMBIENT_RAISE": form("amb_raise", "any any cap zero zero"),
    f"prctl {AMBIENT} PR_CAP_AMBIENT_LOWER": form("amb_lower", "any any cap zero zero"),
    f"prctl {AMBIENT} PR_CAP_AMBIENT_CLEAR_ALL": form("amb_clear", "any any zero zero zero"),
    "execve": form("execve", "text [] NULL"),
    **{name: form("fork", "", "child") for name in ("fork", "vfork")},
    "clone": form("fork", "flags=", "child"),
    "clone3": form("fork", "{flags=} number", "child"),
    "unshare": form("unshare", "flags"),
    "open": form(None, "file access", "number"),
    "write": form(None, "number text length", "written"),
    "setns": form(None, "number CLONE_NEWUSER"),
    "close": form(None, "number", "zero"),
    **{name: form(None, "", "answer") for name in ("getuid", "geteuid", "getgid", "getegid")},
    **{name: form(None, "any any any", "answer") for name in ("getresuid", "getresgid")},
    **{name: form(None, "any any", "answer") for name in ("getgroups", "capget")},
    **{f"prctl {name}": form(None, "any", "answer") for name in ("PR_GET_KEEPCAPS", "PR_GET_SECUREBITS")},
    "prctl PR_GET_NO_NEW_PRIVS": form(None, "any any any any any", "answer"),
    "prctl PR_CAPBSET_READ": form(None, "any any", "answer"),
    **{f"prctl {AMBIENT} {option}": form(None, "any any any any any", "answer")
       for option in ("PR_CAP_AMBIENT_IS_SET", UNKNOWN)},
}
# A call that no rule reads, and that isn't one of which STRACE.md tells more than this page does.
MARK = re.compile(rb"([a-z][a-z0-9_]*)\((?:0|[1-9][0-9]*)?\) = (.+)")
NO_MARKS = {"execveat", "openat", "creat", "dup", "dup2", "dup3", "fcntl", "pwrite64"}
FORMS = {tuple(words.split(" ")): row for words, row in ROWS.items()}
NAMES = {words[0] for words in FORMS}


# ---- read


def form_of(call: Call, line: Line) -> Form:
    """The row of a call whose name is in the tables."""
    words = [call.name]
    if call.name == "prctl":
        for option in call.arguments[:2]:
            words.append(UNKNOWN if UNKNOWN_OPTION.fullmatch(option) else option.decode("ascii", "replace"))
            if words[1] != AMBIENT:
                break
    found = FORMS.get(tuple(words))
    if found is None:
        raise line.refused("count" if words in ([call.name], [call.name, AMBIENT]) else f"argument {len(words) - 1}")
    return found


def result_of(result: bytes, kind: str, call: Call) -> int | str | None:
    """The result of a call; None where it can't have it."""
    if kind == "answer":
        return 0 if is_answer(result) else None
    error = error_of(result)
    if error is not None:
        return error if error in ERRORS and kind in ("done", "child", "written") else None
    if kind == "child":
        return pid_of(result)
    found = number_of(result)
    wanted = number_of(call.arguments[2]) if kind == "written" else 0
    return found if kind == "number" or found == wanted else None


def event_of(found: Form, values: Values, result: int | str) -> tuple[str | None, Values]:
    """The call as which one is read, with its values: of births and unshare the flags decide."""
    if found.event not in ("fork", "unshare"):
        return found.event, values
    if values[:1] == (1,):
        return ("clone_user" if found.event == "fork" else "unshare"), ()
    return (found.event if found.event == "fork" and isinstance(result, int) else None), ()


def is_mark(body: bytes) -> bool:
    """Whether a body is that of a mark."""
    found = MARK.fullmatch(body)
    if found is None or not is_answer(found[2]) or found[1].endswith(b"32"):
        return False
    return found[1].decode() not in NAMES | NO_MARKS


def read(body: bytes, line: Line) -> Told:
    """The call of a line's body; the first reason why it is none of a recording is raised."""
    name = name_of(body)
    if name is not None and is_mark(body):
        return Told(name, None, (), 0)
    if name not in NAMES:
        raise line.refused("call")
    call = call_of(body)
    if call is None:
        raise line.refused("shape")
    found = form_of(call, line)
    if len(call.arguments) != len(found.kinds):
        raise line.refused("count")
    values: Values = ()
    for place, (text, kind) in enumerate(zip(call.arguments, found.kinds), 1):
        told = READERS[kind](text, call, line.pid)
        if told is None:
            raise line.refused(f"argument {place}")
        values += told
    result = result_of(call.result, found.result, call)
    if result is None:
        raise line.refused("result")
    return Told(call.name, *event_of(found, values, result), result)
