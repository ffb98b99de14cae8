"""Reads the lines of a script (FORMATS.md, "Log"): events, and the first fault of a line."""
import re
from collections.abc import Iterator
from dataclasses import dataclass

from .ends import Ended, limit
from ..rules.capabilities import NUMBERS, caps_of
from ..rules.ids import NO_ID, MapLine
from ..rules.machine import CALLS, World
from .tables import LAST_PID, MOST_GROUPS

MOST_OF_LINE = 1048576
ERRORS = """EPERM EINVAL ENOSPC ENOMEM EAGAIN EINTR EFAULT EIO ENOENT EACCES ENOTDIR ELOOP ENAMETOOLONG E2BIG ENOEXEC
            ETXTBSY ELIBBAD""".split()
BIRTHS = ("fork", "clone_user")
# The kinds of the arguments; of a list of any length the last ones come again.
ARGUMENTS = {
    **dict.fromkeys(("setuid", "setfsuid", "setgid", "setfsgid"), "id"),
    **dict.fromkeys(("setreuid", "setregid"), "id id"),
    **dict.fromkeys(("setresuid", "setresgid"), "id id id"),
    **dict.fromkeys(("bset_drop", "amb_raise", "amb_lower"), "cap"),
    **dict.fromkeys(("securebits", "keepcaps", "no_new_privs"), "number"),
    **dict.fromkeys(("amb_clear", "fork", "clone_user", "unshare", "exit"), ""),
    "capset": "set set set", "setns": "space", "write_setgroups": "space word", "execve": "path",
}
LISTS = ("setgroups", "write_uid_map", "write_gid_map", "install")
Value = int | str | bytes


@dataclass(frozen=True)
class Event:
    """A call of a process with its result: a number, or the name of an error."""
    line: int
    pid: int
    call: str
    values: tuple[Value, ...]
    result: int | str

    def numbers(self) -> tuple[int, ...]:
        """The values that are numbers."""
        return tuple(value for value in self.values if isinstance(value, int))

    def lines(self) -> tuple[MapLine, ...]:
        """The lines of a map that is written."""
        numbers = self.numbers()[1:]
        return tuple(zip(numbers[0::3], numbers[1::3], numbers[2::3]))


def number_of(token: bytes, last: int = NO_ID) -> int | None:
    """A NUMBER, up to a last one."""
    if not re.fullmatch(rb"[0-9]+", token):
        return None
    digits = token.lstrip(b"0") or b"0"
    return int(digits) if len(digits) <= 10 and int(digits) <= last else None


def pid_of(token: bytes) -> int | None:
    """A pid."""
    return number_of(token, LAST_PID) or None


def space_of(token: bytes, world: World) -> int | None:
    """The number of a space that is named, whether or not it stands."""
    if token.startswith(b"#"):
        return number_of(token[1:])
    name = token.decode("utf-8", "replace")
    return world.names.index(name) if name in world.names else None


def value_of(token: bytes, kind: str, world: World) -> Value | None:
    """The value of an argument; None where it isn't of its kind."""
    text = token.decode("utf-8", "replace")
    match kind:
        case "number":
            return number_of(token)
        case "id":
            return NO_ID if token == b"-1" else number_of(token)
        case "cap":
            return NUMBERS[text] if text in NUMBERS else number_of(token)
        case "set":
            return caps_of(text)
        case "space":
            return space_of(token, world)
        case "word":
            return text if text in ("allow", "deny") else None
        case "kind":
            return text if text in CALLS and text != "exit" else None
    plain = len(token) <= 4095 and all(byte > 0x20 and byte != 0x7f for byte in token)
    return token if plain else None


def kinds_of(call: str, count: int) -> list[str] | None:
    """The kinds of so many arguments of a call; None where it can't have so many."""
    if call in ("setgroups", "install"):
        return ["id" if call == "setgroups" else "kind"] * count
    if call in ("write_uid_map", "write_gid_map"):
        return ["space"] + ["number"] * (count - 1) if count % 3 == 1 else None
    kinds = ARGUMENTS[call].split()
    return kinds if len(kinds) == count else None


def result_of(call: str, token: bytes) -> int | str | None:
    """The result of a call; None where it can't have it."""
    text = token.decode("utf-8", "replace")
    if call in ("setfsuid", "setfsgid"):
        return text if text == "EPERM" else number_of(token)
    if text in ERRORS and call != "exit":
        return text
    if call in BIRTHS:
        return pid_of(token)
    return 0 if text == "0" else None


def event_of(number: int, tokens: list[bytes], world: World) -> Event:
    """The event of a line; its first fault is raised."""
    def fault(word: str) -> Ended:
        return Ended(f"bad log line {number}: {word}", 5)

    pid = pid_of(tokens[0])
    if pid is None:
        raise fault("pid")
    call = tokens[1].decode("utf-8", "replace") if len(tokens) > 1 else ""
    if call not in ARGUMENTS and call not in LISTS:
        raise fault("call")
    rest = tokens[2:]
    if b"=" not in rest or len(rest) != rest.index(b"=") + 2:
        raise fault("shape")
    given = rest[:rest.index(b"=")]
    kinds = kinds_of(call, len(given))
    if kinds is None:
        raise fault("count")
    values = []
    for place, (token, kind) in enumerate(zip(given, kinds), 1):
        value = value_of(token, kind, world)
        if value is None:
            raise fault(f"argument {place}")
        values.append(value)
    result = result_of(call, rest[-1])
    if result is None:
        raise fault("result")
    if call == "setgroups" and len(values) > MOST_GROUPS:
        raise limit("groups", MOST_GROUPS)
    return Event(number, pid, call, tuple(values), result)


def events(data: bytes, world: World) -> Iterator[Event]:
    """The events of a script, line by line. It is here whole, and so far below the limit of logs."""
    for number, line in enumerate(data.split(b"\n"), 1):
        if len(line) > MOST_OF_LINE:
            raise limit("line", MOST_OF_LINE)
        tokens = re.findall(rb"[^ \t\r]+", line)
        if tokens and not tokens[0].startswith(b";"):
            yield event_of(number, tokens, world)
