"""The kinds of arguments in calls of a recording (CHECKER.md, "Kinds").

A reader gives the values that an argument tells, none where it tells none that counts, and None where it isn't of its
kind. It sees all arguments of its call, since some have to fit others, and the pid of the line.
"""
import re
from collections.abc import Callable, Mapping
from functools import partial

from ..rules.capabilities import NUMBERS
from ..rules.ids import LAST_ID, NO_ID
from .call_text import Call, text_of
from .script import Value
from .tables import LAST_PID

Values = tuple[Value, ...]
Reader = Callable[[bytes, Call, int], Values | None]
SECUREBITS = ("NOROOT", "NOROOT_LOCKED", "NO_SETUID_FIXUP", "NO_SETUID_FIXUP_LOCKED", "KEEP_CAPS", "KEEP_CAPS_LOCKED",
              "NO_CAP_AMBIENT_RAISE", "NO_CAP_AMBIENT_RAISE_LOCKED")
BITS = {f"SECBIT_{name}".encode(): 1 << place for place, name in enumerate(SECUREBITS)}
SETS = {f"1<<{name}".encode(): 1 << number for name, number in NUMBERS.items()}
DECIMAL = re.compile(rb"0|[1-9][0-9]{0,9}")
ZERO = re.compile(rb"0|0x0|NULL")
UNNAMED_CAP = re.compile(rb"(0x[0-9a-f]{1,8}) /\* CAP_\?\?\? \*/")
OWN = re.compile(rb"\{version=_LINUX_CAPABILITY_VERSION_[123], pid=([0-9]+)\}")
THREE_SETS = re.compile(rb"\{effective=([^,}]+), permitted=([^,}]+), inheritable=([^,}]+)\}")
FLAGS = re.compile(rb"(\w+(?:\|\w+)*)(?: /\*[^*]*\*/)?")
FILE = re.compile(rb"/proc/([0-9]+)/(uid_map|gid_map|setgroups|ns/user)")


def number_of(text: bytes, last: int = NO_ID) -> int | None:
    """A number in decimal digits, without leading zeros."""
    return int(text) if DECIMAL.fullmatch(text) and int(text) <= last else None


def pid_of(text: bytes) -> int | None:
    """A pid."""
    return number_of(text, LAST_PID) or None


def sum_of(text: bytes, names: Mapping[bytes, int]) -> int | None:
    """The sum of the bits between bars; `0` is none of them."""
    words = [] if text == b"0" else text.split(b"|")
    return sum(names[word] for word in set(words)) if all(word in names for word in words) else None


def one(value: Value | None) -> Values | None:
    """A single value, where there is one."""
    return None if value is None else (value,)


# ---- readers


def anything(_text: bytes, _call: Call, _pid: int) -> Values | None:
    """What isn't looked at."""
    return ()


def exactly(wanted: bytes, text: bytes, _call: Call, _pid: int) -> Values | None:
    """What stands as it is written."""
    return () if text == wanted else None


def number(text: bytes, _call: Call, _pid: int) -> Values | None:
    """NUMBER, FD."""
    return one(number_of(text))


def count(text: bytes, _call: Call, _pid: int) -> Values | None:
    """A NUMBER of ids, which the list has too."""
    return None if number_of(text) is None else ()


def identity(text: bytes, _call: Call, _pid: int) -> Values | None:
    """ID."""
    return one(NO_ID if text == b"-1" else number_of(text, LAST_ID))


def identities(text: bytes, call: Call, pid: int) -> Values | None:
    """A list of as many IDs as the first argument says."""
    inner = b"" if text in (b"NULL", b"[]") else text[1:-1] if text.startswith(b"[") else None
    if inner is None:
        return None
    found = [identity(each, call, pid) for each in inner.split(b", ")] if inner else []
    if None in found or len(found) != number_of(call.arguments[0]):
        return None
    return tuple(value for each in found for value in each or ())


def zero(text: bytes, _call: Call, _pid: int) -> Values | None:
    """ZERO."""
    return () if ZERO.fullmatch(text) else None


def capability(text: bytes, _call: Call, _pid: int) -> Values | None:
    """CAP."""
    unnamed = UNNAMED_CAP.fullmatch(text)
    return one(int(unnamed[1], 16) if unnamed else NUMBERS.get(text.decode("ascii", "replace")))


def securebits(text: bytes, _call: Call, _pid: int) -> Values | None:
    """BITS."""
    return one(sum_of(text, BITS))


def own(text: bytes, _call: Call, pid: int) -> Values | None:
    """The header of a capset, with OWN."""
    found = OWN.fullmatch(text)
    return () if found and number_of(found[1]) in (0, pid) else None


def three_sets(text: bytes, _call: Call, _pid: int) -> Values | None:
    """The SETs of a capset."""
    found = THREE_SETS.fullmatch(text)
    sums = [sum_of(each, SETS) for each in found.groups()] if found else [None]
    return None if None in sums else tuple(each or 0 for each in sums)


def flags(front: bytes, end: bytes, text: bytes, _call: Call, _pid: int) -> Values | None:
    """FLAGS between two texts: whether CLONE_NEWUSER is among them."""
    if not text.startswith(front) or not text.endswith(end):
        return None
    found = FLAGS.fullmatch(text[len(front):len(text) - len(end)])
    return one(None if found is None else int(b"CLONE_NEWUSER" in found[1].split(b"|")))


def quoted(text: bytes, _call: Call, _pid: int) -> Values | None:
    """TEXT."""
    return one(text_of(text))


def length(text: bytes, call: Call, _pid: int) -> Values | None:
    """LENGTH of the text before it."""
    told = text_of(call.arguments[1])
    return None if told is None or number_of(text) != len(told) else ()


def file(text: bytes, _call: Call, _pid: int) -> Values | None:
    """The path of a file of user namespaces: the pid, and which of the four."""
    found = FILE.fullmatch(text_of(text) or b"")
    pid = pid_of(found[1]) if found else None
    return None if found is None or pid is None else (pid, found[2].decode())


def access(text: bytes, call: Call, _pid: int) -> Values | None:
    """How such a file is opened."""
    is_space = call.arguments[0].endswith(b'/ns/user"')
    return () if text == (b"O_RDONLY" if is_space else b"O_WRONLY") else None


READERS: dict[str, Reader] = {
    "any": anything, "number": number, "count": count, "id": identity, "ids": identities, "zero": zero,
    "cap": capability, "bits": securebits, "own": own, "sets": three_sets, "flags": partial(flags, b"", b""),
    "flags=": partial(flags, b"flags=", b""), "{flags=}": partial(flags, b"{flags=", b"}"), "text": quoted,
    "length": length, "file": file, "access": access, "[]": partial(exactly, b"[]"), "NULL": partial(exactly, b"NULL"),
    "CLONE_NEWUSER": partial(exactly, b"CLONE_NEWUSER"),
}
