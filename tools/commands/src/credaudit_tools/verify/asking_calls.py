"""What a log's lines say of credentials by themselves: calls that ask for ids, groups, capabilities and flags, and what
the kernel answered. Each is held against the replay at its line (getuid(2), getresuid(2), getgroups(2), capget(2),
prctl(2)).
"""
import re
from collections.abc import Callable, Collection
from dataclasses import dataclass

from ..formats import strace_lines
from ..formats.credential import WORDS
from ..formats.kernel_names import NUMBERS, SECUREBITS
from ..formats.report import Standing
from ..formats.set_texts import set_of
from ..formats.strace_lines import Call
from ..replay.spaces_of_report import SpacesTold, inside

LEAST_SHORT = 1 << 16           # ids from here on don't fit the oldest calls of 32-bit programs (getuid(2))
KEEP_CAPS = SECUREBITS["KEEP_CAPS"]


@dataclass(frozen=True)
class Asked:
    """An answer that differs: the field in words, what the replay has and what the kernel answered, and the field of a
    credential that it is."""
    field: str
    told: str
    seen: str
    name: str


@dataclass(frozen=True)
class At:
    """Where a call is made: all processes as the replay has them at its line."""
    standing: dict[int, Standing]
    spaces: SpacesTold
    pid: int

    def own(self) -> Standing:
        """The caller."""
        return self.standing[self.pid]

    def id_seen(self, kind: str, number: int) -> int:
        """An id as the caller sees it."""
        return inside(getattr(self.spaces.named[self.own().space], kind + "_map"), number)


def bracketed(argument: bytes) -> int | None:
    """The number of `[N]`, in which strace shows what a call wrote."""
    found = re.fullmatch(rb"\[([0-9]+)\]", argument)
    return int(found.group(1)) if found else None


def differs(field: str, told: int, seen: int, name: str) -> list[Asked]:
    """A difference, if there is one. The oldest calls of 32-bit programs answer 65534 for an id that is too large."""
    return [] if told == seen or (seen == 65534 and told >= LEAST_SHORT) else [Asked(field, str(told), str(seen), name)]


def one_id(kind: str, place: int) -> Callable[[At, Call], list[Asked] | None]:
    """getuid and its like: one of the four ids."""
    def compare(at: At, made: Call) -> list[Asked] | None:
        told = at.id_seen(kind, getattr(at.own().credential, kind)[place])
        return None if made.done is None else differs(f"{('real', 'effective')[place]} {kind}", told, made.done, kind)
    return compare


def three_ids(kind: str) -> Callable[[At, Call], list[Asked] | None]:
    """getresuid and getresgid."""
    def compare(at: At, made: Call) -> list[Asked] | None:
        seen = [bracketed(argument) for argument in made.arguments]
        if made.done is None or len(seen) != 3:
            return None
        told = [at.id_seen(kind, number) for number in getattr(at.own().credential, kind)[:3]]
        found: list[Asked] = []
        for name, one, other in zip(("real", "effective", "saved"), told, seen):
            if other is None:
                return None
            found += differs(f"{name} {kind}", one, other, kind)
        return found
    return compare


def ids_text(ids: Collection[int]) -> str:
    """Ids for the eye."""
    return ",".join(map(str, sorted(ids))) or "-"


def groups(at: At, made: Call) -> list[Asked] | None:
    """getgroups: the list, or their count alone, which is all that the size 0 asks for. The kernel counts repeats."""
    told = at.own().credential.groups
    if made.done is None or len(made.arguments) != 2:
        return None
    if made.arguments[0] != b"0" and made.arguments[1].startswith(b"[") and b"..." not in made.arguments[1]:
        seen = {int(word) for word in strace_lines.pieces(made.arguments[1][1:-1]) or ()}
        if seen == {at.id_seen("gid", number) for number in told}:
            return []
        return [Asked("groups", ids_text(told), ids_text(seen), "groups")]
    count = made.done
    if count >= len(told) and (count == 0) == (not told):
        return []
    return [Asked("number of groups", str(len(told)), str(count), "groups")]


def capabilities(at: At, made: Call) -> list[Asked] | None:
    """capget, of the caller or of another process."""
    if made.done is None or len(made.arguments) != 2 or not made.arguments[1].startswith(b"{"):
        return None
    asked = int(strace_lines.member(b"pid", made.arguments[0]) or b"0")
    standing = at.standing.get(asked or at.pid)
    if standing is None:
        return None
    few = b"VERSION_1" in made.arguments[0]
    found = []
    for field, name in (("eff", b"effective"), ("prm", b"permitted"), ("inh", b"inheritable")):
        seen = set_of(strace_lines.member(name, made.arguments[1]) or b"?")
        told = getattr(standing.credential, field)
        if seen is not None and seen != (told & 0xffffffff if few else told):
            found.append(Asked(f"{name.decode()} set", f"{told:016x}", f"{seen:016x}", field))
    return found


def capability_of(argument: bytes) -> int | None:
    """The number of a capability by its name."""
    return NUMBERS.get(argument.decode("ascii", "replace"))


def option(at: At, made: Call) -> list[Asked] | None:
    """prctl of the options that ask."""
    if made.done is None or not made.arguments:
        return None
    own, word = at.own().credential, made.arguments[0]
    secure = own.sec or 0
    if word == b"PR_GET_KEEPCAPS":
        return differs("keep_caps", int(secure & KEEP_CAPS != 0), made.done, "sec")
    if word == b"PR_GET_SECUREBITS":
        return differs("securebits", secure, made.done, "sec")
    if word == b"PR_GET_NO_NEW_PRIVS":
        return differs("no_new_privs", int(bool(own.nnp)), made.done, "nnp")
    if word == b"PR_CAPBSET_READ" and len(made.arguments) > 1:
        return bit(made.arguments[1], own.bnd, "bnd", made.done)
    if made.arguments[:2] == (b"PR_CAP_AMBIENT", b"PR_CAP_AMBIENT_IS_SET") and len(made.arguments) > 2:
        return bit(made.arguments[2], own.amb, "amb", made.done)
    return None


def bit(argument: bytes, told: int, name: str, seen: int) -> list[Asked] | None:
    """A capability that was asked for, in a set."""
    number = capability_of(argument)
    return None if number is None else differs(f"{WORDS[name]}, {argument.decode()}", told >> number & 1, seen, name)


ASKING: dict[bytes, Callable[[At, Call], list[Asked] | None]] = {
    b"getuid": one_id("uid", 0), b"geteuid": one_id("uid", 1), b"getgid": one_id("gid", 0),
    b"getegid": one_id("gid", 1),
    b"getresuid": three_ids("uid"), b"getresgid": three_ids("gid"), b"getgroups": groups, b"capget": capabilities,
    b"prctl": option}


def compared(at: At, body: bytes) -> list[Asked] | None:
    """What differs in the answer of a line; None where it is no such answer, or one that can't be compared."""
    name = strace_lines.name_of(body)
    if name not in ASKING or at.pid not in at.standing:
        return None
    made = strace_lines.call_of(body)
    return None if made is None else ASKING[name](at, made)
