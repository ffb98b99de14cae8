"""The one reader of certificates: JSON texts with the bounds on which a `yes` rests, or those just before what an
`undecided` blames (docs/BOUNDS.md, "Rows").

What isn't a certificate is refused here, so that nothing odd is explained. Whether one holds, `credaudit check` says.
"""
import json
import re
from dataclasses import dataclass

from ..command_line.command import Failure
from .kernel_names import ALL
from .worlds import INITIAL

Ids = tuple[tuple[int, int], ...]
SETS, FLAGS = ("b", "i", "p"), ("k", "n", "r")
INTERVALS = ("eg", "eu", "fg", "fu", "g", "mg", "mu", "s", "u")
KEYS = {*SETS, *FLAGS, *INTERVALS}
LAST_ID, PAST_WORDS, DEEPEST = 4294967294, 4294967296, 127
HEX = re.compile("[0-9a-f]{16}")


@dataclass(frozen=True)
class Row:
    """What members of one row may hold: `sets` and `ids` by the keys of the text. Members may lack no_new_privs unless
    `limited`; SECBIT_NOROOT, and its lock, may be clear where the flags say so."""
    space: int
    fresh: bool
    sets: dict[str, int]
    ids: dict[str, Ids]
    limited: bool
    noroot_clear: bool
    lock_clear: bool

    def has_members(self) -> bool:
        """Whether anyone can be in the row: whoever is has an effective user id."""
        return bool(self.ids["eu"])


def refused(why: str) -> Failure:
    """A text is no certificate."""
    return Failure(f"this is no certificate: {why}")


def whole(text: str) -> int:
    """A number that is written in digits alone."""
    if not text.isdigit():
        raise refused(f"the number {text[:20]}")
    return int(text) if len(text) < 20 else PAST_WORDS


def odd(text: str) -> object:
    """What no certificate has: numbers that aren't whole, NaN and its like."""
    raise refused(f"the number {text[:20]}")


def depth(text: str) -> int:
    """How deep arrays and objects stand in one another, at most."""
    deep = most = 0
    for mark in re.findall(r'"(?:[^"\\]|\\.)*"|[\[\]{}]', text):
        deep += (mark in "[{") - (mark in "]}")
        most = max(most, deep)
    return most


def document(data: bytes) -> object:
    """The JSON value of a text. Fails where it is none."""
    try:
        text = data.decode("utf-8")
        if depth(text) > DEEPEST:
            raise refused(f"more than {DEEPEST} arrays and objects in one another")
        return json.loads(text, parse_int=whole, parse_float=odd, parse_constant=odd)
    except (UnicodeDecodeError, ValueError) as error:
        raise refused(f"{type(error).__name__}: {error}") from error


def ids_of(value: object, name: str) -> Ids:
    """A set of ids: ascending intervals that don't touch."""
    found: list[tuple[int, int]] = []
    for pair in value if isinstance(value, list) else [None]:
        if not (isinstance(pair, list) and len(pair) == 2 and all(type(each) is int for each in pair)):
            raise refused(f"{name} is no list of intervals")
        first, last = pair
        if not first <= last <= LAST_ID or (found and first < found[-1][1] + 2):
            raise refused(f"the intervals of {name} aren't in order")
        found.append((first, last))
    return tuple(found)


def set_of(value: object, name: str) -> int:
    """A set of capabilities."""
    if not isinstance(value, str) or not HEX.fullmatch(value) or int(value, 16) & ~ALL:
        raise refused(f"{name} is no set of capabilities")
    return int(value, 16)


def row_of(number: int, value: object) -> Row:
    """A row of the document."""
    if not isinstance(value, dict) or set(value) != KEYS:
        raise refused(f"row {number} hasn't the keys of a row")
    flags = {key: value[key] for key in FLAGS}
    if not all(isinstance(each, bool) for each in flags.values()):
        raise refused(f"a flag of row {number} is neither true nor false")
    return Row(number // 2, number % 2 == 1, {key: set_of(value[key], key) for key in SETS},
               {key: ids_of(value[key], key) for key in INTERVALS}, flags["n"], flags["r"], flags["k"])


def rows_of(data: bytes) -> list[Row]:
    """The rows of a certificate, two for each space. Fails where the text is none."""
    value = document(data)
    if not isinstance(value, dict) or set(value) != {"format", "rows"} or type(value["format"]) is not int \
            or value["format"] != 1 or not isinstance(value["rows"], list):
        raise refused("it has other keys, or another format, than a certificate")
    rows = [row_of(number, each) for number, each in enumerate(value["rows"])]
    if not rows or len(rows) % 2:
        raise refused("it hasn't two rows for each user namespace")
    return rows


def space_names(declared: list[str], count: int) -> list[str]:
    """The tokens of the spaces by their numbers: the initial one, the declared ones, `#N` of those that calls made."""
    named = [INITIAL, *declared]
    return [named[number] if number < len(named) else f"#{number}" for number in range(count)]


def row_name(row: Row, names: list[str]) -> str:
    """A row as reports name it."""
    name = names[row.space] if row.space < len(names) else f"#{row.space}"
    return f"fresh({name})" if row.fresh else name
