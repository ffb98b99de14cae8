"""Rows of bounds, their text (CERTIFICATE.md, "The text that is written"), and how they are compared and grow."""
import json
import re
from collections.abc import Callable, Sequence
from dataclasses import dataclass, fields, replace
from typing import Any

from ..texts.ends import Ended
from ..rules.capabilities import ALL, subset
from ..rules.ids import LAST_ID, NO_ID, Ids, together, within
from ..texts.strict_json import NoJson, read_json

ID_KEYS = ("eg", "eu", "fg", "fu", "g", "mg", "mu", "s", "u")
CAP_KEYS = ("b", "i", "p")
FLAG_KEYS = ("k", "n", "r")


@dataclass(frozen=True)
class Row:
    """The bounds of the members in one space, or in those made later below it; without values it is the least row."""
    b: int = 0
    eg: Ids = ()
    eu: Ids = ()
    fg: Ids = ()
    fu: Ids = ()
    g: Ids = ()
    i: int = 0
    k: bool = False
    mg: Ids = ()
    mu: Ids = ()
    n: bool = True
    p: int = 0
    r: bool = False
    s: Ids = ()
    u: Ids = ()

    def holds(self, other: "Row") -> bool:
        """Whether each part of another row is within this one's."""
        return (all(within(getattr(other, key), getattr(self, key)) for key in ID_KEYS)
                and all(subset(getattr(other, key), getattr(self, key)) for key in CAP_KEYS)
                and self.n <= other.n and self.k >= other.k and self.r >= other.r)

    def with_row(self, other: "Row") -> "Row":
        """The least row that holds both."""
        ids = {key: together(getattr(self, key), getattr(other, key)) for key in ID_KEYS}
        return replace(self, b=self.b | other.b, i=self.i | other.i, p=self.p | other.p, k=self.k or other.k,
                       n=self.n and other.n, r=self.r or other.r, **ids)


Bounds = tuple[Row, ...]
KEYS = tuple(field.name for field in fields(Row))


# ---- written


def text_of(bounds: Sequence[Row]) -> str:
    """The line that bounds are written as, without its LF."""
    rows = [{key: f"{value:016x}" if key in CAP_KEYS else value for key, value in vars(row).items()}
            for row in bounds]
    return json.dumps({"format": 1, "rows": rows}, separators=(",", ":"))


# ---- read


def is_number(value: Any, last: int) -> bool:
    """Whether a value is a whole number from 0 to a last one."""
    return isinstance(value, int) and not isinstance(value, bool) and 0 <= value <= last


def has_shape(row: Any) -> bool:
    """Whether a value is a row, the order of its intervals left aside."""
    if not isinstance(row, dict) or set(row) != set(KEYS):
        return False
    for key in CAP_KEYS:
        text = row[key]
        if not isinstance(text, str) or not re.fullmatch("[0-9a-f]{16}", text) or int(text, 16) > ALL:
            return False
    if not all(isinstance(row[key], bool) for key in FLAG_KEYS):
        return False
    return all(isinstance(row[key], list) and all(
        isinstance(pair, list) and len(pair) == 2 and all(is_number(one, NO_ID) for one in pair)
        for pair in row[key]) for key in ID_KEYS)


def has_order(row: dict[str, Any]) -> bool:
    """Whether all intervals of a row are such, ascend, and leave out an id between two."""
    for key in ID_KEYS:
        least = 0
        for first, last in row[key]:
            if not least <= first <= last <= LAST_ID:
                return False
            least = last + 2
    return True


def row_of(row: dict[str, Any]) -> Row:
    """The row that such a value is."""
    values: dict[str, Any] = {key: row[key] for key in FLAG_KEYS}
    values |= {key: int(row[key], 16) for key in CAP_KEYS}
    values |= {key: tuple((first, last) for first, last in row[key]) for key in ID_KEYS}
    return Row(**values)


def read_bounds(data: bytes, spaces: int, told: Callable[[int], str]) -> Bounds:
    """The bounds of a certificate; what refuses it is raised, with a row as `told` tells it."""
    try:
        value = read_json(data)
    except NoJson:
        raise Ended("refused json", 11) from None
    rows = value.get("rows") if isinstance(value, dict) else None
    if (not isinstance(value, dict) or set(value) != {"format", "rows"} or not is_number(value["format"], NO_ID)
            or value["format"] != 1 or not isinstance(rows, list) or len(rows) != 2 * spaces):
        raise Ended("refused shape document", 11)
    for word, is_well in (("shape", has_shape), ("order", has_order)):
        for number, row in enumerate(rows):
            if not is_well(row):
                raise Ended(f"refused {word} {told(number)}", 11)
    return tuple(map(row_of, rows))
