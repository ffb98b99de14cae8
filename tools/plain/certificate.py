"""Certificates as docs/CERTIFICATE.md has them, written and read by plain Python: a second writing of that page. Rows
are those of plain/closure.py. Nothing is proved of it."""
import json
import math
import re
from collections.abc import Callable
from dataclasses import replace
from typing import Any, NamedTuple

from plain.closure import FLAGS, NOTHING, SETS_OF_CAPABILITIES, SETS_OF_IDS, Ids, Row
from plain.rules import ALL

KEYS = tuple(sorted((*SETS_OF_IDS, *SETS_OF_CAPABILITIES, *FLAGS)))
DEEPEST, LAST_NUMBER, LAST_ID = 127, 4294967295, 4294967294
SET = re.compile(r"[0-9a-f]{16}")
SURROGATE = re.compile("[\ud800-\udfff]")


class NoBounds(Exception):
    """A text that isn't read as bounds: `json`, `shape` or `order`, and for the last two the number of the row, or None
    for the document."""

    def __init__(self, kind: str, row: int | None = None) -> None:
        super().__init__(kind, row)
        self.kind, self.row = kind, row


# ---- writing -------------------------------------------------------------------------------------------------------


def part_value(row: Row, key: str) -> object:
    """The value of a part."""
    value = getattr(row, key)
    return f"{value:016x}" if key in SETS_OF_CAPABILITIES else value


def text(rows: list[Row]) -> str:
    """The one text of bounds, without a LF."""
    whole = {"format": 1, "rows": [{key: part_value(row, key) for key in KEYS} for row in rows]}
    return json.dumps(whole, separators=(",", ":"))


# ---- reading JSON --------------------------------------------------------------------------------------------------


class Odd(NamedTuple):
    """A number that is no whole number from 0 to 2^64."""
    spelt: str


def unless(good: object) -> None:
    """No JSON unless it is so."""
    if not good:
        raise NoBounds("json")


def read_float(spelt: str) -> Odd:
    """A number with a point or an exponent."""
    unless(math.isfinite(float(spelt)))
    return Odd(spelt)


def read_whole(spelt: str) -> int | Odd:
    """A number in digits alone, or with a sign."""
    unless(math.isfinite(float(spelt)))
    return Odd(spelt) if spelt.startswith("-") or int(spelt) >= 1 << 64 else int(spelt)


def no_constant(_: str) -> object:
    """NaN and the infinities are no JSON."""
    raise NoBounds("json")


def is_deep(whole: str) -> bool:
    """Whether arrays and objects stand deeper in one another than they may, where the text is JSON."""
    depth = 0
    for mark in re.findall(r'"(?:[^"\\]|\\.)*"|[\[\]{}]', whole, re.DOTALL):
        depth += {"[": 1, "{": 1, "]": -1, "}": -1}.get(mark, 0)
        if depth > DEEPEST:
            return True
    return False


def check_texts(value: object) -> None:
    """No JSON where a text of the value has half of a surrogate pair; objects in it have been looked at already."""
    unless(not isinstance(value, str) or not SURROGATE.search(value))
    for item in value if isinstance(value, list) else ():
        check_texts(item)


def read_object(pairs: list[tuple[str, object]]) -> dict[str, object]:
    """An object: of a key that comes twice the last value counts."""
    for key, value in pairs:
        check_texts(key)
        check_texts(value)
    return dict(pairs)


def read_json(data: bytes) -> Any:
    """The value of these bytes. NoBounds where they are no JSON."""
    try:
        whole = data.decode()
        unless(not is_deep(whole))
        value = json.loads(whole, parse_float=read_float, parse_int=read_whole, parse_constant=no_constant,
                           object_pairs_hook=read_object)
    except ValueError:
        raise NoBounds("json")
    check_texts(value)
    return value


# ---- reading bounds ------------------------------------------------------------------------------------------------


def is_whole(value: object) -> bool:
    """Whether it is a whole number in the range of an interval's ends."""
    return isinstance(value, int) and not isinstance(value, bool) and 0 <= value <= LAST_NUMBER


def is_interval(value: object) -> bool:
    """Whether it is an array of two such numbers."""
    return isinstance(value, list) and len(value) == 2 and all(map(is_whole, value))


def is_set_of_ids(value: object) -> bool:
    """Whether it is an array of intervals."""
    return isinstance(value, list) and all(map(is_interval, value))


def is_set_of_capabilities(value: object) -> bool:
    """Whether it is a text of 16 digits, of bits of capabilities alone."""
    return isinstance(value, str) and SET.fullmatch(value) is not None and not int(value, 16) & ~ALL


def is_flag(value: object) -> bool:
    """Whether it is a boolean."""
    return isinstance(value, bool)


def kind_of(key: str) -> Callable[[object], bool]:
    """What the value at a key ought to be."""
    return is_set_of_ids if key in SETS_OF_IDS else is_set_of_capabilities if key in SETS_OF_CAPABILITIES else is_flag


def has_shape(value: object) -> bool:
    """Whether a value has the keys of a row, with values of their kinds."""
    return isinstance(value, dict) and set(value) == set(KEYS) and all(kind_of(key)(value[key]) for key in KEYS)


def ascends(intervals: list[list[int]]) -> bool:
    """Whether the intervals are the one spelling of their set."""
    low = 0
    for first, last in intervals:
        if not low <= first <= last <= LAST_ID:
            return False
        low = last + 2
    return True


def row_of(value: dict[str, Any]) -> Row:
    """The row of a value that is one."""
    of_ids: dict[str, Ids] = {key: tuple((first, last) for first, last in value[key]) for key in SETS_OF_IDS}
    of_caps: dict[str, int] = {key: int(value[key], 16) for key in SETS_OF_CAPABILITIES}
    flags: dict[str, bool] = {key: value[key] for key in FLAGS}
    return replace(NOTHING, **of_ids, **of_caps, **flags)


def read(data: bytes, spaces: int) -> list[Row]:
    """The bounds of a text, where so many spaces stand. NoBounds tells the first refusal."""
    value = read_json(data)
    if not isinstance(value, dict) or set(value) != {"format", "rows"} or not is_whole(value["format"]):
        raise NoBounds("shape")
    rows = value["rows"]
    if value["format"] != 1 or not isinstance(rows, list) or len(rows) != 2 * spaces:
        raise NoBounds("shape")
    for kind, good in (("shape", has_shape),
                       ("order", lambda row: all(ascends(row[key]) for key in SETS_OF_IDS))):
        for number, row in enumerate(rows):
            if not good(row):
                raise NoBounds(kind, number)
    return [row_of(row) for row in rows]
