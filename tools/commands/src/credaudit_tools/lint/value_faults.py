"""What can be wrong with one value of a world, by its kind: the program's word for it, what is wrong, and what to
write."""
import difflib
import re
from collections.abc import Callable, Iterator
from typing import Any

from ..command_line.printable import quoted
from ..formats.kernel_names import capability_text
from .hints import attribute_hint, mode_hint, set_hint
from .world_keys import CALLS

LAST_ID, LAST_PID = 4294967294, 4194304
NAME = re.compile(r"[A-Za-z0-9_.-]{1,32}")
ATTRIBUTE_DIGITS = {"02": 40, "03": 48}
Bad = tuple[str, str, str]          # the program's word, what is wrong, what to do


def is_number(value: object) -> bool:
    """Whether it is a whole number."""
    return isinstance(value, int) and not isinstance(value, bool)


def number_hint(key: str, value: object) -> str:
    """How to write the number of that key."""
    if isinstance(value, str) and re.fullmatch(r"\s*-?\d+\s*", value):
        return f"write it without quotes: {key} = {int(value)}"
    if isinstance(value, str):
        return "ids and pids are numbers; `id -u NAME` and `getent group NAME` tell them"
    return f"{key} is a whole number"


def id_bad(key: str, value: object, first: int = 0, last: int = LAST_ID) -> Iterator[Bad]:
    """What is wrong with an id or a pid."""
    if not is_number(value):
        yield "WrongType", f"{key} is no whole number", number_hint(key, value)
    elif isinstance(value, int) and not first <= value <= last:
        hint = "-1 and 4294967295 stand for no id" if last == LAST_ID else "the world's own pids, as the log has them"
        yield "BadNumber", f"{key} is {value}, and goes from {first} to {last}", hint


def ids_bad(key: str, value: object) -> Iterator[Bad]:
    """What is wrong with one id or four."""
    if isinstance(value, list):
        if len(value) != 4:
            yield ("WrongType", f"{key} has {len(value)} ids",
                   f"one number for all four, or {key} = [real, effective, saved, fs]")
        for each in value:
            yield from id_bad(key, each)
    else:
        yield from id_bad(key, value)


def groups_bad(key: str, value: object) -> Iterator[Bad]:
    """What is wrong with a list of groups."""
    if not isinstance(value, list):
        numbers = re.findall(r"\d+", str(value))
        yield "WrongType", f"{key} is no array", f"{key} = [{', '.join(numbers)}]"
        return
    for each in value:
        yield from id_bad(key, each)


def flag_bad(key: str, value: object) -> Iterator[Bad]:
    """What is wrong with a flag."""
    if not isinstance(value, bool):
        right = "true" if value in (1, "1", "yes", "true", "True", "on") else "false"
        yield "WrongType", f"{key} is no boolean", f"{key} = {right}"


def text_bad(key: str, value: object) -> Iterator[Bad]:
    """What is wrong with a text."""
    if not isinstance(value, str):
        yield "WrongType", f"{key} is no text", f'{key} = "{value}"'


def word_bad(key: str, value: object) -> Iterator[Bad]:
    """What is wrong with the word of setgroups."""
    if value not in ("allow", "deny"):
        yield "WrongType", f"{key} is neither allow nor deny", f'{key} = "allow" or {key} = "deny" (user_namespaces(7))'


def log_bad(key: str, value: object) -> Iterator[Bad]:
    """What is wrong with the form of the log."""
    if value not in ("script", "strace"):
        yield ("WrongType", f"{key} is neither script nor strace",
               'log = "strace" for what strace wrote, else log = "script"')


def name_bad(key: str, value: object) -> Iterator[Bad]:
    """What is wrong with the name of a space or a mount."""
    yield from text_bad(key, value)
    if isinstance(value, str) and (value == "init" or not NAME.fullmatch(value)):
        hint = "init is the initial one, which isn't declared" if value == "init" else \
            "1 to 32 letters, digits, and _ - . of ASCII, without blanks and slashes"
        yield "BadName", f"the name {quoted(value)} can't be one", hint


def path_bad(key: str, value: object) -> Iterator[Bad]:
    """What is wrong with the path of a file."""
    yield from text_bad(key, value)
    if isinstance(value, str):
        data = value.encode()
        if not 1 <= len(data) <= 4095 or value in ("-", "=") or any(byte <= 0x20 or byte == 0x7f for byte in data):
            yield ("BadName", f"the path {quoted(value)} can't be declared",
                   "a path has 1 to 4095 bytes, and no blank or control character in it")


def mode_bad(key: str, value: object) -> Iterator[Bad]:
    """What is wrong with the mode of a file."""
    if not isinstance(value, str):
        digits = f"{value:04d}" if is_number(value) and re.fullmatch("[0-7]{1,4}", str(value)) else "4755"
        yield "WrongType", f"{key} is no text", f'write its octal digits between quotes: {key} = "{digits}"'
    elif not re.fullmatch("[0-7]{1,4}", value):
        yield "BadMode", f"{key} is {quoted(value)}", mode_hint(value)


def set_bad(key: str, value: object) -> Iterator[Bad]:
    """What is wrong with a capability text."""
    if isinstance(value, list):
        names = ",".join(str(each) for each in value)
        yield "WrongType", f"{key} is an array", f'one text, names between commas: {key} = "{names}"'
    elif not isinstance(value, str):
        digits = f"{value:016x}" if is_number(value) else "none"
        yield "WrongType", f"{key} is no text", f'between quotes, 16 hexadecimal digits: {key} = "{digits}"'
    elif capability_text(value) is None:
        yield "BadCaps", f"{key} is {quoted(value)}", set_hint(value)


def attribute_bad(key: str, value: object) -> Iterator[Bad]:
    """What is wrong with the attribute of a file."""
    if not isinstance(value, str):
        yield ("WrongType", f"{key} is no text",
               "hexadecimal digits between quotes, as getfattr -e hex shows them, without 0x")
    elif not is_attribute(value):
        yield "BadCaps", f"{key} is {quoted(value)}", attribute_hint(value) or ""


def is_attribute(text: str) -> bool:
    """Whether a text may be the attribute's bytes (linux/capability.h)."""
    return bool(re.fullmatch("[0-9a-fA-F]*", text)) and len(text) == ATTRIBUTE_DIGITS.get(text[6:8])


def map_bad(key: str, value: object) -> Iterator[Bad]:
    """What is wrong with a map."""
    shape = f"{key} = [[inside, outside, length]]"
    if isinstance(value, str):
        numbers = re.findall(r"\d+", value)
        triples = [numbers[at:at + 3] for at in range(0, len(numbers) - len(numbers) % 3, 3)]
        yield "WrongType", f"{key} is a text", f"{key} = [{', '.join('[' + ', '.join(one) + ']' for one in triples)}]"
    elif not isinstance(value, list) or any(not isinstance(each, list) or len(each) != 3 for each in value):
        flat = isinstance(value, list) and len(value) == 3 and all(is_number(each) for each in value)
        yield "WrongType", f"{key} is no array of three numbers each", f"{key} = [{value}]" if flat else shape
    else:
        for each in value:
            for one in each:
                yield from id_bad(key, one, 0, LAST_ID + 1)
        yield from extents_bad(key, value)


def triple(numbers: list[Any]) -> tuple[int, int, int]:
    """The three numbers of a range."""
    inside, outside, length = numbers
    return inside, outside, length


def extents_bad(key: str, extents: list[list[object]]) -> Iterator[Bad]:
    """What is wrong with the ranges of a map, each of which has three items."""
    triples = [triple(each) for each in extents if all(is_number(one) for one in each)]
    if not 1 <= len(triples) <= 340:
        yield "BadMap", f"{key} has {len(triples)} ranges", "1 to 340; a map that isn't written is left out"
    for inside, outside, length in triples:
        if length == 0:
            yield "BadMap", f"{key} has a range of no ids", "the third number is the count of ids, at least 1"
        elif max(inside, outside) + length > LAST_ID + 1:
            yield "BadMap", f"{key} goes past 4294967294", "the third number is the count of ids, and not the last id"
    if overlap(triples):
        yield "BadMap", f"two ranges of {key} meet", "no two ranges have an inside or an outside id in common"


def overlap(triples: list[tuple[int, int, int]]) -> bool:
    """Whether two of the ranges have an inside or an outside id in common."""
    for side in (0, 1):
        ordered = sorted((each[side], each[2]) for each in triples)
        if any(first + length > then for (first, length), (then, _) in zip(ordered, ordered[1:])):
            return True
    return False


def calls_bad(key: str, value: object) -> Iterator[Bad]:
    """What is wrong with a list of calls."""
    if not isinstance(value, list) or any(not isinstance(each, str) for each in value):
        yield "WrongType", f"{key} is no array of texts", f'{key} = ["setuid", "setgid"]'
        return
    for each in value:
        if each not in CALLS:
            yield "NoSuchCall", f"{quoted(each)} is none of the 27 calls", call_hint(each)


def call_hint(name: str) -> str:
    """Which of the calls may be meant by a name that is none."""
    if name in ("prctl", "clone", "vfork", "clone3"):
        kinds = "fork and clone_user"
        if name == "prctl":
            kinds = "bset_drop, amb_raise, securebits, keepcaps, no_new_privs .."
        return f"{name} has names of its own here: {kinds} (docs/FORMATS.md, \"Log\")"
    near = difflib.get_close_matches(name.lower(), CALLS, 1)
    return f"{near[0]}?" if near else "leave it out: it changes no credential (docs/FORMATS.md, \"Log\")"


def rows_bad(key: str, value: object) -> Iterator[Bad]:
    """What is wrong with a list of rows."""
    if not isinstance(value, list):
        yield "WrongType", f"{key} is no list of rows", f"two brackets before each row: [[{key}]]"


def table_bad(key: str, value: object) -> Iterator[Bad]:
    """What is wrong with a table that stands once."""
    if not isinstance(value, dict):
        yield "WrongType", f"{key} is no table that stands once", f"one bracket: [{key}]"


KINDS: dict[str, Callable[[str, object], Iterator[Bad]]] = {
    "id": id_bad, "ids": ids_bad, "groups": groups_bad, "flag": flag_bad, "text": text_bad, "word": word_bad,
    "log": log_bad,
    "name": name_bad, "path": path_bad, "mode": mode_bad, "set": set_bad, "attribute": attribute_bad, "map": map_bad,
    "calls": calls_bad, "rows": rows_bad, "table": table_bad, "pid": lambda key, value: id_bad(key, value, 1, LAST_PID),
    "byte": lambda key, value: id_bad(key, value, 0, 255)}
