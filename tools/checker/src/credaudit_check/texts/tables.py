"""The kinds of values in a world's tables, and the words by which a row is refused (FORMATS.md, "World")."""
import re
from collections.abc import Mapping
from typing import Any

from .ends import Ended, limit
from ..rules.ids import LAST_ID, NO_ID

MOST_GROUPS = 1024
LAST_PID = 4194304
Table = Mapping[str, Any]
Kinds = Mapping[str, str]

SPACE: Kinds = {"name": "text", "parent": "text", "owner": "id", "uid_map": "map", "gid_map": "map",
                "setgroups": "word", "creator_setfcap": "boolean"}
MOUNT: Kinds = {"name": "text", "space": "text", "nosuid": "boolean", "noexec": "boolean", "fs_uid_map": "map",
                "fs_gid_map": "map", "uid_map": "map", "gid_map": "map"}
FILE: Kinds = {"path": "text", "mount": "text", "uid": "id", "gid": "id", "mode": "text", "caps": "text",
               "interpreter": "text"}
PROCESS: Kinds = {"pid": "pid", "parent": "pid", "space": "text", "uid": "ids", "gid": "ids", "groups": "groups",
                  "permitted": "text", "effective": "text", "inheritable": "text", "ambient": "text",
                  "bounding": "text", "securebits": "byte", "no_new_privs": "boolean"}
FILTER: Kinds = {"exclude": "texts"}
WHOLE: Kinds = {"log": "form", "space": "array", "mount": "array", "file": "array", "process": "array",
                "filter": "table"}
NUMBERS = {"id": (0, LAST_ID), "ids": (0, LAST_ID), "groups": (0, LAST_ID), "pid": (1, LAST_PID), "byte": (0, 255),
           "map": (0, NO_ID)}


def bad(table: str, row: int, word: str) -> Ended:
    """A refusal of the world."""
    return Ended(f"bad world {table} {row}: {word}", 4)


def is_number(value: object) -> bool:
    """Whether a value is a whole number; a boolean is none."""
    return isinstance(value, int) and not isinstance(value, bool)


def is_list_of_numbers(value: object, length: int | None = None) -> bool:
    """Whether a value is an array of whole numbers, of that length."""
    return isinstance(value, list) and all(map(is_number, value)) and length in (None, len(value))


def is_of_kind(value: Any, kind: str) -> bool:
    """Whether a value is of a kind, its numbers' ranges left aside."""
    match kind:
        case "text":
            return isinstance(value, str)
        case "word":
            return value in ("allow", "deny") and isinstance(value, str)
        case "form":
            return value in ("script", "strace") and isinstance(value, str)
        case "boolean":
            return isinstance(value, bool)
        case "id" | "pid" | "byte":
            return is_number(value)
        case "ids":
            return is_number(value) or is_list_of_numbers(value, 4)
        case "groups":
            return is_list_of_numbers(value)
        case "map":
            return isinstance(value, list) and all(is_list_of_numbers(line, 3) for line in value)
        case "texts":
            return isinstance(value, list) and all(isinstance(one, str) for one in value)
        case "array":
            return isinstance(value, list)
    return isinstance(value, dict)


def numbers_in(value: Any) -> list[int]:
    """All whole numbers of a value."""
    if isinstance(value, list):
        return [one for item in value for one in numbers_in(item)]
    return [value]


def look(table: str, row: int, value: object, kinds: Kinds, required: tuple[str, ...]) -> Table:
    """A row whose keys, kinds and numbers are as they should be."""
    if not isinstance(value, dict):
        raise bad(table, row, "WrongType")
    if any(key not in kinds for key in value):
        raise bad(table, row, "UnknownKey")
    half = table == "mount" and ("uid_map" in value) != ("gid_map" in value)
    if half or any(key not in value for key in required):
        raise bad(table, row, "MissingKey")
    if not all(is_of_kind(one, kinds[key]) for key, one in value.items()):
        raise bad(table, row, "WrongType")
    if len(value.get("groups", ())) > MOST_GROUPS:
        raise limit("groups", MOST_GROUPS)
    for key, one in value.items():
        first, last = NUMBERS.get(kinds[key], (0, 0))
        if kinds[key] in NUMBERS and not all(first <= number <= last for number in numbers_in(one)):
            raise bad(table, row, "BadNumber")
    return value


def is_name(text: str) -> bool:
    """Whether a text is a name of a space or a mount."""
    return re.fullmatch(r"[A-Za-z0-9_.-]{1,32}", text) is not None and text != "init"


def is_path(text: bytes) -> bool:
    """Whether bytes are a path that may be declared."""
    return 1 <= len(text) <= 4095 and all(byte > 0x20 and byte != 0x7f for byte in text) and text not in (b"-", b"=")
