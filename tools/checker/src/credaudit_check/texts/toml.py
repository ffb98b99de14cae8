"""The bytes of a world as TOML, by tomllib; where that can't serve, nothing is judged.

A world may be TOML 1.1, which tomllib doesn't read. So a text that it refuses is refused here only where it has nothing
in it that may be of 1.1. Numbers and depths, of which tomllib has no limits, are looked at.
"""
import re
import tomllib
from typing import Any

from .ends import not_judged
from .tables import bad

MOST_BYTES = 1048576
SURE_DEPTH = 60
DOUBTFUL = re.compile(r"[{]|\\[ex]|[0-9]:[0-9]|[^\t\n\x20-\x7e]")


def read_toml(data: bytes) -> dict[str, Any]:
    """The table that the bytes tell."""
    data = data.removeprefix(b"\xef\xbb\xbf")
    try:
        text = data.decode("utf-8")
    except UnicodeDecodeError:
        raise bad("whole", 0, "Toml") from None
    try:
        value = tomllib.loads(text)
    except tomllib.TOMLDecodeError:
        if DOUBTFUL.search(text.replace("\r\n", "\n")):
            raise not_judged("a text that tomllib refuses and that may be TOML 1.1") from None
        raise bad("whole", 0, "Toml") from None
    except (ValueError, RecursionError):
        raise not_judged("a text on which tomllib gives up") from None
    look_at(value, 1)
    return value


def look_at(value: object, depth: int) -> None:
    """Looks at numbers and depths."""
    if depth > SURE_DEPTH:
        raise not_judged("values that deep within one another")
    if isinstance(value, int) and not -(1 << 63) <= value < 1 << 63:
        raise bad("whole", 0, "Toml")
    for one in value.values() if isinstance(value, dict) else value if isinstance(value, list) else ():
        look_at(one, depth + 1)
