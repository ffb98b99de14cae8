"""How names from outside are shown: no name ever writes a line of its own, moves a cursor or ends a quote.

A path, a command's name or a mount can hold any byte. Shown are printable ASCII characters; all else, and the
backslash, stands as a backslash and three octal digits, as strace(1) and proc(5) have it.
"""
import os
import re

WIDE = 100          # columns of what is told in words
PLAIN = frozenset(range(0x21, 0x7f)) - set(b"\\")
OCTAL = re.compile(rb"\\([0-7]{3})")


def as_bytes(name: str | bytes) -> bytes:
    """The bytes of a name that Python's file functions gave."""
    return os.fsencode(name) if isinstance(name, str) else name


def escaped(name: str | bytes, more: bytes = b"") -> str:
    """A name as one word of printable ASCII: blanks, and what `more` has, are octal too. `unescaped` takes it back."""
    return "".join(chr(byte) if byte in PLAIN and byte not in more else f"\\{byte:03o}" for byte in as_bytes(name))


def unescaped(word: str) -> bytes:
    """The name that `escaped` wrote."""
    return OCTAL.sub(lambda found: bytes([int(found.group(1), 8) & 0xff]), word.encode("ascii", "backslashreplace"))


def shown(text: str | bytes) -> str:
    """A text for the eye: blanks stay, and the backslash where it begins no octal number."""
    odd = re.compile(r"[^\x20-\x7e]")
    return odd.sub(lambda found: f"\\{ord(found.group()):03o}", as_bytes(text).decode("latin-1"))


def folded(text: str, more: str = "    ") -> list[str]:
    """A shown text in lines that aren't wider than WIDE, where no single word is: `more` stands in front of all but the
    first."""
    import textwrap         # hardly a command tells that much
    return textwrap.wrap(text, WIDE, subsequent_indent=more, break_long_words=False, break_on_hyphens=False) or [""]


def quoted(name: str | bytes) -> str:
    """A name between single quotes for a message."""
    return "'" + shown(name) + "'"


def few(items: list[str], most: int = 20) -> str:
    """The first of many, and how many more there are."""
    more = len(items) - most
    return ", ".join(items[:most]) + (f" and {more} more" if more > 0 else "")


def plural(count: int, word: str) -> str:
    """A count with its noun."""
    return f"{count} {word}" + ("" if count == 1 else "es" if word.endswith("s") else "s")
