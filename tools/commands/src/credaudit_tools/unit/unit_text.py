"""The text of units: assignments in order, as systemd.syntax(7) has them, and the words of their values."""
from collections.abc import Iterator
from dataclasses import dataclass

BLANKS = " \t\n\r"
TRUE, FALSE = ("1", "yes", "y", "true", "t", "on"), ("0", "no", "n", "false", "f", "off")
ESCAPES = {"a": "\a", "b": "\b", "f": "\f", "n": "\n", "r": "\r", "t": "\t", "v": "\v", "\\": "\\", '"': '"', "'": "'",
           "s": " "}
LENGTHS = {"x": (2, 16), "u": (4, 16), "U": (8, 16)}


@dataclass(frozen=True)
class Assignment:
    """A key and its value, with the file and the line where they stand."""
    section: str
    key: str
    value: str
    file: str = ""
    line: int = 0


def joined_lines(text: str) -> Iterator[tuple[int, str]]:
    """The lines of a text, continued ones as one, with the number of their first. Comments go, also those within a
    continued line; an empty line ends one."""
    kept, began = "", 0
    for number, line in enumerate(text.removeprefix("\ufeff").replace("\r", "\n").replace("\0", "\n").split("\n"), 1):
        front = line.lstrip(BLANKS)
        if front[:1] in ("#", ";") or not (front or kept):
            continue
        began, kept = began or number, kept + line
        if (len(kept) - len(kept.rstrip("\\"))) % 2:
            kept = kept[:-1] + " "
            continue
        yield began, kept
        kept, began = "", 0
    if kept:
        yield began, kept


def assignments(text: str, file: str = "") -> list[Assignment]:
    """The assignments of a unit's text. Lines that systemd passes over with a warning are passed over too."""
    found, section = list[Assignment](), ""
    for number, line in joined_lines(text):
        stripped = line.strip(BLANKS)
        if stripped.startswith("["):
            section = stripped[1:-1] if stripped.endswith("]") else section
            continue
        key, equals, value = stripped.partition("=")
        if section and equals and key.strip(BLANKS):
            found.append(Assignment(section, key.strip(BLANKS), value.strip(BLANKS), file, number))
    return found


def boolean(value: str) -> bool | None:
    """A truth value; None where it is none, and the assignment is passed over."""
    word = value.lower()
    return True if word in TRUE else False if word in FALSE else None


class Unfinished(ValueError):
    """A quote that doesn't end; `found` are the words before it."""

    def __init__(self, value: str, found: list[str]) -> None:
        super().__init__(f"a quote doesn't end: {value}")
        self.found = found


def escape(text: str, at: int) -> tuple[str, int]:
    """What the escape at a backslash stands for, and where it ends."""
    mark = text[at + 1:at + 2]
    if mark in ESCAPES and mark:
        return ESCAPES[mark], at + 2
    length, base = LENGTHS.get(mark, (3, 8) if mark.isdigit() else (0, 0))
    digits = text[at + 2:at + 2 + length] if mark in LENGTHS else text[at + 1:at + 1 + length]
    try:
        return chr(int(digits, base)), at + 1 + length + (mark in LENGTHS)
    except (ValueError, OverflowError):
        return "\\" + mark, at + 1 + len(mark)


def words_before(value: str) -> list[str]:
    """The words of a value, up to a quote that doesn't end."""
    try:
        return words(value)
    except Unfinished as error:
        return error.found


def words(value: str, escapes: bool = False) -> list[str]:
    """The words of a value, which may stand in single or double quotes. A backslash goes, and what follows it stands
    for itself, or, with `escapes`, for what C means by it. Unfinished where a quote doesn't end."""
    found, word, quote, at = list[str](), None, "", 0
    while at < len(value):
        letter = value[at]
        if letter == "\\":
            part, at = escape(value, at) if escapes else (value[at + 1:at + 2], at + 2)
            word = (word or "") + part
            continue
        if quote:
            if letter == quote:
                quote = ""
            else:
                word = (word or "") + letter
        elif letter in "\"'":
            quote, word = letter, word or ""
        elif letter in BLANKS:
            if word is not None:
                found.append(word)
            word = None
        else:
            word = (word or "") + letter
        at += 1
    if quote:
        raise Unfinished(value, found)
    return found if word is None else [*found, word]
