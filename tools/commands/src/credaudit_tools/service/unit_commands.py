"""The command of a unit with another program in front of it: ExecStart= as systemd.service(5) has it."""
import os

from ..command_line.command import Failure
from ..command_line.printable import quoted
from ..unit.unit_text import BLANKS
from ..unit.unit_world import SEARCH

FRONT = "@-:+!"
APART = "--unit doesn't cover that"


def raw_words(value: str) -> list[str]:
    """The words of a value as they stand there, with their quotes and backslashes. Fails where a quote doesn't end."""
    found, word, quote, at = list[str](), "", "", 0
    while at < len(value):
        letter = value[at:at + 2] if value[at] == "\\" else value[at]
        at += len(letter)
        if letter in BLANKS and not quote:
            found += [word] if word else []
            word = ""
            continue
        quote = "" if letter == quote else quote or (letter if letter in ("'", '"') else "")
        word += letter
    if quote:
        raise Failure(f"ExecStart=: a quote doesn't end: {quoted(value)}")
    return found + ([word] if word else [])


def only_command(values: list[str]) -> str:
    """The one command of ExecStart=; an empty value begins the list anew. Fails where there is none, or another one."""
    found = list[str]()
    for value in values:
        found = [*found, value] if value else []
    if not found:
        raise Failure("the unit has no ExecStart=, so there is no program to be recorded")
    if len(found) > 1 or ";" in raw_words(found[0]):
        raise Failure("the unit has more than one command of ExecStart=", APART)
    return found[0]


def found_path(name: str) -> str:
    """The path of a program that is named without one. Fails where it isn't found."""
    for folder in SEARCH:
        path = os.path.join(folder, name)
        if os.access(path, os.X_OK) and os.path.isfile(path):
            return path
    raise Failure(f"ExecStart=: {quoted(name)} isn't there")


def marks_of(value: str) -> str:
    """The marks before the path of a command's program."""
    first, *_ = raw_words(value)
    return first[:len(first) - len(first.lstrip(FRONT))]


def behind(value: str, path: str) -> str:
    """The command with the program at `path` in front: that one gets the path of the command's own, then its words.
    The marks before the path stay, but for `@`, which says that the next word is the program's name."""
    first, *_ = raw_words(value)
    marks = marks_of(value)
    own = first[len(marks):]
    if not own or set(own) & set("'\"\\$"):
        raise Failure(f"ExecStart=: the program {quoted(own)} isn't named plainly", APART)
    if own.startswith("%") or "/" in own:
        place = own
    else:
        place = found_path(own)
    rest = value.strip(BLANKS)[len(first):].strip(BLANKS)
    words = [place] if "@" in marks else [place, own]
    return " ".join([marks.replace("@", "") + path, *words, *([rest] if rest else [])])
