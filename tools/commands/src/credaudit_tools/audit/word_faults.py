"""What is wrong with the words of a question to credaudit that it refuses, and what to write instead: the form, the
process, the right (docs/FORMATS.md, "Words")."""
import difflib
import re

from ..command_line.printable import few, quoted
from ..formats.kernel_names import NUMBERS
from ..formats.rights import BY_NAME, Lookup, is_right, parse
from ..replay.program import is_text

FORMS = {"replay": ("WORLD", "LOG"), "audit": ("WORLD", "LOG", "PID", "RIGHT"),
         "check": ("WORLD", "LOG", "PID", "RIGHT", "CERT"), "confirm": ("WORLD", "LOG", "PID", "RIGHT", "RUN"),
         "drill": ("N",)}
Words = tuple[str, str]         # what is wrong, and what to do
RIGHTS = "a right is uid:N, gid:N or cap:CAP_NAME@SPACE (init is the initial user namespace)"


def form_words(words: list[str]) -> Words:
    """Why words are none of the forms."""
    odd = next((word for word in words if not is_text(word)), None)
    if odd is not None:
        return f"{quoted(odd)} isn't UTF-8, which the program's words have to be", "name it by a symbolic link"
    if not words or words[0] not in FORMS:
        near = difflib.get_close_matches(words[0], FORMS, 1) if words else []
        said = f"{quoted(words[0])} is none of {', '.join(FORMS)}" if words else "there are no words"
        return said, f"{near[0]} is one" if near else "credaudit-audit WORLD LOG PID RIGHT asks about a right"
    needs, given = FORMS[words[0]], len(words) - 1
    if given != len(needs):
        return f"{words[0]} takes {' '.join(needs)}, and there {'is 1 word' if given == 1 else f'are {given} words'}", \
            f"{needs[given]} is missing" if given < len(needs) else f"{quoted(words[1 + len(needs)])} is one too many"
    return f"{quoted(words[-1])} is no number of events", "at most 100000 (credaudit drill N)"


def right_words(word: str, pid: str, lookup: Lookup) -> Words:
    """Why a word is no right."""
    if parse(pid) is not None and word.isdigit():
        return f"{quoted(word)} is no right", f"PID comes first, and then RIGHT: {word} {pid}"
    if (named := BY_NAME.fullmatch(word)) is not None:
        who, number = {"uid": "user", "gid": "group"}[named["kind"]], lookup(named["kind"], named["name"])
        said = f"{quoted(word)} is no right: the program takes ids alone"
        if number is None:
            return said, f"there is no {who} {quoted(named['name'])} here: write its number"
        return said, f"{named['kind']}:{number}, as the {who} is numbered on this machine"
    name, at, space = word.removeprefix("cap:").partition("@")
    full = "CAP_" + name.upper().removeprefix("CAP_")
    if full in NUMBERS:
        return f"{quoted(word)} is no right", f"cap:{full}@{space if at and space else 'init'}"
    near = difflib.get_close_matches(full, NUMBERS, 1, 0.7)
    if near and re.search("[A-Za-z]_", word):
        return f"{quoted(word)} is no right: {full} is no capability", f"cap:{near[0]}@{space or 'init'}"
    if word.isdigit():
        return f"{quoted(word)} is no right", f"uid:{word} is a user id, gid:{word} a group id"
    return f"{quoted(word)} is no right", RIGHTS


def pid_words(word: str, right: str, alive: list[int] | None) -> Words:
    """Why a word is the pid of no process; `alive` are those that live at the log's end, where they are known."""
    if is_right(word) and right.isdigit():
        return f"{quoted(word)} is no pid", f"PID comes first, and then RIGHT: {right} {word}"
    there = "" if alive is None else f"these live at the log's end: {few([str(pid) for pid in sorted(alive)])}" \
        if alive else "no process lives at the log's end"
    if not word.isascii() or not word.isdigit():
        return f"{quoted(word)} is no pid", there
    return f"process {word} doesn't live at the log's end", there


def space_words(right: str, spaces: list[str] | None) -> Words:
    """Why the user namespace of a right doesn't stand; `spaces` are those that do, where they are known."""
    name = right.partition("@")[2]
    return f"there is no user namespace {quoted(name)} after the log", \
        f"these stand: {few(spaces)}" if spaces is not None else "init is the initial one"
