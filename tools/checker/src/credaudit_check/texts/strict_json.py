"""Reads JSON as CERTIFICATE.md has it ("What is read"): strictly, and with whole numbers apart from floats."""
import math
import re
from typing import Any

DEEPEST = 127
BLANKS = re.compile(r"[ \t\n\r]*")
NUMBER = re.compile(r"(-?(?:0|[1-9][0-9]*))(\.[0-9]+)?([eE][+-]?[0-9]+)?")
PLAIN = re.compile(r'[^"\\\x00-\x1f]*')
HEX = re.compile(r"[0-9a-fA-F]{4}")
ESCAPES = {'"': '"', "\\": "\\", "/": "/", "b": "\b", "f": "\f", "n": "\n", "r": "\r", "t": "\t"}
WORDS = {"true": True, "false": False, "null": None}


class NoJson(Exception):
    """The text is no JSON."""


class Reader:
    """A text, and the place up to which it has been read."""

    def __init__(self, text: str) -> None:
        self.text = text
        self.at = 0

    def past(self, pattern: re.Pattern[str]) -> re.Match[str]:
        """Passes over what a pattern takes."""
        match = pattern.match(self.text, self.at)
        if match is None:
            raise NoJson
        self.at = match.end()
        return match

    def comes(self, character: str) -> bool:
        """Whether a character comes next after blanks; passes over it then."""
        if self.text[self.at:self.at + 1] in " \t\n\r":
            self.past(BLANKS)
        found = self.text.startswith(character, self.at)
        self.at += found
        return found

    def must(self, character: str) -> None:
        """Passes over a character that has to come next."""
        if not self.comes(character):
            raise NoJson

    def value(self, depth: int) -> Any:
        """A value; depth is how many arrays and objects it stands in."""
        for mark, end, job in (("[", "]", self.array), ("{", "}", self.object)):
            if self.comes(mark):
                if depth == DEEPEST:
                    raise NoJson
                return job(end, depth + 1)
        if self.comes('"'):
            return self.string()
        for word, value in WORDS.items():
            if self.text.startswith(word, self.at):
                self.at += len(word)
                return value
        return self.number()

    def array(self, end: str, depth: int) -> list[Any]:
        """The rest of an array."""
        found: list[Any] = []
        if self.comes(end):
            return found
        while True:
            found.append(self.value(depth))
            if self.comes(end):
                return found
            self.must(",")

    def object(self, end: str, depth: int) -> dict[str, Any]:
        """The rest of an object; of a key that comes again the last value counts."""
        found: dict[str, Any] = {}
        if self.comes(end):
            return found
        while True:
            self.must('"')
            key = self.string()
            self.must(":")
            found[key] = self.value(depth)
            if self.comes(end):
                return found
            self.must(",")

    def number(self) -> int | float:
        """A number: whole in digits alone below 2^64, else a float, which has to be finite."""
        match = self.past(NUMBER)
        digits, point, exponent = match.groups()
        if len(match[0]) < 20 and match[0].isdigit():
            return int(match[0])
        if not math.isfinite(float(match[0])):
            raise NoJson
        if point or exponent or digits == "-0" or len(digits) > 20 or int(digits) >= 1 << 64:
            return float(match[0])
        return int(digits)

    def string(self) -> str:
        """The rest of a text."""
        parts = []
        while True:
            parts.append(self.past(PLAIN)[0])
            mark = self.text[self.at:self.at + 1]
            self.at += 1
            if mark == '"':
                return "".join(parts)
            if mark != "\\":
                raise NoJson
            mark = self.text[self.at:self.at + 1]
            self.at += 1
            if mark == "u":
                parts.append(self.code())
            elif mark in ESCAPES:
                parts.append(ESCAPES[mark])
            else:
                raise NoJson

    def code(self) -> str:
        """The character of `\\u` and four digits, or of two such that are a surrogate pair."""
        first = int(self.past(HEX)[0], 16)
        if not 0xd800 <= first <= 0xdfff:
            return chr(first)
        if first >= 0xdc00 or not self.text.startswith("\\u", self.at):
            raise NoJson
        self.at += 2
        second = int(self.past(HEX)[0], 16)
        if not 0xdc00 <= second <= 0xdfff:
            raise NoJson
        return chr(0x10000 + (first - 0xd800 << 10) + second - 0xdc00)


def read_json(data: bytes) -> Any:
    """The value that bytes tell."""
    try:
        reader = Reader(data.decode("utf-8"))
    except UnicodeDecodeError:
        raise NoJson from None
    value = reader.value(0)
    reader.past(BLANKS)
    if reader.at != len(reader.text):
        raise NoJson
    return value
