"""Calls of a recording as text (CHECKER.md, "Recordings"): name, arguments, result; and texts in quotes."""
import re
from dataclasses import dataclass

# Each part is taken whole or not at all, so that no line takes long.
QUOTED = rb'"(?:[^"\\]|\\.)*+"'
INSIDE = rb'(?:[^][(){}"]|%b)*+' % QUOTED
VALUE = rb'%b(?:\.\.\.)?+|\[%b\]|\{%b\}|[^][(){}",]++' % (QUOTED, INSIDE, INSIDE)
NAME = re.compile(rb"([a-z0-9_]+)\(")
CALL = re.compile(rb"([a-z0-9_]+)\(((?:%b)(?:, (?:%b))*+)?+\) = (.+)" % (VALUE, VALUE))
PARTS = re.compile(rb"(?:\A|, )(%b)" % VALUE)
ERROR = re.compile(rb"-1 (E[A-Z0-9]+) \([^()]+\)")
ANSWER = re.compile(rb"(?:0|[1-9][0-9]*|0x[0-9a-f]+)(?: \([^()]+\))?")
TEXT = re.compile(rb'"((?:[ !#-\[\]-~]|\\["\\nt]|\\[0-3][0-7]{2})*)"')
ESCAPE = re.compile(rb'\\(?:(["\\nt])|([0-7]{3}))')
ESCAPED = {b'"': b'"', b"\\": b"\\", b"n": b"\n", b"t": b"\t"}


@dataclass(frozen=True)
class Call:
    """A call whose text has the shape of one."""
    name: str
    arguments: tuple[bytes, ...]
    result: bytes


def call_of(body: bytes) -> Call | None:
    """The call of a body; None where it hasn't that shape."""
    found = CALL.fullmatch(body)
    if found is None:
        return None
    return Call(found[1].decode(), tuple(PARTS.findall(found[2] or b"")), found[3])


def name_of(body: bytes) -> str | None:
    """The name of the call that a body begins as; None of no call."""
    found = NAME.match(body)
    return None if found is None else found[1].decode()


def text_of(quoted: bytes) -> bytes | None:
    """The bytes of a text in quotes; None where it is none, or has another escape."""
    found = TEXT.fullmatch(quoted)
    if found is None:
        return None
    return ESCAPE.sub(lambda one: ESCAPED[one[1]] if one[1] else bytes([int(one[2], 8)]), found[1])


def error_of(result: bytes) -> str | None:
    """The name of the error that a result tells; None where it tells none."""
    found = ERROR.fullmatch(result)
    return None if found is None else found[1].decode()


def is_answer(result: bytes) -> bool:
    """Whether a result is that of a call that asks."""
    return error_of(result) is not None or ANSWER.fullmatch(result) is not None
