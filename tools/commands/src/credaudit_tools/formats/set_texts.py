"""Sets of capabilities as strace writes them: names between bars, and a number for the bits that it has no name for
(capset(2)). All 32 bits of the first word have names, so that number is of the second one: bit 0 of it is capability
32.
"""
import re

from . import strace_lines
from .kernel_names import NUMBERS
from .strace_lines import Call

FIELDS = (b"effective", b"permitted", b"inheritable")
NUMBER = re.compile("0|0x[0-9a-f]+")
SECOND_WORD = 32


def set_of(text: bytes) -> int | None:
    """The set of a text; None where it can't be read."""
    bits = 0
    for word in strace_lines.words(strace_lines.COMMENT.sub(b"", text)):
        name = word.removeprefix(b"1<<").decode("ascii", "replace")
        if name in NUMBERS:
            bits |= 1 << NUMBERS[name]
        elif NUMBER.fullmatch(name):
            bits |= int(name, 0) << SECOND_WORD
        else:
            return None
    return bits


def text_of(bits: int) -> bytes | None:
    """The text of a set; None where a capability has no name here."""
    if bits >> len(NUMBERS):
        return None
    return "|".join(f"1<<{name}" for name, number in NUMBERS.items() if bits >> number & 1).encode() or b"0"


def within(made: Call, last: int) -> Call | None:
    """A capset without the bits past the kernel's last capability, which it takes off before it looks at the sets;
    None where there are none, or where a set can't be read."""
    found, cut = [], False
    for name in FIELDS:
        bits = set_of(strace_lines.member(name, made.arguments[1]) or b"?")
        told = None if bits is None else text_of(bits & (1 << last + 1) - 1)
        if bits is None or told is None:
            return None
        cut = cut or bits >> last + 1 != 0
        found.append(name + b"=" + told)
    return Call(made.name, (made.arguments[0], b"{" + b", ".join(found) + b"}"), made.result) if cut else None
