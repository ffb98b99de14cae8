"""Calls that a recording keeps as marks (marked_calls.py), and the time that strace writes before each line.

Of a mark stands there what was called, on which descriptor, and what it answered: no data, no address, no path.
"""
import re
from collections.abc import Mapping

from ..formats import plain_log, strace_lines
from ..formats.strace_lines import Call

TIMED = re.compile(rb"(?P<pid>[0-9]+)[ \t]+(?P<seconds>[0-9]+\.[0-9]{6}) (?P<body>.*)", re.S)
SOCKET = b"socket:["        # what a descriptor of one is, as strace shows it with its path
Marks = Mapping[str, bool]      # by name whether a call counts on sockets alone


def without_time(line: bytes) -> tuple[str, bytes] | None:
    """The seconds that stand in a line of `strace -ttt`, and the line as it is without; None where none do."""
    found = TIMED.fullmatch(line)
    return None if found is None else (found["seconds"].decode(), found["pid"] + b" " + found["body"])


def descriptor_of(made: Call) -> tuple[bytes, bytes] | None:
    """The descriptor of a call, and what it is of, empty where strace doesn't show it; None where it has none."""
    told = strace_lines.descriptor(made.arguments[0]) if made.arguments else None
    return None if told is None or not told[0].isdigit() else (told[0], told[1] or b"")


def mark_of(made: Call, marks: Marks) -> bytes | None:
    """The body of a mark's line; None where a call is none."""
    on_sockets, own = marks.get(made.name.decode("ascii", "replace")), descriptor_of(made)
    if on_sockets is None or (on_sockets and (own is None or not own[1].startswith(SOCKET))):
        return None
    result = made.result if made.done is None else b"%d" % made.done
    return plain_log.call(made.name, [] if own is None else [own[0]], result)


def resumed(name: bytes, tail: bytes) -> bytes | None:
    """The text of a call that was under way as the recording began, without the arguments that strace told before."""
    made = strace_lines.call_of(name + b"(" + tail.lstrip(b", "))
    return None if made is None else plain_log.call(name, [], made.result)
