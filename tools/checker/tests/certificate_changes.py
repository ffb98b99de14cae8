"""Changes of certificates for certificate_trials.py: digits, interval ends, flags, rows, keys, spellings, bytes."""
import json
import re
from collections.abc import Callable, Iterator
from functools import partial
from typing import Any

from checker.tests.certificate_draws import Draw

Change = tuple[str, Callable[[], bytes]]
ENDS = (0, 1, 4294967294, 4294967295, 4294967296, -1, 1.0, 1.5, "1", None, True, 1 << 64)
SPELLINGS = (b"1.0", b"1e0", b"01", b"-0", b"+1", b"1E400", b"-1e400", b"18446744073709551616", b"9" * 400, b"0x1",
             b"1_0", b"NaN", b"Infinity", b"null", b'"1"', b"[1]", b"1.", b".1", b"true", b"{}")
ODD_BYTES = (b"\xff", b"\x00", b"\xc0\x80", b"\xed\xa0\x80", b"\xef\xbb\xbf", b"\x0b", b"\x0c", b"\t", b" ",
             b"\r\n", b",", b"]", b"}", b'"', b"\\", b"\\u0030", b"\\ud800", b"\\q", b"0", b"f", b"/**/",
             "\u00e9".encode(), b"\x7f")


def put(value: Any, path: tuple[Any, ...], new: object) -> bytes:
    """The text of a value in which one part is another."""
    whole = json.loads(json.dumps(value))
    at = whole
    for step in path[:-1]:
        at = at[step]
    at[path[-1]] = new
    return dumped(whole)


def dumped(value: object) -> bytes:
    """Compact JSON."""
    return json.dumps(value, separators=(",", ":")).encode()


def of_values(value: Any, draw: Draw) -> Iterator[Change]:
    """Changes of digits, interval ends, flags and keys."""
    for number, row in enumerate(value["rows"]):
        for key, part in row.items():
            path = ("rows", number, key)
            if isinstance(part, str):
                for place in range(len(part)):
                    digit = draw.one("0123456789abcdefF g")
                    yield "digit", partial(put, value, path, part[:place] + digit + part[place + 1:])
            elif isinstance(part, bool):
                for flag in (not part, int(part), None, str(part).lower()):
                    yield "flag", partial(put, value, path, flag)
            else:
                yield from of_set(value, path, part, draw)
            less = {name: one for name, one in row.items() if name != key}
            yield "key dropped", partial(put, value, ("rows", number), less)
            other = draw.one(list(row))
            yield "parts exchanged", partial(put, value, ("rows", number), {**row, key: row[other], other: row[key]})
        yield "key added", partial(put, value, ("rows", number), {**row, "z": []})


def of_set(value: Any, path: tuple[Any, ...], part: list[list[int]], draw: Draw) -> Iterator[Change]:
    """Changes of a set of ids."""
    for place, pair in enumerate(part):
        for end in (0, 1):
            for new in (pair[end] + 1, pair[end] - 1, draw.one(ENDS)):
                yield "interval end", partial(put, value, (*path, place, end), new)
        yield "interval dropped", partial(put, value, path, part[:place] + part[place + 1:])
        yield "interval doubled", partial(put, value, path, part[:place] + [part[place]] + part[place:])
        two = [[pair[0], pair[0]], [pair[0] + 1, pair[1]]]
        yield "interval cut", partial(put, value, path, [*part[:place], *two, *part[place + 1:]])
    one = draw.one((0, 7, 1000, 4294967294, 65534))
    yield "interval added", partial(put, value, path, [*part, [one, one]])
    yield "interval added", partial(put, value, path, [[one, one], *part])
    yield "all ids", partial(put, value, path, [[0, 4294967294]])


def of_rows(value: Any, draw: Draw) -> Iterator[Change]:
    """Changes of rows and of the whole."""
    rows = value["rows"]
    for number in range(len(rows)):
        for other in range(number):
            swapped = list(rows)
            swapped[number], swapped[other] = swapped[other], swapped[number]
            yield "rows exchanged", partial(put, value, ("rows",), swapped)
        yield "row dropped", partial(put, value, ("rows",), rows[:number] + rows[number + 1:])
        yield "row doubled", partial(put, value, ("rows",), rows[:number] + rows[number:number + 1] + rows[number:])
        new = draw.one(([], {}, None, 1, [[]]))
        yield "row replaced", partial(put, value, ("rows", number), new)
    for new in (2, 0, 1.0, True, "1", None, [1]):
        yield "format", partial(put, value, ("format",), new)
    for new in ([], {}, None, 1, {"format": 1}, {"rows": rows}, {**value, "z": 0}, rows):
        yield "whole", partial(dumped, new)
    yield "blanks", partial(bytes, json.dumps(value, indent=1).encode())
    yield "keys turned", partial(dumped, {"rows": [dict(reversed(row.items())) for row in rows], "format": 1})


def of_text(text: bytes, draw: Draw) -> Iterator[Change]:
    """Changes of the bytes: spellings of numbers, repeated keys, escapes, cuts."""
    for match in re.finditer(rb"(?<=[\[,:])[0-9]+(?=[\],])", text):
        spelled = draw.one((*SPELLINGS, match[0] + b".0", match[0] + b"e0", b"0" + match[0], b"-" + match[0],
                            b" " + match[0]))
        yield "number spelled", partial(bytes, text[:match.start()] + spelled + text[match.end():])
    for match in re.finditer(rb'"([a-z]+)":', text):
        early = match[0] + draw.one((b"0", b"[]", b'"x"', b"true", b"1e999", b"01", b'"\\ud800"', b"[[[]]]")) + b","
        yield "key repeated", partial(bytes, text[:match.start()] + early + text[match.start():])
        escaped = b'"' + b"".join(b"\\u%04x" % byte for byte in match[1]) + b'":'
        yield "key escaped", partial(bytes, text[:match.start()] + escaped + text[match.end():])
        both = escaped + draw.one((b"0", b"[]", b"null")) + b","
        yield "key repeated", partial(bytes, text[:match.start()] + both + text[match.start():])
    for _ in range(60):
        at, odd = draw.randrange(len(text) + 1), draw.one(ODD_BYTES)
        yield "bytes added", partial(bytes, text[:at] + odd + text[at:])
        size = draw.one((1, 1, 2, 5, len(text)))
        yield "bytes cut", partial(bytes, text[:at] + text[at + size:])
    for depth in (124, 125, 126, 127, 128, 129):
        yield "depth", partial(bytes, b'{"x":' + b"[" * depth + b"]" * depth + b"," + text[1:])
        yield "depth", partial(bytes, b'{"rows":' + b"[" * depth + b"]" * depth + b"," + text[1:])


def changes(text: bytes, draw: Draw) -> list[Change]:
    """All changes of a certificate, by their kinds."""
    value = json.loads(text)
    return [*of_values(value, draw), *of_rows(value, draw), *of_text(text, draw)]
