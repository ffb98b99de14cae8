"""The one reader of strace's lines: a pid and a body, a call with its arguments and its result, decorations of
descriptors, and texts in quotes (strace(1); docs/STRACE.md has how the program reads the plain ones).

It reads what `-f -v -yy --pidns-translation` write, and what the options write that docs/STRACE.md warns of, as far as
a tool has to tell them apart. What it can't read is None, never a guess.
"""
import re
from dataclasses import dataclass

BLANKS = b" \t\r"
UNFINISHED = b"<unfinished ...>"
PID = re.compile(rb"([1-9][0-9]{0,6})[ \t]+(.*)", re.S)
RESUMED = re.compile(rb"<\.\.\. (\S+) resumed>(.*)", re.S)
NAME = re.compile(rb"[A-Za-z0-9_?]+")
SUCCESS = re.compile(rb"([0-9]+|0x[0-9a-f]+)(?![0-9a-zA-Z])")
RESULT = re.compile(rb"[ \t]*= ?(.*)", re.S)
DESCRIPTOR = re.compile(rb"AT_FDCWD|-?[0-9]+")
BEFORE_DECORATION = re.compile(rb"(?:^|[^A-Za-z0-9_])(?:[0-9]+|AT_FDCWD)$")
NUMBER = re.compile(rb"-?(0x[0-9a-f]+|[0-9]+)")
COMMENT = re.compile(rb"\s*/\*.*?\*/", re.S)
TRANSLATED = re.compile(rb"([0-9]+) /\* ([0-9]+) in strace's PID NS \*/")
ESCAPES = {b"n": b"\n", b"t": b"\t", b"v": b"\v", b"f": b"\f", b"r": b"\r", b"\\": b"\\", b'"': b'"'}
OWN_SPELLINGS = {0x0a: b"\\n", 0x09: b"\\t", 0x22: b'\\"', 0x5c: b"\\\\"}
SPELLED = [OWN_SPELLINGS.get(byte, bytes([byte]) if 0x20 <= byte < 0x7f else b"\\%03o" % byte) for byte in range(256)]
ESCAPE = re.compile(rb"\\(?:x([0-9a-f]{2})|([0-7]{1,3})|(.))", re.S)
SOCKET = rb'<[A-Za-z0-9_-]+:\[(?:[^"\\]|\\.|"(?:[^"\\]|\\.)*")*?\]>'
DECORATION = re.compile(SOCKET + rb"|<(?:[^<>\\]|\\.)*(?:<[^<>]*>)?>", re.S)
CLOSING = {0x28: 0x29, 0x5b: 0x5d, 0x7b: 0x7d}
IN_QUOTES = re.compile(rb'[^"\\]*(?:\\.[^"\\]*)*', re.S)
PARTING = re.compile(rb'[][(){}",<]')            # where a text may part into pieces
PAIRED = {each: re.compile(b'["<' + re.escape(bytes([each, end])) + b"]") for each, end in CLOSING.items()}


@dataclass(frozen=True)
class Call:
    """A whole call. The result is without what stands behind it."""
    name: bytes
    arguments: tuple[bytes, ...]
    result: bytes

    @property
    def done(self) -> int | None:
        """The number of a success, None where it failed or isn't known."""
        found = SUCCESS.match(self.result)
        return int(found.group(1), 0 if found.group(1).startswith(b"0x") else 10) if found else None


def parted(line: bytes) -> tuple[int, bytes] | None:
    """The pid and the body of a line."""
    found = PID.fullmatch(line.rstrip(BLANKS))
    return (int(found.group(1)), found.group(2)) if found else None


def after_quote(text: bytes, at: int) -> int:
    """The place behind the quoted text that begins at `at`; the text's end where the quote isn't closed."""
    found = IN_QUOTES.match(text, at + 1)
    return found.end() + 1 if found and text[found.end():found.end() + 1] == b'"' else len(text)


def after_decoration(text: bytes, at: int) -> int | None:
    """The place behind the decoration `<..>` that begins at `at`, None where it has no end. strace writes `<`, `>`
    and `"` of a path by escapes; a socket's decoration has brackets, with arrows and a quoted path within, a
    device's another pair."""
    found = DECORATION.match(text, at)
    return found.end() if found else None


def is_decorated(text: bytes, at: int) -> bool:
    """Whether a `<` at this place begins a descriptor's decoration: behind a number or AT_FDCWD."""
    front = text[max(0, at - 12):at]
    return BEFORE_DECORATION.search(front) is not None


def skip(text: bytes, at: int) -> int:
    """The place behind the quoted text or decoration that begins at `at`, or the next place."""
    if text[at] == 0x22:
        return after_quote(text, at)
    if text[at] == 0x3c and is_decorated(text, at):
        return after_decoration(text, at) or at + 1
    return at + 1


def pieces(text: bytes) -> tuple[bytes, ...] | None:
    """What commas outside of brackets, quotes and decorations part; None where brackets don't fit."""
    found, open_ones, begin, at = [], bytearray(), 0, 0
    while (hit := PARTING.search(text, at)) is not None:
        at = hit.start()
        byte = text[at]
        if byte in CLOSING:
            open_ones.append(CLOSING[byte])
        elif byte in b")]}":
            if not open_ones or open_ones.pop() != byte:
                return None
        elif byte == 0x2c and not open_ones:
            found.append(text[begin:at].strip(BLANKS))
            begin = at + 1
        at = skip(text, at)
    found.append(text[begin:].strip(BLANKS))
    return None if open_ones else tuple(found) if text.strip(BLANKS) else ()


def closing(text: bytes, at: int) -> int | None:
    """The place of what closes the parenthesis or brace at `at`."""
    depth, opening, end, pattern = 0, text[at], CLOSING[text[at]], PAIRED[text[at]]
    while (hit := pattern.search(text, at)) is not None:
        at = hit.start()
        if text[at] == opening:
            depth += 1
        elif text[at] == end:
            depth -= 1
            if depth == 0:
                return at
        at = skip(text, at)
    return None


def call_of(body: bytes) -> Call | None:
    """The call of a whole body `NAME(ARGUMENTS) = RESULT`."""
    name = NAME.match(body)
    if name is None or body[name.end():name.end() + 1] != b"(":
        return None
    end = closing(body, name.end())
    if end is None:
        return None
    result = RESULT.fullmatch(body, end + 1)
    arguments = pieces(body[name.end() + 1:end])
    if result is None or arguments is None:
        return None
    return Call(name.group(), arguments, result.group(1).strip(BLANKS))


def name_of(body: bytes) -> bytes:
    """The name that a body begins with, without a final 32; empty where it is no call."""
    found = NAME.match(body)
    if found is None or body[found.end():found.end() + 1] != b"(":
        return b""
    return found.group().removesuffix(b"32")


def text_of(argument: bytes) -> tuple[bytes, bool] | None:
    """The bytes of a quoted argument, and whether it is whole; None where it isn't quoted, or has an odd escape."""
    if not argument.startswith(b'"'):
        return None
    end = after_quote(argument, 0)
    rest = argument[end:]
    if rest not in (b"", b"..."):
        return None
    bytes_found = unescaped(argument[1:end - 1])
    return None if bytes_found is None else (bytes_found, rest == b"")


def unescaped(text: bytes) -> bytes | None:
    """The bytes that strace wrote between quotes."""
    good = True

    def one(found: re.Match[bytes]) -> bytes:
        nonlocal good
        if found.group(1):
            return bytes([int(found.group(1), 16)])
        if found.group(2):
            value = int(found.group(2), 8)
            good = good and value < 256
            return bytes([value & 255])
        good = good and found.group(3) in ESCAPES
        return ESCAPES.get(found.group(3), b"")

    made = ESCAPE.sub(one, text)
    return made if good else None


def quoted(text: bytes) -> bytes:
    """The bytes between quotes, as strace writes them: an octal number of three digits for all that is odd."""
    return b'"' + b"".join(map(SPELLED.__getitem__, text)) + b'"'


def descriptor(argument: bytes) -> tuple[bytes, bytes | None] | None:
    """The number (or AT_FDCWD) of a descriptor's argument, and its decoration with escapes undone. None where it is no
    descriptor. A mark behind the decoration, such as `(deleted)`, is passed over."""
    found = DESCRIPTOR.match(argument)
    if found is None:
        return None
    rest = argument[found.end():]
    if not rest.startswith(b"<"):
        return (found.group(), None) if rest == b"" else None
    end = after_decoration(rest, 0)
    if end is None:
        return None
    told = unescaped(rest[1:end - 1])
    return found.group(), told


def words(text: bytes) -> list[bytes]:
    """The flags between bars."""
    return [word.strip(BLANKS) for word in text.split(b"|")]


def member(name: bytes, argument: bytes) -> bytes | None:
    """VALUE of `NAME=VALUE`, or of such a member between braces."""
    if argument.startswith(b"{"):
        end = closing(argument, 0)
        inner = () if end is None else pieces(argument[1:end]) or ()
        found = (member(name, each) for each in inner if not each.startswith(b"{"))
        return next((told for told in found if told is not None), None)
    front = name + b"="
    return argument[len(front):].strip(BLANKS) if argument.startswith(front) else None


def flags_of(call: Call) -> list[bytes] | None:
    """The flags of a birth, none of fork and vfork; None where it tells none."""
    if call.name in (b"fork", b"vfork"):
        return []
    told = (member(b"flags", argument) for argument in call.arguments)
    return next((words(each) for each in told if each is not None), None)
