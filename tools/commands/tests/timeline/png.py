"""Reads a PNG as chromium writes its screenshots: eight bits a part, three or four parts a pixel, not interlaced
(the Portable Network Graphics specification, "Filtering")."""
import struct
import zlib
from collections.abc import Iterator
from dataclasses import dataclass

SIGNATURE = b"\x89PNG\r\n\x1a\n"
PARTS = {2: 3, 6: 4}        # by the colour type how many parts a pixel has
Colour = tuple[int, int, int]


@dataclass
class Picture:
    """A picture: its width, and its lines of pixels, whose parts stand one after another."""
    width: int
    parts: int
    lines: list[bytearray]

    def at(self, left: int, top: int) -> Colour:
        """The colour of a pixel."""
        line, at = self.lines[top], left * self.parts
        return line[at], line[at + 1], line[at + 2]


def chunks(data: bytes) -> Iterator[tuple[bytes, bytes]]:
    """The chunks of a file, by their names. ValueError where it is no PNG."""
    if not data.startswith(SIGNATURE):
        raise ValueError("no PNG")
    at = len(SIGNATURE)
    while at < len(data):
        length, name = struct.unpack_from(">I4s", data, at)
        yield name, data[at + 8:at + 8 + length]
        at += length + 12


def predicted(left: int, above: int, corner: int) -> int:
    """Paeth's predictor: which of the three is nearest to left + above - corner."""
    here = left + above - corner
    far = abs(here - left), abs(here - above), abs(here - corner)
    return (left, above, corner)[far.index(min(far))]


def unfiltered(kind: int, line: bytearray, above: bytearray, parts: int) -> bytearray:
    """A line without its filter. ValueError at a filter that there isn't."""
    if kind > 4:
        raise ValueError(f"filter {kind}")
    for at in range(len(line) if kind else 0):
        left, corner = (line[at - parts], above[at - parts]) if at >= parts else (0, 0)
        add = (0, left, above[at], (left + above[at]) // 2, predicted(left, above[at], corner))[kind]
        line[at] = (line[at] + add) & 255
    return line


def read(data: bytes) -> Picture:
    """The picture of a file. ValueError where it is none of this kind."""
    header, packed = b"", b""
    for name, told in chunks(data):
        header, packed = (told if name == b"IHDR" else header), packed + (told if name == b"IDAT" else b"")
    width, height, depth, kind, _, _, interlaced = struct.unpack(">IIBBBBB", header)
    if depth != 8 or kind not in PARTS or interlaced:
        raise ValueError(f"depth {depth}, colour type {kind}, interlaced {interlaced}")
    raw, size = zlib.decompress(packed), width * PARTS[kind]
    lines = list[bytearray]()
    above = bytearray(size)
    for at in range(0, height * (size + 1), size + 1):
        above = unfiltered(raw[at], bytearray(raw[at + 1:at + 1 + size]), above, PARTS[kind])
        lines.append(above)
    return Picture(width, PARTS[kind], lines)
