"""A drawing of user namespaces, the processes in them, and the rows of bounds: as lines of text and as SVG.

Whatever is drawn may come from a hostile file: all text is printable ASCII, and in SVG no text opens a tag.
"""
import html
import textwrap
from dataclasses import dataclass, field

from ..command_line.printable import shown

WIDE, LETTER, HIGH, PAD, SIZE = 100, 7.3, 17, 10, 12
STYLE = ("text { font-family: monospace; font-size: 12px; } rect { fill: #fff; stroke: #333; }"
         " .name { font-weight: bold; } .process { fill: #04519b; } .row { fill: #7a3b00; }")


@dataclass
class Line:
    """A line of a box; `kind` is the namespace's own `name` or `about`, a `process`, or a `row`."""
    kind: str
    text: str


@dataclass
class Box:
    """A user namespace: its lines, and the namespaces in it."""
    lines: list[Line] = field(default_factory=list)
    inner: list["Box"] = field(default_factory=list)


def wrapped(line: Line) -> list[Line]:
    """A line as lines that aren't too wide."""
    parts = textwrap.wrap(shown(line.text), WIDE, subsequent_indent="    ", break_long_words=True) or [""]
    return [Line(line.kind, part) for part in parts]


# ---- as text ---------------------------------------------------------------------------------------------------------


def text_of(box: Box, front: str = "") -> list[str]:
    """The lines of a box; those in it hang on a line at its left."""
    head, *rest = [line for each in box.lines for line in wrapped(each)] or [Line("name", "?")]
    found = [head.text]
    bar = "|  " if box.inner else "   "
    found += [bar + line.text for line in rest]
    for number, each in enumerate(box.inner):
        more = "|  " if number + 1 < len(box.inner) else "   "
        first, *others = text_of(each)
        found += ["|", "+- " + first, *(more + line for line in others)]
    return [front + line for line in found]


# ---- as SVG ----------------------------------------------------------------------------------------------------------


def size(box: Box) -> tuple[float, float]:
    """How wide and high a box is."""
    lines = [line for each in box.lines for line in wrapped(each)]
    inner = [size(each) for each in box.inner]
    wide = max([len(line.text) * LETTER for line in lines] + [each[0] for each in inner] + [0])
    return wide + 2 * PAD, HIGH * len(lines) + sum(each[1] + PAD for each in inner) + 2 * PAD


def element(name: str, text: str | None = None, **attributes: object) -> str:
    """An element of XML."""
    told = "".join(f' {key}="{html.escape(str(value))}"' for key, value in attributes.items())
    return f"<{name}{told}/>" if text is None else f"<{name}{told}>{html.escape(text)}</{name}>"


def parts(box: Box, left: float, top: float) -> list[str]:
    """The elements of a box that stands there."""
    wide, high = size(box)
    found = [element("rect", x=f"{left:.0f}", y=f"{top:.0f}", width=f"{wide:.0f}", height=f"{high:.0f}")]
    below = top + PAD
    for line in [line for each in box.lines for line in wrapped(each)]:
        below += HIGH
        place = {"class": line.kind, "x": f"{left + PAD:.0f}", "y": f"{below - 5:.0f}", "xml:space": "preserve"}
        found.append(element("text", line.text, **place))
    for each in box.inner:
        below += PAD
        found += parts(each, left + PAD, below)
        below += size(each)[1]
    return found


def svg_of(box: Box) -> str:
    """The drawing as a document of its own."""
    wide, high = (each + 2 * PAD for each in size(box))
    return "\n".join([
        '<?xml version="1.0" encoding="UTF-8"?>',
        f'<svg xmlns="http://www.w3.org/2000/svg" width="{wide:.0f}" height="{high:.0f}"'
        f' viewBox="0 0 {wide:.0f} {high:.0f}">',
        element("title", "user namespaces, processes and bounds"), element("style", STYLE), *parts(box, PAD, PAD),
        "</svg>", ""])
