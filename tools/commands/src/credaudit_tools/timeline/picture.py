"""A timeline as a picture: its columns, a moment of the log each at which something is to be seen, and the drawing of
its lanes as SVG.

Time goes from left to right, but evenly from column to column, so that no border is too narrow to be seen. Whatever is
drawn may come from a hostile log: all text is printable ASCII, and no text opens a tag.
"""
from bisect import bisect_right
from collections.abc import Iterable, Iterator, Sequence
from dataclasses import dataclass

from ..command_line.printable import shown
from ..explain.drawing import element
from ..judge.classes import CLASSES, HELD
from .borders import NOT_YET
from .lanes import Lane, Row, Span
from .timeline import Answer, Timeline
from .timeline_text import SHORT, brief, lane_title, names, verdict
from .walk import Walk

# The colours of the classes, in the light and in the dark; what isn't held has a pattern too.
COLOURS = {HELD: ("#c4320a", "#f97066"), "own-calls": ("#f79009", "#fdb022"), "program": ("#fac515", "#fde272"),
           "open": ("#98a2b3", "#98a2b3"), "gone": ("#067647", "#47cd89"), "gone-by-own-calls": ("#099250", "#75e0a7"),
           "doubted": ("#0e7090", "#67e3f9"), NOT_YET: ("#e4e7ec", "#344054")}
STRIPED = ("program", "open", "gone-by-own-calls", "doubted")
LEFT, TRACK, ROW, HEAD, PAD, FOOT, LETTER = 250, 660, 20, 30, 12, 22, 6.6
SHORTENED = "..."


@dataclass(frozen=True)
class Scale:
    """The columns: the moments at which they begin, in their order."""
    walk: Walk
    moments: tuple[int, ...]

    def column(self, moment: int) -> int:
        """The column in which a moment lies, counted from 0; past the last one the count of all."""
        return len(self.moments) if moment > self.walk.last else bisect_right(self.moments, moment) - 1

    def of_span(self, span: Span) -> tuple[int, int]:
        """The first column of a span, and the one behind its last."""
        return self.column(span.begin), self.column(span.end)

    def label(self, column: int) -> str:
        """What stands above a column: the line after which it begins."""
        moment = self.moments[column]
        return str(self.walk.line(moment)) if moment else "start"


def scale_of(walk: Walk, lanes: Sequence[Lane]) -> Scale:
    """The columns of a picture of these lanes: births, exits, the begins of spans, and first marks."""
    found = {0}
    for lane in lanes:
        found |= {moment for moment in (lane.life.born, lane.life.ended) if moment is not None}
        found |= {span.begin for row in lane.rows for span in row.spans}
        found |= {walk.moment(mark.line) for mark in lane.first_marks()}
    born = min(lane.life.born for lane in lanes)
    return Scale(walk, tuple(sorted(moment for moment in found if moment >= born)))


def span_title(walk: Walk, span: Span) -> str:
    """A span in a few words."""
    begin = f"line {walk.line(span.begin)}" if span.begin else "the start"
    since = f"since {begin}" if span.end > walk.last else f"from {begin} to line {walk.line(span.end)}"
    return f"{SHORT[span.kind]} {since}" + (f": {span.call}" if span.call else "")


# ---- SVG -------------------------------------------------------------------------------------------------------------


def style() -> str:
    """The style of the drawing, in the light and in the dark."""
    def colours(place: int) -> str:
        return " ".join(f".{kind} {{ fill: {both[place]}; }}" for kind, both in COLOURS.items())
    return ("text { font: 12px ui-sans-serif, system-ui, sans-serif; fill: #1d2939; } .title { font-weight: 600; }"
            " .line { font-size: 10px; fill: #667085; } .ground { fill: #ffffff; } .stripes { fill: url(#stripes); }"
            " .rule { stroke: #d0d5dd; } .mark { stroke: #7a5af8; stroke-dasharray: 3 2; }"
            f" .called {{ fill: #5925dc; font-size: 10px; }} {colours(0)}"
            " @media (prefers-color-scheme: dark) { text { fill: #e4e7ec; } .line { fill: #98a2b3; }"
            " .ground { fill: #101828; } .rule { stroke: #344054; } .mark { stroke: #bdb4fe; }"
            f" .called {{ fill: #bdb4fe; }} {colours(1)} }}")


def shortened(text: str, wide: float) -> str:
    """A text that fits into so many pixels."""
    most = max(int(wide / LETTER), 1)
    text = shown(text)
    return text if len(text) <= most else text[:max(most - len(SHORTENED), 0)].rstrip() + SHORTENED


@dataclass
class Drawing:
    """The elements of a picture, from top to bottom; `top` is where the next one goes."""
    scale: Scale
    top: float = PAD

    def left(self, column: int) -> float:
        """Where a column begins."""
        return LEFT + TRACK * column / max(len(self.scale.moments), 1)

    def text(self, text: str, left: float, kind: str = "", wide: float = 1e9, ends: bool = False) -> str:
        """A text on the row, which begins there, or ends there."""
        own = {**({"class": kind} if kind else {}), **({"text-anchor": "end"} if ends else {})}
        return element("text", shortened(text, wide), x=f"{left:.1f}", y=f"{self.top + 14:.1f}", **own)

    def bar(self, row: Row, span: Span) -> Iterator[str]:
        """A span, with its title for whoever points at it."""
        begin, end = self.scale.of_span(span)
        if begin >= end:
            return
        place = {"x": f"{self.left(begin) + 0.5:.1f}", "y": f"{self.top + 2:.1f}", "rx": "2",
                 "width": f"{self.left(end) - self.left(begin) - 1:.1f}", "height": str(ROW - 4)}
        title = element("title", shown(f"{names(row.rights)}: {span_title(self.scale.walk, span)}"))
        bars = [element("rect", **{"class": span.kind}, **place)]
        bars += [element("rect", **{"class": "stripes"}, **place)] if span.kind in STRIPED else []
        yield "<g>" + title + "".join(bars) + "</g>"

    def lane(self, lane: Lane, alone: bool) -> Iterator[str]:
        """A lane: whose it is, a bar for each row, and the first marks."""
        yield self.text(lane_title(self.scale.walk, lane, alone), PAD, "title", LEFT + TRACK - PAD)
        self.top += ROW
        begin = self.top
        for row in lane.rows:
            yield self.text(brief(row.rights), PAD + 8, wide=LEFT - 2 * PAD)
            for span in row.spans:
                yield from self.bar(row, span)
            self.top += ROW
        yield from self.marks(lane, begin)
        self.top += PAD

    def marks(self, lane: Lane, begin: float) -> Iterator[str]:
        """The first marks of a lane, whose rows begin there."""
        for mark in lane.first_marks():
            left = self.left(self.scale.column(self.scale.walk.moment(mark.line)) + 1) - 4
            yield element("line", x1=f"{left:.1f}", x2=f"{left:.1f}", y1=f"{begin:.1f}", y2=f"{self.top + 4:.1f}",
                          **{"class": "mark"})
            yield self.text(f"{mark.call} (line {mark.line})", left - 4, "called", ends=True)
            self.top += ROW

    def axis(self) -> Iterator[str]:
        """The lines above the columns, as many as fit."""
        each = max(1, -(-len(self.scale.moments) * 34 // TRACK))
        yield self.text("line of the log", PAD, "line")
        for column in range(0, len(self.scale.moments), each):
            yield self.text(self.scale.label(column), self.left(column), "line")
        self.top += ROW
        yield element("line", x1=str(LEFT), x2=str(LEFT + TRACK), y1=f"{self.top:.1f}", y2=f"{self.top:.1f}",
                      **{"class": "rule"})
        self.top += 4


def legend(drawing: Drawing, kinds: Iterable[str]) -> Iterator[str]:
    """What the colours stand for: those classes that are there."""
    left = float(PAD)
    for kind in kinds:
        place = {"x": f"{left:.1f}", "y": f"{drawing.top + 4:.1f}", "width": "14", "height": "12", "rx": "2"}
        yield element("rect", **{"class": kind}, **place)
        if kind in STRIPED:
            yield element("rect", **{"class": "stripes"}, **place)
        yield drawing.text(SHORT[kind], left + 19)
        left += 34 + LETTER * len(SHORT[kind])
    drawing.top += HEAD


def kinds_in(lanes: Sequence[Lane]) -> list[str]:
    """The classes that stand in lanes, in the order of the classes."""
    there = {span.kind for lane in lanes for row in lane.rows for span in row.spans}
    return [kind for kind in (*CLASSES, NOT_YET) if kind in there]


def answer_parts(made: Timeline, answer: Answer, top: float) -> tuple[list[str], float]:
    """The elements of one answer, and where they end."""
    drawing = Drawing(scale_of(made.walk, answer.lanes), top)
    found = [drawing.text(verdict(made.walk, answer), PAD, "title")]
    drawing.top += HEAD
    found += [*legend(drawing, kinds_in(answer.lanes)), *drawing.axis()]
    for lane in answer.lanes:
        found += drawing.lane(lane, len(answer.lanes) == 1)
    return found, drawing.top + FOOT


def svg_of(made: Timeline) -> str:
    """The drawing as a document of its own."""
    found, top, wide = list[str](), float(PAD), LEFT + TRACK + PAD
    for answer in made.answers:
        own, top = answer_parts(made, answer, top)
        found += own
    stripes = ('<defs><pattern id="stripes" width="6" height="6" patternUnits="userSpaceOnUse"'
               ' patternTransform="rotate(45)"><rect width="2" height="6" fill="#ffffff" fill-opacity="0.45"/>'
               "</pattern></defs>")
    return "\n".join([
        '<?xml version="1.0" encoding="UTF-8"?>',
        f'<svg xmlns="http://www.w3.org/2000/svg" width="{wide}" height="{top:.0f}" viewBox="0 0 {wide} {top:.0f}">',
        element("title", "when rights were held, could be had again, and went"), element("style", style()), stripes,
        element("rect", **{"class": "ground"}, x="0", y="0", width=str(wide), height=f"{top:.0f}"), *found, "</svg>",
        ""])
