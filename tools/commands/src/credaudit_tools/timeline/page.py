"""A timeline as one page of HTML that stands alone: nothing is loaded from elsewhere, and it works without its script.

The lanes are drawn with a link for each span, to the row of a table that has all of it, for those who don't see the
picture too. Names and texts come from logs, so each is made printable and escaped; a policy in the page lets nothing
run or style it but its own two texts.
"""
import base64
import hashlib
import html
from collections.abc import Iterable, Iterator, Sequence
from dataclasses import dataclass, field

from ..command_line.printable import few, shown
from ..formats.rights import Right
from ..judge.classes import HELD, MOST_HOLDERS
from . import page_style
from .exposure import SHARES, percent
from .lanes import Lane, Row, Span
from .picture import Scale, kinds_in, scale_of, span_title
from .timeline import Answer, Timeline, certificate_sum
from .timeline_text import SHORT, brief, detail, lane_title, names, verdict
from .walk import Walk

SCANNED = "a scan of all files was declared"
UNSCANNED = "without a scan of all files: what is gone is so by the family's own calls"
LABELS = 20         # of columns that are read beside each other
FEW = 3             # rights that stand by their names; more of them unfold
HEADS = ("Processes", "Rights", "Class", "From line", "To line", "Call", "How, by whom, why", "Run", "Certificate", "")


def text(told: str) -> str:
    """A text of the page: printable, and with no tag in it."""
    return html.escape(shown(told))


def tag(name: str, *inside: str, **attributes: str) -> str:
    """An element around others; a `_` at an attribute's end isn't of its name, and one within stands for a hyphen."""
    told = "".join(f' {key.rstrip("_").replace("_", "-")}="{text(value)}"' for key, value in attributes.items())
    return f"<{name}{told}>{''.join(inside)}</{name}>"


def sum_of(code: str) -> str:
    """The sum by which the policy knows a text of the page."""
    return "'sha256-" + base64.b64encode(hashlib.sha256(code.encode()).digest()).decode() + "'"


# ---- the table -------------------------------------------------------------------------------------------------------


def rights_cell(rights: Sequence[Right]) -> str:
    """The names of rights; of many a summary that unfolds."""
    if len(rights) <= FEW:
        return tag("td", *(tag("code", text(right.text())) + " " for right in rights))
    every = tag("ul", *(tag("li", tag("code", text(right.text()))) for right in rights))
    return tag("td", tag("details", tag("summary", text(names(rights))), every))


def line_cell(walk: Walk, moment: int) -> str:
    """The line of a moment; none at the log's end."""
    return tag("td", str(walk.line(moment)) if moment <= walk.last else "", class_="number")


def kind_cell(kind: str) -> str:
    """A class, with its colour."""
    key = tag("span", class_=f"key {kind}")
    return tag("td", tag("span", key, tag("span", text(SHORT[kind]), class_="kind"), class_="chip"))


def span_row(walk: Walk, lane: Lane, row: Row, span: Span, number: int) -> str:
    """The row of a span."""
    told = few(list(span.outcome.reasons), MOST_HOLDERS) if span.kind == HELD else detail(span)
    run = "".join(tag("code", text(line)) + "<br>" for line in span.outcome.calls())
    cells = [tag("td", text(", ".join(map(str, lane.pids())))), rights_cell(row.rights), kind_cell(span.kind),
             line_cell(walk, span.begin), line_cell(walk, span.end),
             tag("td", tag("code", text(span.call)), class_="text"), tag("td", text(told), class_="text"),
             tag("td", run, class_="text"), tag("td", tag("code", text(certificate_sum(span) or "")), class_="sum"),
             tag("td", tag("a", "show", href=f"#s{number}"))]
    return tag("tr", *cells, id=f"r{number}")


# ---- the picture -----------------------------------------------------------------------------------------------------


@dataclass
class Numbered:
    """The spans of a page, by their numbers: the rows of the table in their order."""
    rows: list[str] = field(default_factory=list)

    def add(self, walk: Walk, lane: Lane, row: Row, span: Span) -> int:
        """The number of a span."""
        number = len(self.rows) + 1
        self.rows.append(span_row(walk, lane, row, span, number))
        return number


def place(begin: int, end: int) -> str:
    """The classes of what goes from one column to another."""
    return f"b{begin + 1} e{end + 1}"


def axis(scale: Scale) -> str:
    """The lines above the columns, as many as are read."""
    each = -(-len(scale.moments) // LABELS)
    told = [tag("span", text(scale.label(column)), class_=place(column, min(column + each, len(scale.moments))))
            for column in range(0, len(scale.moments), each)]
    return tag("div", tag("span", "line of the log", class_="name"), tag("div", *told, class_="track"),
               class_="row axis", aria_hidden="true")


def bars(scale: Scale, lane: Lane, row: Row, numbered: Numbered) -> Iterator[str]:
    """The spans of a row."""
    for span in row.spans:
        number = numbered.add(scale.walk, lane, row, span)
        begin, end = scale.of_span(span)
        if begin < end:
            told = f"{names(row.rights)}: {span_title(scale.walk, span)}"
            yield tag("a", text(SHORT[span.kind]), class_=f"span {span.kind} {place(begin, end)}", href=f"#r{number}",
                      id=f"s{number}", title=told, aria_label=told)


def marks_row(scale: Scale, lane: Lane) -> Iterator[str]:
    """The first marks of a lane."""
    told = [tag("span", text(f"{mark.call}, line {mark.line}"), class_=f"mark {place(0, column + 1)}", title=(
        f"process {mark.pid} {mark.call} = {mark.result}"))
            for mark in lane.first_marks() for column in [scale.column(scale.walk.moment(mark.line))]]
    for each in told:
        yield tag("div", tag("span", "mark", class_="name soft"), tag("div", each, class_="track"), class_="row")


def lane_part(scale: Scale, lane: Lane, alone: bool, numbered: Numbered) -> str:
    """A lane of the picture."""
    rows = [tag("div", tag("span", text(brief(row.rights)), class_="name", title=names(row.rights)),
                tag("div", *bars(scale, lane, row, numbered), class_="track of-spans"), class_="row")
            for row in lane.rows]
    return tag("div", tag("h4", text(lane_title(scale.walk, lane, alone))), *rows, *marks_row(scale, lane),
               class_="lane")


def legend(kinds: Iterable[str]) -> str:
    """What the colours stand for."""
    return tag("ul", *(tag("li", tag("span", class_=f"key {kind}"), text(SHORT[kind])) for kind in kinds),
               class_="legend")


# ---- the whole -------------------------------------------------------------------------------------------------------


def table(kind: str, caption: str, head: str, body: Sequence[str]) -> str:
    """A table with what it tells of above it."""
    return tag("div", tag("table", tag("caption", caption), tag("thead", head), tag("tbody", *body), class_=kind),
               class_="scroll")


def exposure_table(answer: Answer) -> str:
    """How long each right was what."""
    timed = any(share.seconds is not None for _, share in answer.exposures)
    kinds = ["time", "lines"] if timed else ["lines"]
    head = tag("tr", tag("th", "Rights"), *(tag("th", f"{state}, of its {kind}") for kind in kinds for state in SHARES))
    body = list[str]()
    for row, share in answer.exposures:
        parts = [share.seconds, share.lines] if timed else [share.lines]
        cells = [tag("td", percent(part[state], sum(part.values())), class_="number")
                 for part in parts if part is not None for state in SHARES]
        body.append(tag("tr", rights_cell(row.rights), *cells))
    caption = text(f"In which share of process {answer.life.pid}'s {' and '.join(kinds)}, with all that it started,"
                   " each right was held, could be had again, and was gone.")
    return table("exposure", caption, head, body)


def span_table(numbered: Numbered, first: int) -> str:
    """The table of the spans from one number on."""
    head = tag("tr", *(tag("th", text(each), scope="col") for each in HEADS))
    caption = ("Each span: after the line From it is so, after the line To no more; without one it is so at the log's"
               " end.")
    return table("spans", caption, head, numbered.rows[first:])


def answer_part(made: Timeline, answer: Answer, numbered: Numbered) -> str:
    """All of one answer."""
    scale, first, alone = scale_of(made.walk, answer.lanes), len(numbered.rows), len(answer.lanes) == 1
    lanes = [lane_part(scale, lane, alone, numbered) for lane in answer.lanes]
    picture = tag("div", axis(scale), *lanes, class_="picture", role="group", tabindex="0", aria_label=(
        "processes from top to bottom, lines of the log from left to right; a table with the same stands below"))
    return tag("section", tag("h2", text(verdict(made.walk, answer))), tag("p", text(answer.title), class_="soft"),
               legend(kinds_in(answer.lanes)), picture, tag("h3", "How long"), exposure_table(answer),
               tag("h3", "All spans"), span_table(numbered, first))


def page_of(made: Timeline) -> str:
    """The whole page."""
    numbered = Numbered()
    parts = [answer_part(made, answer, numbered) for answer in made.answers]
    count = max(len(scale_of(made.walk, answer.lanes).moments) for answer in made.answers)
    style = page_style.style(count)
    policy = (f"default-src 'none'; style-src {sum_of(style)}; script-src {sum_of(page_style.SCRIPT)}; base-uri 'none';"
              " form-action 'none'")
    title = "Timeline of process " + few([str(answer.life.pid) for answer in made.answers])
    scan = SCANNED if made.scanned else UNSCANNED
    head = [f'<meta http-equiv="Content-Security-Policy" content="{html.escape(policy)}">', tag("title", text(title)),
            '<meta name="viewport" content="width=device-width, initial-scale=1">', f"<style>{style}</style>"]
    intro = [tag("h1", "When rights were held, could be had again, and went"),
             tag("p", text(f"A log of {made.lines} lines; {scan}."), class_="soft")]
    notes = [tag("ul", *(tag("li", text(note)) for note in made.notes), class_="soft")] if made.notes else []
    return "\n".join(['<!DOCTYPE html>', '<html lang="en">', '<head>', '<meta charset="utf-8">', *head, "</head>",
                      "<body>", tag("main", *intro, *notes, *parts), '<div id="told" role="status" hidden></div>',
                      f"<script>{page_style.SCRIPT}</script>", "</body>", "</html>", ""])
