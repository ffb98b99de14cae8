"""A timeline in words: of each lane what became of each right and when; then the course of all lanes, from top to
bottom by the lines that change something. No line is wider than printable.WIDE, but where a single word is.
"""
import textwrap
from collections.abc import Iterable, Iterator, Mapping, Sequence

from ..command_line.printable import few, folded, plural, shown
from ..filters.filter_lines import NOBODY
from ..formats.report import Event
from ..formats.rights import Right
from ..judge.answer_words import label
from ..judge.classes import (
    DOUBTED, GONE, GONE_BY_OWN_CALLS, HELD, IS_GONE, MOST_HOLDERS, OPEN, OWN_CALLS, PROGRAM, row_words)
from .borders import NOT_YET
from .exposure import SHARES, percent
from .lanes import Lane, Row, Span, event_text, gone_since
from .timeline import Answer, Timeline
from .walk import Walk

LABEL, COLUMNS = 28, 40         # a longer label stands in a line of its own; so wide may the lanes be
BRIEF = 60                      # so long may names be in a picture
COUNTED = {"uid": "user ids", "gid": "group ids", "cap": "capabilities"}
SHORT = {HELD: "held", OWN_CALLS: "regainable by its own calls", PROGRAM: "regainable through a program",
         GONE: "gone", GONE_BY_OWN_CALLS: "gone by its own calls", DOUBTED: "not called gone", OPEN: "open",
         NOT_YET: "its user namespace doesn't stand"}


def together(rights: Sequence[Right]) -> list[list[Right]]:
    """Rights by their kind and user namespace."""
    parts: dict[tuple[str, str | None], list[Right]] = {}
    for right in rights:
        parts.setdefault((right.kind, right.space), []).append(right)
    return list(parts.values())


def names(rights: Sequence[Right]) -> str:
    """Rights by their names."""
    return ", ".join(map(label, together(rights)))


def count(rights: Sequence[Right]) -> str:
    """How many rights of a kind these are."""
    space = rights[0].space
    return f"{len(rights)} {COUNTED[rights[0].kind]}" + (f" over {space}" if space is not None else "")


def brief(rights: Sequence[Right]) -> str:
    """Rights by their names, and where these would be long by how many they are."""
    return ", ".join(count(own) if len(label(own)) > BRIEF else label(own) for own in together(rights))


def at(walk: Walk, moment: int) -> str:
    """A moment by its line."""
    return f"line {walk.line(moment)}" if moment else "the start"


def detail(span: Span) -> str:
    """What is known of a span beside its class."""
    own = span.outcome
    if span.kind == HELD:
        return few(list(own.reasons), MOST_HOLDERS)
    if span.kind == PROGRAM:
        return f"{few(list(own.programs))}: {span.run}"
    if span.kind == OPEN:
        return f"{own.lets} lets it in, {row_words(own.row or '')} (rule {own.rule}, row {own.row})"
    return span.run if span.kind == OWN_CALLS else few(list(own.reasons), MOST_HOLDERS)


def span_words(walk: Walk, span: Span) -> str:
    """A span in words."""
    begin = f"from {at(walk, span.begin)}" if span.begin else "from the start"
    if span.kind in IS_GONE and span.end > walk.last:
        begin = f"since {at(walk, span.begin)}"
    until = f" to {at(walk, span.end)}" if span.end <= walk.last else ""
    call = f" ({shown(span.call)})" if span.call else ""
    told = detail(span)
    return f"{SHORT[span.kind]} {begin}{call}{until}" + (f": {told}" if told else "")


def row_lines(walk: Walk, row: Row, wide: int) -> Iterator[str]:
    """The lines of a row: its rights at the left, its spans beside or below, a line each."""
    name = shown(names(row.rights))
    front = " " * (wide + 4)
    if len(name) > wide:
        yield from folded("  " + name + ":", "    ")
        name = ""
    for span in row.spans:
        yield from folded(f"  {name:{wide}}  " + shown(span_words(walk, span)), front + "  ")
        name = ""


def lane_title(walk: Walk, lane: Lane, alone: bool) -> str:
    """Whose lane it is."""
    life, alike = lane.life, [each.life.pid for each in lane.alike]
    born = f"born at line {walk.line(life.born)}" if life.born else "there from the start"
    ended = f", ended at line {walk.line(life.ended)}" if life.ended is not None else ""
    who = f"process {life.pid}" + (" and all that it started" if life.children else "")
    also = f"; likewise {plural(len(alike), 'process')}: {few([str(pid) for pid in alike])}" if alike else ""
    program = f" ({shown(lane.program)})" if lane.program is not None else ""
    return f"{who}{program}" + ("" if alone and not life.born else f", {born}{ended}") + also


def lane_lines(walk: Walk, lane: Lane, alone: bool) -> Iterator[str]:
    """What became of the rights in a lane."""
    yield from folded(shown(lane_title(walk, lane, alone)) + ":")
    wide = max((len(names(row.rights)) for row in lane.rows if len(names(row.rights)) <= LABEL), default=2)
    for row in lane.rows:
        yield from row_lines(walk, row, wide)


# ---- the course ------------------------------------------------------------------------------------------------------


def turns(lane: Lane) -> dict[int, list[tuple[str, list[Right]]]]:
    """By moment what rights become there, those that become the same together."""
    found: dict[int, dict[str, list[Right]]] = {}
    for row in lane.rows:
        for span in row.spans:
            found.setdefault(span.begin, {}).setdefault(span.kind, []).extend(row.rights)
    return {moment: list(kinds.items()) for moment, kinds in found.items()}


def first_marks(walk: Walk, lanes: Iterable[Lane]) -> dict[int, list[str]]:
    """By moment the first mark of each call in each lane, with its line; none of a line that is a moment's own."""
    found: dict[int, list[str]] = {}
    for mark in (mark for lane in lanes for mark in lane.first_marks()):
        told, moment = f"line {mark.line}: {mark.pid} {mark.call} = {mark.result} (marked)", walk.moment(mark.line)
        found.setdefault(moment, []).extend([told] if mark.line != walk.line(moment) else [])
    return found


class Columns:
    """The lanes side by side: a column for each, which shows where a process is born, acts, lives on and ends."""

    def __init__(self, lanes: Sequence[Lane]) -> None:
        self.lanes = lanes
        self.names = [str(lane.life.pid) + (f"*{len(lane.pids())}" if lane.alike else "") for lane in lanes]
        wide = max(map(len, self.names), default=0) + 1
        self.wide = wide if len(lanes) > 1 and wide * len(lanes) <= COLUMNS else 0

    def head(self) -> str:
        """The pids above them."""
        return "".join(f"{name:<{self.wide}}" for name in self.names) if self.wide else ""

    def at(self, moment: int, pid: int | None) -> str:
        """The lanes at a moment at which a process acted."""
        return "".join(f"{self.sign(lane, moment, pid):<{self.wide}}" for lane in self.lanes) if self.wide else ""

    def below(self, moment: int) -> str:
        """The lanes beside what is told of a moment."""
        return "".join(f"{'|' if any(each.life.lives(moment) for each in (lane, *lane.alike)) else '':<{self.wide}}"
                       for lane in self.lanes) if self.wide else ""

    def sign(self, lane: Lane, moment: int, pid: int | None) -> str:
        """A lane at a moment."""
        own = [lane, *lane.alike]
        if any(each.life.ended == moment for each in own):
            return "x"
        if moment and any(each.life.born == moment for each in own):
            return "o"
        living = [each for each in own if each.life.lives(moment)]
        return "*" if any(each.life.pid == pid for each in living) else "|" if living else ""


def act_of(event: Event | None) -> str:
    """What happened at a moment."""
    if event is None or event.pid == NOBODY:
        return "the start" if event is None else "the end, where the world's [filter] counts"
    return f"{event.pid} {event_text(event)}"


def course_lines(walk: Walk, lanes: Sequence[Lane]) -> Iterator[str]:
    """From top to bottom each line that changes something: of a right's class, by a birth, by an exit; and the first
    marks."""
    columns, changes = Columns(lanes), {id(lane): turns(lane) for lane in lanes}
    marks = first_marks(walk, lanes)
    births = {moment for lane in lanes for each in (lane, *lane.alike)
              for moment in (each.life.born, each.life.ended) if moment is not None}
    moments = sorted({*births, *marks, *(moment for own in changes.values() for moment in own)})
    number = max(4, len(str(walk.line(walk.last))))
    if columns.wide:
        yield f"{'line':>{number}}  {columns.head()}".rstrip()
    for moment in moments:
        event = walk.event(moment)
        act = act_of(event)
        front = f"{walk.line(moment):>{number}}  {columns.at(moment, None if event is None else event.pid)}"
        below = " " * (number + 2) + columns.below(moment)
        yield from folded(front + shown(act), below + "    ")
        for lane in lanes:
            for kind, rights in changes[id(lane)].get(moment, []):
                who = f"{columns.names[lanes.index(lane)]}: " if len(lanes) > 1 else ""
                yield from folded(f"{below}  {who}{SHORT[kind]}: {shown(names(rights))}", below + "      ")
        for told in marks.get(moment, []):
            yield from folded(f"{below}  {shown(told)}", below + "      ")


# ---- exposure --------------------------------------------------------------------------------------------------------


def shares(told: Mapping[str, float]) -> list[str]:
    """The shares of the states, in columns."""
    whole = sum(told.values())
    return [f"{percent(told[state], whole):>11}" for state in SHARES]


def exposure_lines(answer: Answer) -> Iterator[str]:
    """How long each right was held, could be had again, and was gone: by time where times are told, and by lines."""
    if not answer.exposures:
        return
    timed = any(share.seconds is not None for _, share in answer.exposures)
    rows = [(names(row.rights), share) for row, share in answer.exposures]
    yield f"of process {answer.life.pid}'s " + ("time, and of its lines" if timed else "lines") + ":"
    head = "".join(f"{state:>11}" for state in SHARES)
    yield f"  {'':{LABEL}}{head * (2 if timed else 1)}"
    for name, share in rows:
        told = [*(shares(share.seconds) if share.seconds is not None else []), *shares(share.lines)]
        *before, last = textwrap.wrap(shown(name), LABEL, break_long_words=False, break_on_hyphens=False) or [""]
        yield from (f"  {line}" for line in before)
        yield f"  {last:{LABEL}}" + "".join(told)


def verdict(walk: Walk, answer: Answer) -> str:
    """How many rights are gone at the log's end, and since when the last one of them is, in a sentence."""
    own = [spans for _, spans in answer.lanes[0].rights()]
    since = [moment for spans in own if (moment := gone_since(spans)) is not None]
    who = f"process {answer.life.pid}"
    if not own:
        return f"{who}: there is no right to tell of"
    if not since:
        return f"{who}: none of {plural(len(own), 'right')} is gone"
    last = max(since)
    return f"{who}: {len(since)} of {plural(len(own), 'right')} gone, the last one since {at(walk, last)}"


def answer_lines(walk: Walk, answer: Answer) -> list[str]:
    """What is told of one process."""
    parts = [[*folded(shown(verdict(walk, answer))), *folded(shown(answer.title))]]
    parts += [list(lane_lines(walk, lane, len(answer.lanes) == 1)) for lane in answer.lanes]
    parts += [list(course_lines(walk, answer.lanes)), list(exposure_lines(answer))]
    return "\n\n".join("\n".join(part) for part in parts).split("\n")


def lines(made: Timeline) -> list[str]:
    """All of it for the eye."""
    return "\n\n".join("\n".join(answer_lines(made.walk, each)) for each in made.answers).split("\n")
