"""A timeline: of each process that is asked about, and of all that it started, from when to when each right was held,
could be had again, and since when it is gone.

Rights and classes are those of credaudit-summary. Each verdict is the program's.
"""
from collections.abc import Callable, Collection, Sequence
from dataclasses import dataclass, field
from hashlib import sha256

from ..command_line.printable import few
from ..evidence import premises
from ..explain.explain import process_words
from ..filters import filter_lines
from ..formats import marked_calls
from ..formats.report import Report
from ..formats.rights import Right
from ..formats.worlds import INITIAL
from ..judge import class_output, holders
from ..judge.classes import CLASSES
from ..judge.holders import Member
from ..replay.recording import clock_of
from ..summary.rights_had import rights_had
from ..summary.summary import Given, accepted, chosen, of_older, of_recording, unaltered
from .borders import NOT_YET, Search
from .every_line import EveryLine
from .exposure import SHARES, Clock, Exposure, exposure
from .held_rights import Holding, space_of
from .lane_judge import LaneJudge, Seen, seen
from .lanes import Lane, Row, Span, folded, gone_since, is_shown, marks_of, rows
from .remembering import Remembering
from .walk import Life, Walk, walked

FORMAT = 1
KINDS = (NOT_YET, *CLASSES)


@dataclass
class Asked:
    """What a user asks for: a process, None for all that live at the log's end; rights beside those that were had, for
    the answer about a process; processes that stand alone though others are alike; whether each front of the log is
    audited."""
    pid: int | None = None
    rights: Callable[[int], Sequence[Right]] = lambda _: ()
    alone: Collection[int] = ()
    every_line: bool = False


@dataclass
class Answer:
    """What is told of a process and all that it started: what it is at the log's end, the lanes in order of birth, who
    holds each right that is held at the end, the members whose groups weren't seen, and how long each right of the
    process's own lane was what."""
    life: Life
    title: str
    lanes: list[Lane] = field(default_factory=list)
    held_by: dict[Right, list[Member]] = field(default_factory=dict)
    unseen: list[Member] = field(default_factory=list)
    exposures: list[tuple[Row, Exposure]] = field(default_factory=list)


@dataclass
class Timeline:
    """All answers over one log of so many lines, its times, and what is to be said beside."""
    walk: Walk
    lines: int
    clock: Clock
    scanned: bool
    answers: list[Answer] = field(default_factory=list)
    notes: list[str] = field(default_factory=list)


def life_of(walk: Walk, pid: int) -> Life:
    """The process of a pid that lives at the log's end."""
    return next(life for life in walk.lives if life.pid == pid and life.ended is None)


def lane_of(ask: Remembering, walk: Walk, life: Life, rights: Sequence[Right], evidence: Seen,
            every: EveryLine | None) -> Lane:
    """The lane of a process."""
    holding, last = Holding(rights, walk), walk.end(life)
    judge = LaneJudge(ask, walk, life, evidence.evidence(walk, life, walk.family_world(life, last)), evidence)
    there = holding.there(last)
    judge.begin([right for place, right in enumerate(rights) if there >> place & 1])
    course = Search(walk, life, holding, judge.at).course() if every is None else \
        every.course(judge, rights)
    course.shorten(judge.shortened)
    return Lane(life, [row for row in rows(walk, life, course, holding) if is_shown(row.spans)])


def answer(ask: Remembering, given: Given, walk: Walk, pid: int, asked: Asked, every: EveryLine | None) -> Answer:
    """What is told of one process."""
    root = life_of(walk, pid)
    rights = list(dict.fromkeys([*rights_had(given.world, walk.report, pid), *asked.rights(pid)]))
    evidence = seen(given, walk.report, walk, root)
    lives = sorted(root.descendants(), key=lambda life: life.born)
    executed = holders.programs(given.log, given.world.log == "strace", walk.report)
    marks = marks_of(walk, lives, marked_calls.of_log(given.log, given.world.log))
    lanes = list[Lane]()
    for number, life in enumerate(lives, 1):
        ask.says(f"process {life.pid}: {number} of {len(lives)}")
        lane = lane_of(ask, walk, life, rights, evidence, every)
        lane.marks, lane.program = marks.get(life, []), executed.get(life.pid)
        lanes.append(lane)
    end, ends = walk.family_world(root, walk.last), [spans[-1].outcome for _, spans in lanes[0].rights()]
    one, members = end.family[0], [each.pid for each in end.family]
    title = process_words(one, end.spaces.named[one.space] if one.space != INITIAL else None)
    return Answer(root, title, folded(lanes, {pid, *asked.alone}),
                  holders.held_by(end, ends, lambda right: space_of(right, end.spaces), executed),
                  holders.members(evidence.unseen(members), executed))


def told(ask: Remembering, given: Given, asked: Asked) -> Timeline:
    """All of it. Fails where credaudit refuses the world or the log, and where a recording isn't what the kernel
    showed."""
    unaltered(given)
    report: Report = accepted(ask, given)
    of_older(given)
    of_recording(given, report, ask.says)
    walk = walked(given.world, report, given.log)
    count = filter_lines.count(given.log)
    clock = Clock() if given.kept is None else Clock(*clock_of(given.kept))
    made = Timeline(walk, count, clock, premises.SCAN in given.evidence.established)
    every = EveryLine(ask, given, walk) if asked.every_line else None
    for pid in chosen(given.world, report, asked.pid):
        made.answers.append(answer(ask, given, walk, pid, asked, every))
    for each in made.answers:
        each.exposures = [(row, exposure(walk, count, clock, row.spans)) for row in each.lanes[0].rows]
    roots = [each.life for each in made.answers]
    made.notes = [*given.notes, *ask.notes, *unbound(walk, roots), *left_out(walk, roots)]
    return made


def unbound(walk: Walk, roots: Sequence[Life]) -> list[str]:
    """A note of the processes of which no line tells when they got the world's filter."""
    members = {life for root in roots for life in walk.family(root, walk.last)} if walk.world.exclude else set()
    left = sorted(life.pid for life in members if life.bound is None) if walk.last else []
    return [f"no line tells when process {few([str(pid) for pid in left])} installed the world's [filter]: for its"
            " families it counts at the log's end alone"] if left else []


def left_out(walk: Walk, roots: Sequence[Life]) -> list[str]:
    """A note of the processes that live at the log's end and of which nothing is told."""
    said = {life for root in roots for life in root.descendants()}
    others = sorted(life.pid for life in walk.lives if life.ended is None and life not in said)
    return [f"nothing is said of process {few([str(pid) for pid in others])}, which lives too"] if others else []


# ---- JSON ------------------------------------------------------------------------------------------------------------

SPAN: dict[str, object] = {
    "class": "text", "from": "number", "to": "number or null", "call": "text or null", "run": ["text"],
    "words": "text or null", "holder": "number or null", "programs": ["text"], "rule": "text or null",
    "row": "text or null", "reasons": ["text"], "certificate": "text or null"}
SHARE: dict[str, object] = {name: "number" for name in SHARES}
SCHEMA: dict[str, object] = {
    "format": "number", "scanned": "flag", "lines": "number", "times": "flag",
    "answers": [{
        "process": "number", "about": "text",
        "lanes": [{
            "processes": ["number"], "program": "text or null", "born": "number", "ended": "number or null",
            "rights": [{"rights": ["text"], "gone_since": "number or null", "spans": [SPAN]}],
            "marks": [{"line": "number", "process": "number", "call": "text", "descriptor": "number or null",
                       "result": "text"}]}],
        "exposure": [{"rights": ["text"], "lines": SHARE,
                      "milliseconds": {name: "number or null" for name in SHARES}}]}],
    **class_output.END_SCHEMA}


def certificate_sum(span: Span) -> str | None:
    """The sum of the certificate of a right that is gone, as a file has it."""
    told = span.outcome.certificate
    return None if told is None else sha256(told + b"\n").hexdigest()


def span_document(walk: Walk, span: Span) -> dict[str, object]:
    """A span for other programs."""
    own = span.outcome
    return {"class": span.kind, "from": walk.line(span.begin),
            "to": walk.line(span.end) if span.end <= walk.last else None, "call": span.call or None,
            "run": own.calls(), "words": span.run or None, "holder": own.holder, "programs": list(own.programs),
            "rule": own.rule, "row": own.row, "reasons": list(own.reasons),
            "certificate": certificate_sum(span)}


def row_document(walk: Walk, row: Row) -> dict[str, object]:
    """Rights and their spans for other programs."""
    since = gone_since(row.spans)
    return {"rights": [right.text() for right in row.rights], "gone_since": None if since is None else walk.line(since),
            "spans": [span_document(walk, span) for span in row.spans]}


def lane_document(walk: Walk, lane: Lane) -> dict[str, object]:
    """A lane for other programs."""
    program = None if lane.program is None else lane.program.decode("utf-8", "backslashreplace")
    life = lane.life
    return {"processes": lane.pids(), "program": program, "born": walk.line(life.born),
            "ended": None if life.ended is None else walk.line(life.ended),
            "rights": [row_document(walk, row) for row in lane.rows],
            "marks": [{"line": mark.line, "process": mark.pid, "call": mark.call, "descriptor": mark.descriptor,
                       "result": mark.result} for mark in lane.marks]}


def exposure_document(row: Row, share: Exposure) -> dict[str, object]:
    """How long rights were what, for other programs."""
    time = share.seconds
    return {"rights": [right.text() for right in row.rights], "lines": dict(share.lines),
            "milliseconds": {name: None if time is None else round(1000 * time[name]) for name in SHARES}}


def document(made: Timeline) -> dict[str, object]:
    """All of it for other programs, but what is expected."""
    return {"format": FORMAT, "scanned": made.scanned, "lines": made.lines, "times": bool(made.clock.times),
            "answers": [{"process": each.life.pid, "about": each.title,
                         "lanes": [lane_document(made.walk, lane) for lane in each.lanes],
                         "exposure": [exposure_document(*pair) for pair in each.exposures]} for each in made.answers]}
