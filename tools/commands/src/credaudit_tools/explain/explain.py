"""A report or a certificate in words: what its verdict means, each call of its run, what each row of bounds still
allows, and who stands where at the end. Nothing is judged: the words are those of the program's own lines.
"""
from collections.abc import Iterable
from dataclasses import dataclass, field

from ..command_line.command import Failure
from ..command_line.printable import folded, plural, shown
from ..formats import certificates, report, verdicts, worlds
from ..formats.certificates import Row
from ..formats.credential import Credential
from ..formats.kernel_names import CAPABILITIES
from ..formats.report import Report, Standing
from ..formats.verdicts import NO, RULES, UNDECIDED, YES, Verdict
from ..formats.worlds import INITIAL, World
from ..replay.spaces_of_report import SpaceTold, SpacesTold, at_end, of_world
from . import rows_words, run_words
from .drawing import Box, Line
from .id_words import map_lines, securebits_words, seen_id, set_words
from .run_words import Place, known, place_at

REPORT, CERTIFICATE = "report", "certificate"
MEANS = {
    YES: "yes: the right is gone for good. No member of the family has it, and after no later calls of theirs does"
         " one.",
    NO: "no: the right can be had.",
    UNDECIDED: "undecided: whether the right can be had isn't known. No run that was tried has it, and all bounds allow"
               " it."}
# What a `yes` rests on, by whether a scan of all files made the world; None: it isn't known.
RESTS = {
    True: "The world declares the programs that a scan of all files found.",
    False: "No scan of all files made the world: the right is gone by the family's own calls alone, and programs that"
           " aren't declared may give it back.",
    None: "Programs that the world doesn't declare may give it back; whether a scan of all files made it isn't known"
          " here."}
BEFORE = "The bounds just before, which all closed bounds hold:"
BOUNDS = "The bounds on which this rests. No member ever holds more than they say:"
ALONE = "What these bounds allow. Whether they hold of a family, credaudit check tells:"


@dataclass
class Explained:
    """What is told of a text. `certain` is whether the world was given, so that the declared namespaces are known."""
    kind: str
    report: Report | None = None
    verdict: Verdict | None = None
    rows: list[Row] = field(default_factory=list)
    names: list[str] = field(default_factory=list)
    spaces: SpacesTold = field(default_factory=SpacesTold)
    standing: dict[int, Standing] = field(default_factory=dict)
    files: dict[str, worlds.File] = field(default_factory=dict)
    certain: bool = False
    scanned: bool | None = None
    calls: list[str] = field(default_factory=list)

    def place(self) -> Place:
        """Where the run begins."""
        return place_at(self.spaces if self.certain else None, self.files.values(), self.standing.values())

    def row_space(self, row: Row) -> SpaceTold | None:
        """The namespace of a row, where its maps are known."""
        name = self.names[row.space]
        return self.spaces.named.get(name) if self.certain else None


# ---- reading ---------------------------------------------------------------------------------------------------------


def spaces_of(read: Report, world: World | None) -> SpacesTold:
    """The namespaces at the end of a report. Without the world those that it declares have no parent here."""
    if world is None:
        told = of_world(World())
        for one in [*read.start, *(each for event in read.events for each in event.after)]:
            told.named.setdefault(one.space, SpaceTold(None, 0))
        return told
    return at_end(read, world)


def calls_of(read: Report, world: World | None, files: dict[str, worlds.File]) -> list[str]:
    """Each call of the log in words."""
    place = Place(None if world is None else of_world(world), files=files).at(read.start)
    found = []
    for event in read.events:
        line = " ".join([str(event.pid), event.call, *event.arguments, "=", event.result])
        found.append(f"line {event.line}: {run_words.told(line, place)}")
        place.at(event.after)
    return found


def of_report(text: str, world: World | None, events: bool) -> Explained:
    """What is told of a report. Fails where the text is none, or the world isn't the one it is of."""
    read = report.read(text, 0)
    if not read.start and not read.ending:
        raise Failure("this is no report of credaudit, and no certificate")
    verdict = verdicts.verdict_of(read.ending[1:]) if read.ending and verdicts.END.fullmatch(read.ending[0]) else None
    try:
        spaces = spaces_of(read, world)
    except KeyError as error:
        raise Failure(f"the world isn't that of the report: it declares no user namespace {error}") from error
    made = Explained(REPORT, read, verdict, spaces=spaces, standing=read.alive(), certain=world is not None)
    if world is not None:
        if {one.pid for one in read.start} - {row.pid for row in world.processes}:
            raise Failure("the world isn't that of the report: it has other processes")
        if {one.space for one in made.standing.values()} - set(spaces.named):
            raise Failure("the world isn't that of the report: it declares other user namespaces")
        made.files = {known(row.path): row for row in world.files}
    made.calls = calls_of(read, world, made.files) if events else []
    if verdict is not None and verdict.certificate is not None:
        made.rows = certificates.rows_of(verdict.certificate.encode())
    return named(made, world)


def of_certificate(data: bytes, world: World | None) -> Explained:
    """What is told of a certificate."""
    made = Explained(CERTIFICATE, rows=certificates.rows_of(data), certain=world is not None,
                     spaces=of_world(world or World()))
    if world is not None and len(made.rows) < 2 * len(made.spaces.named):
        raise Failure("the world isn't that of the certificate: it declares more user namespaces")
    return named(made, world)


def named(made: Explained, world: World | None) -> Explained:
    """Gives the rows' namespaces their names."""
    declared = [] if world is None else [space.name for space in world.spaces]
    made.names = certificates.space_names(declared, len(made.rows) // 2)
    return made


def explained(data: bytes, world: World | None, events: bool = False) -> Explained:
    """What is told of a text, whichever it is. Fails where it is none that credaudit writes."""
    try:
        if data.lstrip(b" \t\r\n").startswith(b"{"):
            return of_certificate(data, world)
        return of_report(data.decode("ascii", "backslashreplace"), world, events)
    except (ValueError, IndexError, KeyError) as error:
        raise Failure(f"this is no text of credaudit's, or the world isn't its own: {type(error).__name__}: {error}",
                      "credaudit-lint tells what is wrong with a world") from error


# ---- words -----------------------------------------------------------------------------------------------------------


def rule_words(verdict: Verdict) -> list[str]:
    """What lets a right in, and what can be done."""
    lets, advice = RULES.get(verdict.rule or "", ("a rule that isn't known here", "see docs/VERDICT.md"))
    return [f"What lets it in: {lets} (the rule {verdict.rule}, at the row {verdict.row}).",
            f"What can be done: {advice}."]


def run_lines(made: Explained) -> list[str]:
    """The calls of a run, each with its comment."""
    assert made.verdict is not None
    place, found = made.place(), list[str]()
    for line in made.verdict.run:
        found += [f"  {line}", f"      {run_words.told(line, place)}"]
    return found


def verdict_lines(made: Explained) -> list[str]:
    """The verdict in words."""
    verdict = made.verdict
    if verdict is None:
        return []
    found = [MEANS[verdict.word], *([RESTS[made.scanned]] if verdict.word == YES else [])]
    if verdict.word == NO and verdict.run:
        found += [f"After these calls process {verdict.holder} has it:", *run_lines(made)]
    elif verdict.word == NO:
        found.append(f"Process {verdict.holder} has it already.")
    elif verdict.word == UNDECIDED:
        found += rule_words(verdict)
    return found


def replay_lines(made: Explained) -> list[str]:
    """What the replay tells: how it ends, and with `events` each call."""
    read = made.report
    if read is None:
        return []
    last = read.ending[0] if read.ending else "nothing"
    if verdicts.END.fullmatch(last):
        found = [*made.calls, f"The log was replayed to its end: {plural(int(last.removeprefix('end ')), 'call')}."]
        return found + (read.ending[1:] if made.verdict is None else [])
    checked = verdicts.checked_words(last)
    if checked is not None:
        return [checked, *read.ending[1:]]
    return [*made.calls, f"The report ends with: {last}", *read.ending[1:], "(credaudit-lint tells why.)"]


def rows_lines(made: Explained) -> list[str]:
    """What each row still allows; rows that allow the same stand together."""
    if not made.rows:
        return []
    told: dict[tuple[str, ...], list[str]] = {}
    for row in made.rows:
        head = f"  {certificates.row_name(row, made.names)}: members {rows_words.title(row, made.names[row.space])}"
        told.setdefault(tuple(rows_words.lines(row, made.row_space(row))), []).append(head)
    found = [ALONE if made.verdict is None else BEFORE if made.verdict.word == UNDECIDED else BOUNDS]
    return found + [line for lines, heads in told.items() for line in (*heads, *(f"      {each}" for each in lines))]


def process_words(one: Standing, space: SpaceTold | None) -> str:
    """A process in a line."""
    own = one.credential
    maps = (None, None) if space is None else (space.uid_map, space.gid_map)
    told = [kind_words("user", own.uid, maps[0]), kind_words("group", own.gid, maps[1])]
    told.append("groups " + (", ".join(seen_id(maps[1], each) for each in sorted(own.groups)) or "none"))
    told.append(set_words(own.eff) + ("" if own.eff == own.prm else f" (permitted {set_words(own.prm)})"))
    if own.bnd != own.prm:
        told.append(f"bounding set {set_words(own.bnd)}")
    told += [f"{name} {set_words(bits)}" for name, bits in (("inheritable", own.inh), ("ambient", own.amb)) if bits]
    told += [f"securebits {securebits_words(own.sec)}"] if own.sec else []
    told += ["no_new_privs"] if own.nnp else []
    return f"process {one.pid}: " + "; ".join(told)


def kind_words(what: str, ids: tuple[int, int, int, int], extents: tuple[tuple[int, int, int], ...] | None) -> str:
    """The four ids of a kind: one where they are the same."""
    if len(set(ids)) == 1:
        return f"{what} {seen_id(extents, ids[0])}"
    return ", ".join(f"{name} {what} {seen_id(extents, each)}"
                     for name, each in zip(("real", "effective", "saved", "fs"), ids))


# ---- the drawing -----------------------------------------------------------------------------------------------------


def box_of(made: Explained, name: str) -> Box:
    """A namespace with what stands in it."""
    own = made.spaces.named[name]
    box = Box([Line("name", name if name != INITIAL else "init, the initial user namespace")])
    if name != INITIAL and made.certain:
        box.lines.append(Line("about", f"owner {own.owner}; {'; '.join(map_lines(own))}; setgroups {own.setgroups}"))
    elif name != INITIAL:
        box.lines.append(Line("about", "its parent and its maps: see the world"))
    space = own if made.certain else None
    box.lines += [Line("process", process_words(one, space)) for _, one in sorted(made.standing.items())
                  if one.space == name]
    for row in made.rows:
        if made.names[row.space] == name:
            box.lines.append(Line("row", f"members {rows_words.title(row, name)} may hold: {rows_words.short(row)}"))
    return box


def drawing(made: Explained) -> Box:
    """All namespaces that are known, each in its parent. One that the rows alone name has no parent that is known."""
    for name in made.names:
        made.spaces.named.setdefault(name, SpaceTold(INITIAL, 0))
    boxes = {name: box_of(made, name) for name in made.spaces.named}
    for name, space in made.spaces.named.items():
        if name != INITIAL:
            boxes[space.parent or INITIAL].inner.append(boxes[name])
    return boxes[INITIAL]


# ---- JSON ------------------------------------------------------------------------------------------------------------

SETS = {"inheritable": "inh", "permitted": "prm", "effective": "eff", "bounding": "bnd", "ambient": "amb"}
SCHEMA: dict[str, object] = {
    "format": "number", "kind": "text", "verdict": "text or null", "ending": ["text"],
    "run": [{"line": "text", "words": "text"}], "holder": "number or null", "rule": "text or null",
    "row": "text or null", "advice": "text or null",
    "processes": [{"pid": "number", "space": "text", "uid": ["number"], "gid": ["number"], "groups": ["number"],
                   **{name: ["text"] for name in SETS}, "securebits": "number", "no_new_privs": "flag"}],
    "spaces": [{"name": "text", "parent": "text or null", "owner": "number or null", "uid_map": [["number"]],
                "gid_map": [["number"]], "setgroups": "text or null"}],
    "rows": [{"row": "text", "members": "flag", "words": ["text"]}]}


def names_of(bits: int) -> list[str]:
    """The names of a set."""
    return ["CAP_" + name for number, name in enumerate(CAPABILITIES) if bits >> number & 1]


def sets_document(own: Credential) -> Iterable[tuple[str, object]]:
    """The five sets of a process."""
    return ((name, names_of(getattr(own, key))) for name, key in SETS.items())


def process_document(one: Standing) -> dict[str, object]:
    """A process."""
    own = one.credential
    return {"pid": one.pid, "space": one.space, "uid": list(own.uid), "gid": list(own.gid),
            "groups": sorted(own.groups), **dict(sets_document(own)), "securebits": own.sec or 0,
            "no_new_privs": bool(own.nnp)}


def space_document(made: Explained, name: str) -> dict[str, object]:
    """A namespace; what isn't known without the world is null, its maps empty."""
    own, sure = made.spaces.named[name], made.certain or name == INITIAL
    return {"name": name, "parent": own.parent, "owner": own.owner if sure else None,
            "uid_map": [list(each) for each in own.uid_map] if sure else [],
            "gid_map": [list(each) for each in own.gid_map] if sure else [],
            "setgroups": own.setgroups if sure else None}


def document(made: Explained) -> dict[str, object]:
    """What is told, for other programs."""
    verdict, place = made.verdict, made.place()
    told = [{"line": line, "words": run_words.told(line, place)} for line in (verdict.run if verdict else ())]
    return {"format": 1, "kind": made.kind, "verdict": verdict.word if verdict else None,
            "ending": list(made.report.ending) if made.report else [], "run": told,
            "holder": verdict.holder if verdict else None, "rule": verdict.rule if verdict else None,
            "row": verdict.row if verdict else None,
            "advice": RULES.get(verdict.rule or "", (None, None))[1] if verdict else None,
            "processes": [process_document(one) for _, one in sorted(made.standing.items())],
            "spaces": [space_document(made, name) for name in made.spaces.named],
            "rows": [{"row": certificates.row_name(row, made.names), "members": row.has_members(),
                      "words": rows_words.lines(row, made.row_space(row))} for row in made.rows]}


def lines(made: Explained) -> list[str]:
    """All that is told, for the eye: the verdict first, then how the log was replayed."""
    parts = [verdict_lines(made), replay_lines(made), rows_lines(made)]
    told = [line for part in parts if part for line in (*part, "")][:-1]
    return [part for line in told for part in folded(shown(line), " " * (len(line) - len(line.lstrip()) + 4))]
