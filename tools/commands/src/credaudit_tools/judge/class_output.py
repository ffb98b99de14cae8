"""What credaudit-summary and credaudit-unit share: their options, the classes of rights on standard output, in words,
as lines or as JSON, and the folder of certificates."""
import argparse
import os
from collections.abc import Callable, Sequence
from dataclasses import dataclass, field

from ..command_line import schemas, typed_files
from ..command_line.command import FOUND, GOOD, Failure, tell
from ..command_line.files import write_new
from ..command_line.printable import folded, quoted, shown
from ..explain import run_words
from ..explain.run_words import place_at
from ..formats import rights
from ..formats.rights import Reading, Right
from ..replay.end_world import End
from . import answer_words, case_reports, classes, expected_classes
from .classes import Outcome
from .classify import WhatIf
from .expected_classes import Expected, Unexpected
from .holders import Member

FORMAT = 2      # of the JSON of both commands
STANDARD = "-"      # as a file's name: standard output


@dataclass
class Answers:
    """What is known of a family's rights, what another start would change, what is to be said beside it, and what each
    answer rests on. `pid` is the process that is asked about, `members` all of the family."""
    title: str
    outcomes: list[Outcome] = field(default_factory=list)
    what_ifs: list[WhatIf] = field(default_factory=list)
    notes: list[str] = field(default_factory=list)
    rows: dict[Right, list[str]] = field(default_factory=dict)      # the premises that touch it, a line each
    pid: int = 0
    members: frozenset[int] = frozenset()
    held_by: dict[Right, list[Member]] = field(default_factory=dict)    # of each right that is held
    unseen: list[Member] = field(default_factory=list)                  # the members whose groups weren't seen
    kept: dict[Right, str] = field(default_factory=dict)
    runs: dict[Right, str] = field(default_factory=dict)    # of each right that comes back its run in words
    who: str = ""                                           # who is judged, where that isn't the process
    made: dict[str, bytes] = field(default_factory=dict)    # the world and the log, where they aren't files of the user


@dataclass(frozen=True)
class Wanted:
    """What a user asks for: rights beside those that are asked about anyway, those of which it is told why, and the
    classes that are expected, None where none are; `notes` say what names stood for."""
    rights: list[Right]
    why: list[Right]
    expected: Expected | None
    notes: list[str]

    def of_process(self, pid: int) -> list[Right]:
        """The rights that are asked for in the answer about a process, each once."""
        expected = () if self.expected is None else self.expected.lines(pid).rights
        return list(dict.fromkeys([*self.rights, *self.why, *expected]))


def right_word(word: str) -> str:
    """A right of the words; a name in it is looked up later."""
    if not rights.is_right(word):
        raise argparse.ArgumentTypeError(f"{word!r} is no right")
    return word


def options(ask: argparse.ArgumentParser) -> None:
    """The options of both commands."""
    ask.add_argument("--right", metavar="RIGHT", type=right_word, action="append", default=[],
                     help="ask for this right too")
    ask.add_argument("--expect", metavar="FILE",
                     help="the classes that are expected; what isn't as expected is status 1")
    ask.add_argument("--tap", action="store_true",
                     help="with --expect: write a test for each right instead of words, as prove(1) reads them")
    ask.add_argument("--junit", metavar="FILE",
                     help="with --expect: put a test for each right into this file, as XML of JUnit's form")
    ask.add_argument("--certificates", metavar="FOLDER", help="keep the certificates of the rights that are gone here")
    ask.add_argument("--classes", metavar="FILE",
                     help="put a line RIGHT CLASS for each right into this file, as --expect reads them, where the"
                          " status is 0; - is standard output, and then nothing else is written there")
    ask.add_argument("--json", action="store_true", help="write JSON instead of words")
    ask.add_argument("--why", metavar="RIGHT", type=right_word, action="append", default=[],
                     help="write for this right its class and each premise that touches it, with what establishes it or"
                          " the doubt of it, and nothing else; may be given again")


def parsed(ask: argparse.ArgumentParser, given: Sequence[str]) -> argparse.Namespace:
    """The words of a command with these options. Ends it where they don't go together."""
    asked = ask.parse_args(given)
    if asked.classes == STANDARD and asked.json:
        ask.error("--classes - and --json both write to standard output: --classes FILE goes with --json")
    if asked.expect is None and (asked.tap or asked.junit is not None):
        ask.error("--tap and --junit tell what is as expected: --expect FILE says what is")
    if asked.tap and (asked.json or asked.classes == STANDARD):
        ask.error("--tap, --json and --classes - all write to standard output")
    return asked


def wanted(asked: argparse.Namespace, lookup: rights.Lookup) -> Wanted:
    """What the words ask for, with names looked up. Fails where a name is nobody's, where the expected classes can't be
    read, and where the classes can't be put."""
    for path in (asked.classes, asked.junit):
        if path not in (None, STANDARD):
            typed_files.check_can_be_put(path)
    reading = Reading(lookup)
    more, why = ([right for word in words if (right := reading.right(word)) is not None]
                 for words in (asked.right, asked.why))
    expected = None
    if asked.expect is not None:
        expected = expected_classes.read(typed_files.read_typed(asked.expect, expected_classes.MOST), reading)
    return Wanted(more, why, expected, list(reading.notes()))


def keep(answers: Answers, folder: str) -> None:
    """Puts the certificates into a folder, which is made where it isn't there, and beside them the world and the log
    that were made for the questions. One of a right that isn't gone any more is taken out."""
    if os.path.lexists(folder) and not os.path.isdir(folder):
        raise Failure(f"{quoted(folder)} is no folder", "name one, or a path at which nothing stands")
    os.makedirs(folder, mode=0o700, exist_ok=True)
    for name, data in answers.made.items():
        write_new(folder, name, data)
    for each in answers.outcomes:
        name = each.right.text() + ".json"
        if each.certificate is not None:
            write_new(folder, name, each.certificate + b"\n")
            answers.kept[each.right] = os.path.join(folder, name)
        elif os.path.lexists(os.path.join(folder, name)):
            os.remove(os.path.join(folder, name))


def words(answers: Answers) -> list[str]:
    """All of it for the eye."""
    what_ifs = [f"with {each.with_} {each.gone} of {each.of} {classes.SHORT[each.kind]}"
                for each in answers.what_ifs if each.of]
    folder = next((os.path.dirname(path) for path in answers.kept.values()), None)
    who = answers.who or f"process {answers.pid}"
    return answer_words.lines(who, answers.title, answers.outcomes, what_ifs, folder, answers.runs)


def runs_of(end: End, outcomes: Sequence[Outcome]) -> dict[Right, str]:
    """The runs of the rights that come back, in words."""
    return {each.right: run_words.sentence(each.calls(), place_at(end.spaces, end.world.files, end.family), each.holder)
            for each in outcomes if each.run}


def why_words(answers: Answers, asked: Sequence[Right]) -> list[str]:
    """What the classes of these rights rest on."""
    kinds = {each.right: each.kind for each in answers.outcomes}
    return [line for right in dict.fromkeys(asked) for line in
            (f"{right.text()}: {kinds[right]}", *(part for row in answers.rows[right]
                                                  for part in folded(shown("  " + row), "      ")))]


RIGHTS_SCHEMA: dict[str, object] = {
    "rights": [classes.SCHEMA], "counts": {kind: "number" for kind in classes.CLASSES},
    "what_ifs": [{"with": "text", "gone": "number", "of": "number", "class": "text"}]}
END_SCHEMA: dict[str, object] = {
    "unexpected": [{"process": "number", "right": "text", "class": "text", "expected": ["text"]}], "notes": ["text"]}


def rights_document(answers: Answers) -> dict[str, object]:
    """The rights of an answer for other programs."""
    return {"rights": [classes.document(each, answers.kept.get(each.right)) for each in answers.outcomes],
            "counts": dict(classes.counted(answers.outcomes)),
            "what_ifs": [{"with": each.with_, "gone": each.gone, "of": each.of, "class": each.kind}
                         for each in answers.what_ifs]}


def end_document(new: Sequence[Unexpected], notes: Sequence[str]) -> dict[str, object]:
    """What isn't expected, and the notes."""
    return {"unexpected": [{"process": each.process, "right": each.right, "class": each.kind,
                            "expected": list(each.expected)} for each in new], "notes": list(notes)}


def class_lines(every: Sequence[Answers]) -> list[str]:
    """The lines of a text that expects what is: of several answers a part each."""
    return [line for each in every for line in
            ([f"{expected_classes.PROCESS} {each.pid}"] if len(every) > 1 else [])
            + expected_classes.written(each.outcomes)]


def lines(every: Sequence[Answers], asked: argparse.Namespace, given: Wanted,
          tests: Sequence[case_reports.Case]) -> list[str]:
    """What is written where no JSON is asked for: of several answers a part each, with an empty line between."""
    if asked.classes == STANDARD:
        return class_lines(every)
    if asked.tap:
        return case_reports.tap(tests)
    parts = [words(each) if not given.why else
             [*(folded(shown(each.title)) if len(every) > 1 else []), *why_words(each, given.why)] for each in every]
    return "\n\n".join("\n".join(part) for part in parts).split("\n")


def unexpected(every: Sequence[Answers], expected: Expected | None, all_living: bool) -> list[Unexpected]:
    """What isn't as expected of each answer; where they are of all that live, of processes without an answer too."""
    if expected is None:
        return []
    found = [odd for each in every for odd in expected.new(each.pid, each.outcomes, each.held_by, each.unseen)]
    return found + (expected.without_answer([each.pid for each in every]) if all_living else [])


def told(name: str, asked: argparse.Namespace, every: Sequence[Answers], notes: Sequence[str], given: Wanted,
         document: Callable[[Sequence[Unexpected]], dict[str, object]]) -> int:
    """Writes what was asked for; the exit status."""
    several = len(every) > 1
    if asked.certificates is not None:
        for each in every:
            keep(each, os.path.join(asked.certificates, str(each.pid)) if several else asked.certificates)
    new = unexpected(every, given.expected, vars(asked).get("pid") is None)
    tests = case_reports.cases(((each.pid, each.outcomes) for each in every), new)
    if asked.junit is not None:
        typed_files.put_typed(asked.junit, case_reports.junit(name, tests))
    if asked.json:
        print(schemas.written({"format": FORMAT, **document(new)}))
    else:
        for line in lines(every, asked, given, tests):
            print(shown(line))
    for note in [*notes, *dict.fromkeys(note for each in every for note in each.notes)]:
        tell(name, f"note: {note}")
    for odd in new:
        tell(name, (f"process {odd.process}: " if several else "") + odd.why)
    if asked.classes not in (None, STANDARD):
        if new:
            tell(name, f"{quoted(asked.classes)} isn't written: the classes aren't those that are expected")
        else:
            typed_files.put_typed(asked.classes, "".join(line + "\n" for line in class_lines(every)).encode())
    return FOUND if new else GOOD
