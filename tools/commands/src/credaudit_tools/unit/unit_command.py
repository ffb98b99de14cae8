"""credaudit-unit: what the processes of a systemd unit can get, without a recording."""
import argparse
import os
from collections.abc import Sequence

from ..command_line import command, users
from ..command_line.command import Broken, Failure, Progress, Says, tell
from ..command_line.files import read_regular
from ..command_line.users import Users
from ..evidence import evidence_text, premises
from ..explain.explain import process_words
from ..formats import worlds
from ..formats.rights import Right, of_root
from ..formats.worlds import INITIAL
from ..judge import class_output, holders, touched_rights
from ..judge.class_output import Answers
from ..judge.classify import Family, Judge, same_as_replayed
from ..judge.expected_classes import Unexpected
from ..judge.program_questions import Asking, asking
from ..replay.end_world import end_of
from ..replay.program import Program
from . import unit_files, unit_settings, unit_world
from .unit_files import SUFFIX, Unit
from .unit_world import Made

NAME = "credaudit-unit"
SAYS = """Tells for each right of root whether the processes of a service can get it: of the unit of this name, with its
drop-ins, or of the file of one. The settings of systemd.exec(5) make a world; every verdict on it is credaudit's. What
isn't counted is told on standard error."""
AFTER = """exit status:
  0  it is told, and all is as expected
  1  a right has another class than expected, or no line
  2  the words are wrong
  3  it can't be told: no program, no such unit, a file that can't be read; the reason is told
  4  the unit is masked, or wouldn't start as it is written"""
IMPOSSIBLE = 3          # the program's status for a line that the rules refuse
SCHEMA: dict[str, object] = {"format": "number", "unit": "text", "files": ["text"], "world": "text", "log": "text",
                             "scanned": "flag", **class_output.RIGHTS_SCHEMA, **class_output.END_SCHEMA}


def words_of(given: Sequence[str]) -> argparse.Namespace:
    """The words of the command."""
    ask = command.parser(NAME, SAYS, AFTER)
    ask.add_argument("unit", metavar="UNIT", help="the name of a unit, or the file of one")
    ask.add_argument("--files", metavar="WORLD", help="a world of credaudit-capture, whose files the machine has")
    ask.add_argument("--root", metavar="FOLDER", default="/", help="look for units and users below this folder")
    ask.add_argument("--world", action="store_true", help="write the world that is made, and ask nothing")
    class_output.options(ask)
    return class_output.parsed(ask, given)


def unit_by(word: str, root: str) -> Unit:
    """The unit of a name or of a file: of a word without a slash the unit comes first. Fails where there is none."""
    try:
        if "/" in word:
            return unit_files.of_file(word)
        return unit_files.named(word if word.endswith(SUFFIX) else word + SUFFIX, root)
    except Failure:
        if "/" not in word and os.path.isfile(word):
            return unit_files.of_file(word)
        raise


def made_by(asked: argparse.Namespace, unit: Unit, known: Users) -> Made:
    """The world of a unit. Fails where it wouldn't start."""
    try:
        settings = unit_settings.settings(unit, known)
    except unit_settings.NotKnown:
        raise
    except Failure as failure:
        raise Broken(str(failure), failure.advice) from failure
    files, data, scan = None, b"", None
    if asked.files is not None:
        data = read_regular(asked.files, follow=True)
        files, scan = worlds.read(data), evidence_text.read_beside(asked.files, data)
        settings.notes += [f"doubt of {asked.files}: {each.text()}" for each in scan.doubts] if scan is not None else \
            [f"beside {asked.files} no evidence stands: it isn't known that all files were looked for"]
    made = unit_world.world_of(unit, settings, files, data.decode("utf-8", "replace"), scan, asked.root)
    made.notes = [*settings.notes, *made.notes]
    return made


def judged(ask: Asking, made: Made, rights: Sequence[Right]) -> Answers:
    """What the program says of the rights."""
    files = ask.files("unit", made.world, made.log)
    read = ask.program.run("replay", files.world, files.log)
    if read.status == IMPOSSIBLE:
        raise Broken(f"its program can't be executed by the rules: {' '.join(read.ending)}")
    if read.status != 0:
        raise Failure(f"credaudit refuses the world of the unit, status {read.status}: {' '.join(read.ending)}")
    end = end_of(made.world, read, unit_world.PID)
    evidence = made.evidence.copy()
    touched_rights.tell(evidence, touched_rights.facts_of(made.world, read, made.log, end))
    family = Family(files, unit_world.PID, end, evidence)
    same_as_replayed(ask, family)
    judge = Judge(ask, family)
    outcomes = judge.outcomes(list(dict.fromkeys(rights)))
    one = end.family[0]
    title = process_words(one, end.spaces.named[one.space] if one.space != INITIAL else None)
    rows = {each.right: list(evidence.rows(each.right, family.space(each.right))) for each in outcomes}
    held_by = holders.held_by(end, outcomes, family.space, holders.programs(made.log, made.world.log == "strace", read))
    return Answers(title, outcomes, judge.what_ifs(outcomes), [*made.notes, *ask.notes], rows, unit_world.PID,
                   held_by=held_by, runs=class_output.runs_of(end, outcomes))


def answered(asked: argparse.Namespace, says: Says) -> int:
    """The whole command."""
    known = users.of_machine() if asked.root == "/" else users.of_root(asked.root)
    wanted = class_output.wanted(asked, users.on_machine if asked.root == "/" else known.id_of)
    unit = unit_by(asked.unit, asked.root)
    made = made_by(asked, unit, known)
    if asked.world:
        print(worlds.written(made.world).decode("ascii"), end="")
        for note in made.notes:
            tell(NAME, f"note: {note}")
        return command.GOOD
    with asking(Program(), says) as ask:
        own = of_root(known, (INITIAL, made.world.processes[0].space))
        answers = judged(ask, made, [*own, *wanted.of_process(unit_world.PID)])
    answers.who = f"unit {unit.name}"
    answers.notes += wanted.notes
    answers.made = {"world.toml": worlds.written(made.world), "log": made.log}
    front: dict[str, object] = {"unit": unit.name, "files": unit.files, "world": worlds.written(made.world).decode(),
                                "log": made.log.decode(), "scanned": premises.SCAN in made.evidence.established}

    def document(new: Sequence[Unexpected]) -> dict[str, object]:
        return {**front, **class_output.rights_document(answers), **class_output.end_document(new, answers.notes)}
    return class_output.told(NAME, asked, [answers], [], wanted, document)


def main(given: Sequence[str]) -> int:
    """The command; its exit status (above)."""
    return answered(words_of(given), Progress(NAME).at)


def script() -> None:
    """The whole of the command."""
    command.run(NAME, main)
