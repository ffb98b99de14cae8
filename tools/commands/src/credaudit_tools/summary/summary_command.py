"""credaudit-summary: what became of each right that a process had."""
import argparse
import os
from collections.abc import Sequence

from ..command_line import command, users
from ..command_line.command import Broken, Failure, Progress
from ..command_line.files import read_regular
from ..command_line.printable import quoted
from ..evidence import evidence_text, premises
from ..evidence.evidence import Evidence
from ..formats import rights, worlds
from ..judge import class_output
from ..judge.program_questions import Asking, Files, asking
from ..replay import recording
from ..replay.program import Program
from . import summary
from .summary import Given, Summary

NAME = "credaudit-summary"
SAYS = """Tells for each right that a process, or one that it started, had in a log what became of it: held, regained
by its own calls or through a program, gone, or open. Every verdict is credaudit's. RECORDING is a folder that
credaudit-trace wrote; where PID isn't given, each process that lives at its end stands in an answer: it is asked about,
or one of its ancestors is."""
AFTER = """exit status:
  0  it is told, and all is as expected
  1  a right has another class than expected or no line, or groups weren't seen
  2  the words are wrong
  3  it can't be told: no program, a file that can't be read; the reason is told
  4  credaudit refuses the log or the world, or the recording isn't what the kernel showed"""
TWO, THREE = 2, 3


def words_of(given: Sequence[str]) -> argparse.Namespace:
    """The words of the command."""
    ask = command.parser(NAME, SAYS, AFTER)
    ask.usage = f"{NAME} [OPTION ..] WORLD LOG PID\n       {NAME} [OPTION ..] RECORDING [PID]"
    ask.add_argument("names", metavar="WORLD LOG PID | RECORDING [PID]", nargs="+")
    ask.add_argument("--files", metavar="SCAN", help="a world of credaudit-capture, whose files are declared too")
    ask.add_argument("--of-root", action="store_true",
                     help="ask for root's rights too: user and group 0, root's groups, each capability over init")
    class_output.options(ask)
    asked = class_output.parsed(ask, given)
    if len(asked.names) > THREE:
        ask.error("a world, a log and a pid, or a recording and a pid")
    asked.pid = pid_of_words(ask, asked.names)
    return asked


def pid_of_words(ask: argparse.ArgumentParser, names: Sequence[str]) -> int | None:
    """The pid of the words, None where none is named. Ends the command where it is none."""
    try:
        return command.pid_word(names[-1]) if len(names) > 1 else None
    except argparse.ArgumentTypeError as error:
        ask.error(str(error))


def given_by(ask: Asking, names: Sequence[str]) -> Given:
    """The world and the log of the words. Fails where they can't be read."""
    kept = None
    if len(names) == THREE:
        world, log = names[:TWO]
    else:
        folder = names[0]
        if not os.path.isdir(folder):
            raise Failure(f"{quoted(folder)} is no folder", "name WORLD, LOG and PID, or the folder of a recording")
        world, log = os.path.join(folder, recording.WORLD), os.path.join(folder, recording.LOG)
        kept = recording.read(folder)
    text, told = read_regular(world, follow=True), read_regular(log, follow=True)
    try:
        read = worlds.read(text)
    except Failure as failure:
        raise Broken(str(failure), failure.advice) from failure
    return Given(ask.named("given", world, log), read, text, told, evidence_by(kept, world, text, told), kept)


def evidence_by(kept: recording.Recording | None, world: str, text: bytes, log: bytes) -> Evidence:
    """The evidence that goes with a world and a log: the recorder's; of a captured world, which has an empty log, the
    capture's; else the word of who wrote them."""
    if kept is not None:
        return kept.made.evidence.copy() if kept.made is not None else Evidence()
    captured = evidence_text.read_beside(world, text) if not log else None
    return by_hand_in(os.path.dirname(os.path.abspath(world))) if captured is None else captured


def by_hand_in(folder: str) -> Evidence:
    """The word of who wrote a world. Where it lies in a recording, it may be the recording's: its doubts count."""
    found = summary.by_hand()
    made = recording.read(folder).made if recording.is_folder(folder) else None
    for each in made.doubts if made is not None else []:
        found.doubt(each.premise, each.why)
    return found


def with_scan(ask: Asking, given: Given, path: str) -> Given:
    """The same with the files of a scan."""
    data = read_regular(path, follow=True)
    text, log = summary.with_scan(given, data)
    scan = evidence_text.read_beside(path, data)
    if scan is None:
        given.notes.append(f"beside {path} no evidence stands: it isn't known that all files were looked for")
    elif given.kept is not None:
        given.evidence.add(scan, (premises.SCAN,))
    files = Files(ask.put("given.toml", text), ask.put("given.log", log))
    return Given(files, worlds.read(text), text, log, given.evidence, given.kept, True, scan, given.notes)


def summed_up(asked: argparse.Namespace, progress: Progress) -> int:
    """The whole command."""
    wanted = class_output.wanted(asked, users.on_machine)
    if asked.of_root:
        wanted.rights[:0] = rights.of_root(users.of_machine())
    with asking(Program(), progress.at) as ask:
        given = given_by(ask, asked.names)
        if asked.files is not None:
            given = with_scan(ask, given, asked.files)
        made: Summary = summary.summed_up(ask, given, asked.pid, wanted.of_process)
    if given.made:
        for each in made.answers:
            each.made = {recording.WORLD: given.text, recording.LOG: given.log}
    return class_output.told(NAME, asked, made.answers, [*made.notes, *wanted.notes], wanted,
                             lambda new: summary.document(made, new))


def main(given: Sequence[str]) -> int:
    """The command; its exit status (above)."""
    return summed_up(words_of(given), Progress(NAME))


def script() -> None:
    """The whole of the command."""
    command.run(NAME, main)
