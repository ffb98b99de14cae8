"""credaudit-lint: what is wrong with a world and a log, and what makes them suspect."""
import argparse
import os
from collections.abc import Sequence
from dataclasses import replace

from ..command_line import command
from ..command_line.command import BROKEN, FAILED, FOUND, GOOD, Failure, Progress, tell
from ..command_line.printable import shown
from ..doubts.findings import LOG, RECORDING, WORLD, Finding
from ..replay import recording
from ..replay.program import Program
from . import lint
from .lint import Given

NAME = "credaudit-lint"
SAYS = """Tells what is wrong with a world and a log that credaudit refuses: the key, its line, the reason why a file
can't be read, and what to write instead. Of a world and a log that it accepts, tells what makes them suspect before
anything is asked. RECORDING is a folder that credaudit-trace wrote."""
AFTER = """exit status:
  0  nothing was found, but for notes
  1  something is suspect
  2  the words are wrong
  3  it can't be looked at: no program, a file that can't be read; the reason is told
  4  credaudit refuses the world or the log"""


def words_of(words: Sequence[str]) -> argparse.Namespace:
    """The words of the command."""
    ask = command.parser(NAME, SAYS, AFTER)
    ask.usage = f"{NAME} [OPTION ..] WORLD LOG\n       {NAME} [OPTION ..] RECORDING"
    ask.add_argument("--scanned", action="store_true",
                     help="it is suspect where no scan of all files made the world; else a note tells it")
    ask.add_argument("names", metavar="WORLD LOG | RECORDING", nargs="+")
    asked = ask.parse_args(words)
    if len(asked.names) > 2:
        ask.error("two files, or the folder of a recording")
    return asked


def given_by(names: list[str]) -> Given:
    """The world and the log of two files, or those of a recording's folder. Fails where it is no folder."""
    if len(names) == 2:
        return Given(names[0], names[1])
    folder = names[0]
    if not os.path.isdir(folder):
        raise Failure(f"{folder} is no folder", "name WORLD and LOG, or the folder of a recording")
    kept = recording.read(folder)
    return Given(os.path.join(folder, recording.WORLD), os.path.join(folder, recording.LOG), kept)


def line_of(found: Finding, given: Given) -> str:
    """A finding for the eye and for editors: FILE:LINE: KIND: TEXT."""
    path = {WORLD: given.world, LOG: given.log, RECORDING: os.path.dirname(given.world)}[found.file]
    place = path if found.line is None else f"{path}:{found.line}"
    key = f"{found.key}: " if found.key is not None else ""
    kind = "refused" if found.refused else "note" if found.note else "suspect"
    return shown(f"{place}: {kind}: {key}{found.why}")


def status_of(found: Sequence[Finding]) -> int:
    """The exit status, by the worst of what was found."""
    if any(each.refused for each in found):
        return BROKEN
    return GOOD if all(each.note for each in found) else FOUND


def main(words: Sequence[str]) -> int:
    """The command; its exit status (above)."""
    asked = words_of(words)
    given, progress = given_by(asked.names), Progress(NAME)
    unread = lint.unread(given)
    for each in unread:
        tell(NAME, each.why)
        if each.hint:
            tell(NAME, each.hint)
    if unread:
        return FAILED
    found = lint.findings(given, lambda: Program().replay(given.world, given.log), progress.at)
    found = [replace(each, note=False) if each.scan and asked.scanned else each for each in found]
    for each in found:
        print(line_of(each, given))
        if each.hint:
            print("    " + shown(each.hint))
    return status_of(found)


def script() -> None:
    """The whole of the command."""
    command.run(NAME, main)
