"""credaudit-timeline: from when to when each right of a process was held or could be had again, and since when it is
gone."""
import argparse
from collections.abc import Sequence

from ..command_line import command, schemas, typed_files, users
from ..command_line.command import FOUND, GOOD, Progress, tell
from ..command_line.printable import shown
from ..formats import rights
from ..formats.rights import Reading
from ..judge import class_output, expected_classes
from ..judge.class_output import Wanted, right_word
from ..judge.expected_classes import Expected, Unexpected
from ..judge.program_questions import asking
from ..replay.program import Program
from ..summary.summary_command import THREE, given_by, pid_of_words, with_scan
from . import timeline, timeline_text, when_expected
from .page import page_of
from .picture import svg_of
from .remembering import Remembering
from .timeline import Asked, Timeline

NAME = "credaudit-timeline"
SAYS = """Tells for each right that a process, or one that it started, had in a log from which line to which one it was
held, from which to which it could be had again, and since which line it is gone for good. Every verdict is credaudit's.
RECORDING is a folder that credaudit-trace wrote; where PID isn't given, each process that lives at its end stands in an
answer: it is asked about, or one of its ancestors is."""
AFTER = """exit status:
  0  it is told, and all is as expected
  1  a right has another class than expected or no line, is gone later, or groups weren't seen
  2  the words are wrong
  3  it can't be told: no program, a file that can't be read; the reason is told
  4  credaudit refuses the log or the world, or the recording isn't what the kernel showed"""


def words_of(given: Sequence[str]) -> argparse.Namespace:
    """The words of the command."""
    ask = command.parser(NAME, SAYS, AFTER)
    ask.usage = f"{NAME} [OPTION ..] WORLD LOG PID\n       {NAME} [OPTION ..] RECORDING [PID]"
    ask.add_argument("names", metavar="WORLD LOG PID | RECORDING [PID]", nargs="+")
    ask.add_argument("--files", metavar="SCAN", help="a world of credaudit-capture, whose files are declared too")
    ask.add_argument("--right", metavar="RIGHT", type=right_word, action="append", default=[],
                     help="tell of this right too")
    ask.add_argument("--of-root", action="store_true",
                     help="tell of root's rights too: user and group 0, root's groups, each capability over init")
    ask.add_argument("--pid", type=command.pid_word, action="append", default=[], metavar="PID",
                     help="tell of this process by itself, where others are like it; may be given again")
    ask.add_argument("--every-line", action="store_true",
                     help="audit each front of the log, instead of searching for borders: slow")
    ask.add_argument("--expect", metavar="FILE",
                     help="the classes that are expected, and before which call; what isn't so is status 1")
    ask.add_argument("--html", metavar="FILE", help="put a page with a picture, which stands alone, into this file too")
    ask.add_argument("--svg", metavar="FILE", help="put a drawing into this file too")
    ask.add_argument("--json", action="store_true", help="write JSON instead of words")
    asked = ask.parse_args(given)
    if len(asked.names) > THREE:
        ask.error("a world, a log and a pid, or a recording and a pid")
    asked.of = pid_of_words(ask, asked.names)
    return asked


def wanted(asked: argparse.Namespace) -> Wanted:
    """What the words ask for, with names looked up. Fails where a name is nobody's, where the expected classes can't be
    read, and where a picture can't be put."""
    for path in (asked.html, asked.svg):
        if path is not None:
            typed_files.check_can_be_put(path)
    reading, expected = Reading(users.on_machine), None
    named = [right for word in asked.right if (right := reading.right(word)) is not None]
    more = rights.of_root(users.of_machine()) if asked.of_root else []
    if asked.expect is not None:
        data = typed_files.read_typed(asked.expect, expected_classes.MOST)
        expected = expected_classes.read(data, reading, with_calls=True)
    return Wanted([*more, *named], [], expected, list(reading.notes()))


def unexpected(made: Timeline, expected: Expected | None, all_living: bool) -> list[Unexpected]:
    """What isn't as expected of each answer; where they are of all that live, of processes without an answer too."""
    if expected is None:
        return []
    found = [odd for each in made.answers for odd in when_expected.new(made.walk, each, expected)]
    return found + (expected.without_answer([each.life.pid for each in made.answers]) if all_living else [])


def told(asked: argparse.Namespace, progress: Progress) -> int:
    """The whole command."""
    wishes = wanted(asked)
    with asking(Program(), progress.at) as plain:
        ask = Remembering(plain.program, plain.folder, plain.says)
        given = given_by(ask, asked.names)
        if asked.files is not None:
            given = with_scan(ask, given, asked.files)
        made = timeline.told(ask, given, Asked(asked.of, wishes.of_process, asked.pid, asked.every_line))
    made.notes += wishes.notes
    return written(asked, made, unexpected(made, wishes.expected, asked.of is None))


def written(asked: argparse.Namespace, made: Timeline, new: Sequence[Unexpected]) -> int:
    """Writes what was asked for; the exit status."""
    if asked.json:
        print(schemas.written({**timeline.document(made), **class_output.end_document(new, made.notes)}))
    else:
        for line in timeline_text.lines(made):
            print(shown(line))
    for path, picture in ((asked.html, page_of), (asked.svg, svg_of)):
        if path is not None:
            typed_files.put_typed(path, picture(made).encode("ascii"))
    for note in made.notes:
        tell(NAME, f"note: {note}")
    for odd in new:
        tell(NAME, (f"process {odd.process}: " if len(made.answers) > 1 else "") + odd.why)
    return FOUND if new else GOOD


def main(given: Sequence[str]) -> int:
    """The command; its exit status (above)."""
    return told(words_of(given), Progress(NAME))


def script() -> None:
    """The whole of the command."""
    command.run(NAME, main)
