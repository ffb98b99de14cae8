"""credaudit-verify: holds a recording's replay against what the kernel showed."""
import os
from collections.abc import Sequence

from ..command_line import command
from ..command_line.command import BROKEN, FAILED, FOUND, GOOD, Failure, Progress, tell
from ..command_line.printable import plural, shown
from ..replay import recording
from ..replay.program import STATUSES, Program
from .verification import Verdict, verify

NAME = "credaudit-verify"
SAYS = """Replays a recording with credaudit, and holds the replay against what the kernel showed: each process that
lived at the log's end, its user namespace with maps, and each answer of getuid, capget and their like at its line."""
AFTER = """exit status:
  0  something was compared, and agrees
  1  there is a difference, nothing was compared, or the recording has a doubt; each is told
  2  the words are wrong
  3  it couldn't be compared: no program, a file that can't be read; the reason is told
  4  credaudit refuses the world or the log"""
MOST = 50
REFUSED = (4, 5, 9)     # statuses of the program: a world, a line of a log, a limit


def tell_verdict(name: str, folder: str, verdict: Verdict, doubts: list[str]) -> int:
    """Tells a verdict; the exit status."""
    for text in doubts:
        tell(name, f"doubt: {text}")
    for text in verdict.differences[:MOST]:
        tell(name, text)
    if len(verdict.differences) > MOST:
        tell(name, f"{len(verdict.differences) - MOST} more differences")
    if verdict.unread:
        verdict.notes.append(f"{verdict.unread} answers can't be compared: their form isn't known")
    for text in verdict.notes:
        tell(name, f"note: {text}")
    found = len(verdict.differences)
    outcome = ": " + plural(found, "difference") if found else ": no difference" if not verdict.faults() else ""
    print(f"{shown(folder)}: {verdict.compared()}{outcome}", flush=True)
    return FOUND if verdict.faults() or doubts else GOOD


def verified(name: str, folder: str, tell_doubts: bool = True) -> int:
    """Verifies one recording; the exit status."""
    kept = recording.read(folder)
    report = Program().replay(os.path.join(folder, recording.WORLD), os.path.join(folder, recording.LOG))
    if report.status in (6, 7, 8, 10):
        raise Failure(f"credaudit ended with status {report.status}: {STATUSES[report.status]}")
    doubts = [each.text() for each in kept.made.doubts] if kept.made and tell_doubts else []
    status = tell_verdict(name, folder, verify(kept, report, Progress(name).at), doubts)
    return BROKEN if report.status in REFUSED else status


def main(given: Sequence[str]) -> int:
    """The whole command. The status is the greatest of all recordings'."""
    ask = command.parser(NAME, SAYS, AFTER)
    ask.add_argument("recording", nargs="+", metavar="RECORDING", help="a folder that credaudit-trace wrote")
    status = GOOD
    for folder in ask.parse_args(given).recording:
        try:
            status = max(status, verified(NAME, folder))
        except Failure as failure:
            tell(NAME, f"{folder}: {failure}")
            status = FAILED
    return status


def script() -> None:
    """The whole of the command."""
    command.run(NAME, main)
