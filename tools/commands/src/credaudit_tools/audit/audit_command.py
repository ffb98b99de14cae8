"""credaudit-audit: a question to credaudit, its answer and status as they are, and words on what it refuses."""
import contextlib
import os
import signal
import stat
import sys
from collections.abc import Iterator, Sequence

from ..command_line import command, users
from ..command_line.command import Failure, tell
from ..command_line.printable import quoted, shown
from ..doubts.findings import LOG, WORLD
from ..formats import rights, verdicts, worlds
from ..formats.report import Report
from ..lint import lint, other_faults
from ..lint.lint import Given
from ..lint.lint_command import line_of
from ..replay.program import Program
from ..replay.spaces_of_report import at_end
from . import word_faults

NAME = "credaudit-audit"
SAYS = """Passes its words on to credaudit: WORLD LOG PID RIGHT are those of an audit. The answer and the status are
credaudit's own. Where it refuses, standard error tells in words what is wrong, and what to write instead."""
AFTER = """exit status: credaudit's own (0 yes, accepted, holds or confirmed; 1 no; 2 undecided; 3 to 12 refused, see
credaudit(1)); 127 where credaudit isn't there or can't be started."""
NO_PROGRAM, AUDIT = 127, 4
IMPOSSIBLE, BAD_WORLD, BAD_LOG, USAGE, UNREAD, UNWRITTEN, LIMIT, NO_MEMORY, REFUSED, BAD_QUERY = range(3, 13)
OF_TEXTS = (IMPOSSIBLE, BAD_WORLD, BAD_LOG, LIMIT)      # of which the world's and the log's text tell more
PAST = {UNWRITTEN: "standard output couldn't be written: what stands there is a front of the report",
        NO_MEMORY: "memory ran out: what was written is a front of the report"}


def words_of(given: Sequence[str]) -> list[str]:
    """The words for the program: an audit's may stand without its name. Ends the command where its own are asked
    for."""
    if list(given) in (["-h"], ["--help"], ["--version"]):
        ask = command.parser(NAME, SAYS, AFTER)
        ask.usage = f"{NAME} WORLD LOG PID RIGHT\n       {NAME} WORD .."
        ask.add_argument("words", metavar="WORD", nargs="*", help="words of credaudit(1)")
        ask.parse_args(given)
    named = len(given) != AUDIT or (given[0] in word_faults.FORMS and not os.path.exists(given[0]))
    return list(given) if named else ["audit", *given]


def is_plain(path: str) -> bool:
    """Whether a file can be looked at once more: a regular one, that isn't too long."""
    try:
        found = os.stat(path)
    except OSError:
        return False
    return stat.S_ISREG(found.st_mode) and found.st_size <= other_faults.LOG_MOST


def unread(paths: Sequence[str]) -> Iterator[str]:
    """Why files can't be read. What is neither a file nor a directory was read by the program, and isn't again."""
    told = False
    for path in paths:
        if os.path.exists(path) and not os.path.isfile(path) and not os.path.isdir(path):
            continue
        found = other_faults.unreadable(path, WORLD)
        if found is not None:
            told = True
            yield shown(f"{NAME}: {found.why}")
            yield from [shown(f"    {found.hint}")] if found.hint else []
    if not told:
        yield f"{NAME}: a file couldn't be read"


def looked_at(world: str, log: str) -> Iterator[str]:
    """What a lint finds of a world and a log that the program refuses."""
    if not is_plain(world) or not is_plain(log):
        yield f"{NAME}: saved to files, credaudit-lint tells what is wrong with them (of up to" \
              f" {other_faults.LOG_MOST} bytes)"
        return
    given = Given(world, log)
    for each in lint.findings(given, lambda: Program().replay(world, log)):
        if each.refused or each.file == LOG:
            yield line_of(each, given)
            yield from [shown(f"    {each.hint}")] if each.hint else []


def replayed(world: str, log: str) -> Report | None:
    """The replay of a world and a log, where they are files that can be read once more."""
    return Program().replay(world, log) if is_plain(world) and is_plain(log) else None


def query_words(words: Sequence[str]) -> word_faults.Words:
    """What is wrong with a question that the program refuses. Which of its words it is, the replay tells."""
    _, world, log, pid, right = words[:5]
    report = replayed(world, log)
    alive = None if report is None else sorted(report.alive())
    if not pid.isascii() or not pid.isdigit() or (alive is not None and int(pid) not in alive):
        return word_faults.pid_words(pid, right, alive)
    if rights.parse(right) is None:
        return word_faults.right_words(right, pid, users.on_machine)
    if report is None:
        return word_faults.space_words(right, None)
    with open(world, "rb") as file:
        return word_faults.space_words(right, list(at_end(report, worlds.read(file.read())).named))


def refusal(words: Sequence[str], status: int, last: str) -> Iterator[str]:
    """What is to be told of a refusal; `last` is the answer's last line, where it is known."""
    if status in PAST:
        yield f"{NAME}: {PAST[status]}"
    elif status == USAGE:
        yield from told(word_faults.form_words(list(words)))
    elif status == UNREAD:
        yield from unread([*words[1:3], *words[5:]])
    elif status in OF_TEXTS and len(words) > 2:
        yield from looked_at(words[1], words[2])
    elif status == BAD_QUERY and len(words) > 4:
        yield from told(query_words(words))
    elif status == REFUSED:
        yield f"{NAME}: {verdicts.checked_words(last) or f'{quoted(words[-1])} is refused'}"


def told(words: word_faults.Words) -> Iterator[str]:
    """What is wrong, and what to do."""
    yield shown(f"{NAME}: {words[0]}")
    yield from [shown(f"    {words[1]}")] if words[1] else []


def asked(words: list[str]) -> int:
    """The answer of the program, passed on; its status. A signal that ended it ends this command too."""
    status, last = Program().passed_on(words)
    if status < 0:
        with contextlib.suppress(OSError):      # SIGKILL has no other action
            signal.signal(-status, signal.SIG_DFL)
        os.kill(os.getpid(), -status)
    for line in refusal(words, status, last):
        print(line, file=sys.stderr, flush=True)
    return status


def main(given: Sequence[str]) -> int:
    """The command; the program's exit status."""
    words = words_of(given)
    try:
        return asked(words)
    except Failure as failure:
        tell(NAME, str(failure))
        if failure.advice:
            tell(NAME, failure.advice)
        return NO_PROGRAM


def script() -> None:
    """The whole of the command."""
    command.run(NAME, main)
