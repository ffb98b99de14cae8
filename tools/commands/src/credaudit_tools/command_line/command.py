"""What every command shares: its words, `--version`, errors on standard error, progress, and exit statuses.

| Status | Means |
|---|---|
| 0 | done, and nothing was found |
| 1 | done, and something was found: a difference, a doubt |
| 2 | the words of the command are wrong |
| 3 | it couldn't be done: no right, no program, a file that isn't there or can't be read |
| 4 | what is looked at is refused: a world or a log by credaudit, a unit, a recording that isn't what was shown |

docs/STATUSES.md has the causes, command by command. credaudit-audit alone has others: those of the program.
"""
import argparse
import os
import sys
import time
from collections.abc import Callable, Sequence
from typing import NoReturn

from .printable import shown

GOOD, FOUND, USAGE, FAILED, BROKEN = range(5)
Says = Callable[[str], None]    # takes how far a long job is
LAST_PID, MOST_SECONDS = 4194304, 1e9
PATIENCE, PACE = 1.0, 5.0       # seconds before the first word of progress, and between two of them


class Failure(Exception):
    """It can't be done, for this reason; `advice` says what to do."""

    def __init__(self, why: str, advice: str = "") -> None:
        super().__init__(why)
        self.advice = advice


class Broken(Failure):
    """What is looked at is refused, so nothing can be told of it."""


class Version(argparse.Action):
    """Tells what `--version` does, and ends the command."""

    def __call__(self, ask: argparse.ArgumentParser, *_: object) -> None:
        from . import version       # it asks git and sums of files, for which no other run has to wait
        sys.stdout.write(version.text(ask.prog))
        ask.exit()


def parser(name: str, says: str, after: str = "") -> argparse.ArgumentParser:
    """The words of a command, with `--help` and `--version`. Its options take no shortened names."""
    ask = argparse.ArgumentParser(prog=name, description=says, epilog=after, allow_abbrev=False,
                                  formatter_class=argparse.RawDescriptionHelpFormatter)
    ask.add_argument("--version", action=Version, nargs=0, help="tell the version, and what the program is")
    return ask


def pid_word(word: str) -> int:
    """A pid of the words (pid_max, proc(5))."""
    if not word.isascii() or not word.isdigit() or not 1 <= int(word) <= LAST_PID:
        raise argparse.ArgumentTypeError(f"{word!r} is no pid")
    return int(word)


def seconds(word: str) -> float:
    """A time of the words."""
    value = float(word)
    if not 0 <= value < MOST_SECONDS:
        raise ValueError
    return value


def tell(name: str, text: str) -> None:
    """One line on standard error, with nothing in it that a terminal obeys."""
    print(f"{name}: {shown(text)}", file=sys.stderr, flush=True)


def silent(_: str) -> None:
    """Tells nobody how far a job is."""


class Progress:
    """Says on standard error how far a long job is: nothing in its first second, then a line every few, where it has
    another text."""

    def __init__(self, name: str, clock: Callable[[], float] = time.monotonic) -> None:
        self.name, self.clock = name, clock
        self.next, self.last = clock() + PATIENCE, ""

    def at(self, text: str) -> None:
        """How far the job is; told where it is time."""
        now = self.clock()
        if now >= self.next and text != self.last:
            tell(self.name, text)
            self.next, self.last = now + PACE, text


def carried_out(name: str, job: Callable[[Sequence[str]], int], words: Sequence[str]) -> int:
    """The status of a job; a failure, and what the system refuses, becomes a message and its status."""
    try:
        return job(words)
    except Failure as failure:
        tell(name, str(failure))
        if failure.advice:
            tell(name, failure.advice)
        return BROKEN if isinstance(failure, Broken) else FAILED
    except BrokenPipeError:
        # Nobody reads on: nothing more can be told, also not when Python closes its files.
        os.dup2(os.open(os.devnull, os.O_WRONLY), sys.stdout.fileno())
    except OSError as error:
        where = f": {shown(os.fsencode(error.filename))}" if error.filename is not None else ""
        tell(name, f"{error.strerror or error}{where}")
    return FAILED


def run(name: str, job: Callable[[Sequence[str]], int]) -> NoReturn:
    """The whole of a command."""
    sys.exit(carried_out(name, job, sys.argv[1:]))
