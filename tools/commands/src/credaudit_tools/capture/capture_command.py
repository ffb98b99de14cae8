"""credaudit-capture: the world of a live system."""
import argparse
import os
import sys
import time
from collections.abc import Iterator, Sequence
from contextlib import contextmanager, nullcontext

from ..command_line import command, sudo_caller, typed_files
from ..command_line.command import FOUND, GOOD, Broken, Failure, Progress, Says, tell
from ..command_line.files import write_new
from ..command_line.printable import plural
from ..evidence import evidence_text
from ..formats import worlds
from ..replay.program import Program
from ..system.kernel_questions import Kernel
from ..system.proc import needs_root
from ..system.running_kernel import Live
from . import family
from .capture import Capture, Wishes, captured
from .freezer import frozen

NAME = "credaudit-capture"
FIRST = -20             # the priority that runs first (setpriority(2))
LIMIT = 9               # the program's status where a limit is exceeded
SAYS = """Writes the world of a live process, of all that descends from it and of their threads: credentials, user
namespaces, and the programs with set-id bits or capabilities that they can run. To be run as root."""
AFTER = """exit status:
  0  the world is written
  1  it is written, but something that a `yes` may rest on couldn't be looked at; each is told
  2  the words are wrong
  3  nothing is written: no right, no such process; the reason is told
  4  nothing is written: credaudit refuses the world"""


def place_word(word: str) -> bytes:
    """A path from the root, of the words."""
    if not word.startswith("/"):
        raise argparse.ArgumentTypeError(f"{word!r} is no path from the root")
    return b"/" + os.path.normpath(os.fsencode(word)).lstrip(b"/")


def words_of(words: Sequence[str]) -> argparse.Namespace:
    """The words of the command."""
    ask = command.parser(NAME, SAYS, AFTER)
    ask.add_argument("pid", metavar="PID", type=command.pid_word, help="the process")
    ask.add_argument("-o", metavar="FILE", dest="out",
                     help="where the world goes; standard output where it isn't given")
    ask.add_argument("--freeze", action="store_true", help="freeze the control groups of the family while it is read")
    ask.add_argument("--running", action="store_true", help="take threads too that run at each reading")
    ask.add_argument("--patience", metavar="SECONDS", type=command.seconds, default=10.0,
                     help="how long it is read again until two readings agree (10)")
    ask.add_argument("--no-files", action="store_true", help="declare no files")
    ask.add_argument("--skip", metavar="PATH", type=place_word, action="append", default=[],
                     help="a directory below which no file is looked at; may be given again")
    ask.add_argument("--own-spaces", action="store_true", help="declare the user namespaces of the family alone")
    ask.add_argument("--merge", action="store_true", help="declare equal members and equal programs once")
    return ask.parse_args(words)


def read_family(kernel: Kernel, asked: argparse.Namespace, says: Says) -> family.Family:
    """The family of the process that was asked for, at one instant. Fails where it never holds still."""
    still = frozen(kernel.proc, kernel.reader, asked.pid, lambda: family.processes(kernel, asked.pid))
    with still if asked.freeze else nullcontext(), ahead():
        return family.settled(kernel, asked.pid, asked.running, asked.patience, says)


@contextmanager
def ahead() -> Iterator[None]:
    """Runs before other processes, where that is allowed: the shorter a reading, the less moves meanwhile."""
    before = os.getpriority(os.PRIO_PROCESS, 0)
    try:
        os.setpriority(os.PRIO_PROCESS, 0, FIRST)
    except OSError:
        pass
    try:
        yield
    finally:
        os.setpriority(os.PRIO_PROCESS, 0, before)


def tried(data: bytes) -> None:
    """Holds the world against the program. Fails where that refuses it."""
    try:
        program = Program()
    except Failure as failure:
        tell(NAME, f"the world isn't tried: {failure}")
        return
    report = program.replay_texts(data, b"")
    if report.status != 0:
        raise Broken(f"the program refuses the world, status {report.status}: {' '.join(report.ending)}",
                     "--merge declares equal members and equal programs once" if report.status == LIMIT else "")


def put(data: bytes, evidence: bytes, path: str | None) -> None:
    """Writes the world to a file, and its evidence beside it; where none is named the world alone, to standard
    output. The folder is held open: whose the files become goes by the one into which they come."""
    if path is None:
        sys.stdout.buffer.write(data)
        sys.stdout.flush()
        return
    folder, name = os.path.split(os.path.abspath(path))
    handle = os.open(folder, os.O_RDONLY | os.O_DIRECTORY | os.O_CLOEXEC)
    try:
        for each, text in ((evidence_text.beside(name), evidence), (name, data)):
            write_new(f"/proc/self/fd/{handle}", each, text, owner=sudo_caller.of_file(handle, each))
    finally:
        os.close(handle)


def told(capture: Capture) -> int:
    """Tells what the world leaves open; the exit status."""
    for note in capture.notes:
        tell(NAME, note)
    for doubt in capture.doubts:
        tell(NAME, f"doubt: {doubt}")
    return FOUND if capture.doubts else GOOD


def capture(kernel: Kernel, asked: argparse.Namespace) -> int:
    """The whole, over any system."""
    began, progress = time.monotonic(), Progress(NAME)
    if asked.out is not None:
        typed_files.check_can_be_put(asked.out)
    read = read_family(kernel, asked, progress.at)
    settled = time.monotonic()
    wishes = Wishes(not asked.no_files, asked.merge, asked.own_spaces,
                    tuple(dict.fromkeys(asked.skip)))
    made = captured(kernel, read, wishes, progress.at)
    data = worlds.written(made.world)
    tried(data)
    put(data, evidence_text.world_text(made.evidence, data), asked.out)
    tell(NAME, f"{plural(len(read.processes()), 'process')} and {plural(len(read.threads), 'thread')} in"
               f" {settled - began:.2f} s, {plural(read.readings, 'reading')}; namespaces and files in"
               f" {time.monotonic() - settled:.2f} s, {plural(made.looked_at, 'file')} looked at")
    return told(made)


def main(words: Sequence[str]) -> int:
    """The command; its exit status (above)."""
    asked = words_of(words)
    needs_root("to others the kernel shows neither the namespaces and files of a process nor closed folders (proc(5))")
    live = Live()
    try:
        return capture(live, asked)
    finally:
        live.close()


def script() -> None:
    """The whole of the command."""
    command.run(NAME, main)
