"""What tests share: folders of stored data, a tree of files and of /proc that is laid out for a test, the stand-in for
credaudit, and a command run within the test.
"""
import contextlib
import io
import os
import re
import shutil
import stat
import tempfile
import unittest
from collections.abc import Callable, Iterator, Sequence
from unittest import mock

from credaudit_tools.command_line import command
from credaudit_tools.evidence import evidence_text, premises
from credaudit_tools.evidence.evidence import Evidence
from credaudit_tools.formats import worlds
from credaudit_tools.formats.worlds import World
from credaudit_tools.replay import scan_fits
from credaudit_tools.replay.program import Program, tail_of
from credaudit_tools.system.mount_namespaces import MountSpace

from . import stored_program

SPACE = MountSpace(4026531832, 4, "0" * 32)        # in which the threads and scans of tests stand
HERE = os.path.dirname(os.path.abspath(__file__))
DATA = os.path.join(HERE, "data")
EXAMPLES = os.path.normpath(os.path.join(HERE, "..", "..", "..", "examples"))
STORED = os.path.join(HERE, "stored_program.py")
os.environ["CREDAUDIT"] = STORED
CALLED, CALLED_TAIL = Program.answer, Program.tail


def stored_answer(program: Program, *words: str) -> tuple[str, int]:
    """As Program.answer; of the stand-in without a process of its own for each call."""
    if program.path != STORED:
        return CALLED(program, *words)
    status, text = stored_program.answer(list(words))
    return text.decode("ascii", "backslashreplace"), status


def stored_tail(program: Program, *words: str) -> tuple[bytes, int]:
    """As Program.tail, likewise."""
    if program.path != STORED:
        return CALLED_TAIL(program, *words)
    status, text = stored_program.answer(list(words))
    return tail_of([text]), status


mock.patch.object(Program, "answer", stored_answer).start()
mock.patch.object(Program, "tail", stored_tail).start()


def data(*names: str) -> bytes:
    """The bytes of a stored file."""
    with open(os.path.join(DATA, *names), "rb") as file:
        return file.read()


class Case(unittest.TestCase):
    """A test with a folder of its own."""

    def setUp(self) -> None:
        self.work = tempfile.mkdtemp(prefix="credaudit-test-")
        self.addCleanup(shutil.rmtree, self.work)
        self.enterContext(mock.patch.object(command, "PATIENCE", 600.0))     # no word of progress on a slow machine

    def put(self, name: str | bytes, text: bytes = b"", mode: int = 0o644) -> str:
        """A file below the folder."""
        path = os.path.join(os.fsencode(self.work), os.fsencode(name).lstrip(b"/"))
        os.makedirs(os.path.dirname(path), exist_ok=True)
        with open(path, "wb") as file:
            file.write(text)
        os.chmod(path, mode)
        return os.fsdecode(path)

    def put_scan(self, name: str, world: World, *doubts: str) -> str:
        """A captured world below the folder, with its evidence beside it."""
        data = worlds.written(world)
        self.put(evidence_text.beside(name), evidence_text.world_text(scanned(*doubts), data))
        return self.put(name, data)

    def link(self, name: str, target: str) -> None:
        """A symbolic link below the folder."""
        path = os.path.join(self.work, name.lstrip("/"))
        os.makedirs(os.path.dirname(path), exist_ok=True)
        os.symlink(target, path)

    def told(self, job: Callable[[Sequence[str]], int], *words: str, name: str = "test") -> tuple[int, str, str]:
        """The status of a command, and what it wrote to both outputs."""
        out, errors = io.StringIO(), io.StringIO()
        with contextlib.redirect_stdout(out), contextlib.redirect_stderr(errors):
            try:
                status = command.carried_out(name, job, words)
            except SystemExit as ended:
                status = ended.code if isinstance(ended.code, int) else 1
        return status, out.getvalue(), errors.getvalue()


def unfolded(text: str) -> str:
    """A text as it was before its lines were folded and its words put in columns."""
    return re.sub(" +", " ", re.sub(r"\n +", " ", text))


def scanned(*doubts: str) -> Evidence:
    """The evidence that a capture gives, with these doubts of what its scan looked at."""
    found = Evidence()
    for premise in (premises.BIRTHS, premises.ANSWERS, premises.CREDENTIALS, premises.MAPS, premises.SECUREBITS,
                    premises.GROUPS, premises.RINGS, premises.SCAN, premises.BINFMT, premises.RECORDING):
        found.establish(premise, "the test says so")
    scan_fits.tell_scan(found, [SPACE], 500.0, 600.0)
    for each in doubts:
        found.doubt(premises.SCAN, each)
    return found


def stand(evidence: Evidence, tids: Sequence[int], changed: float | None = None, space: MountSpace = SPACE) -> None:
    """What a recording tells of its files: it ended at 1000, its threads stand in a mount namespace."""
    scan_fits.tell_end(evidence, dict.fromkeys(tids, space), {}, changed, 1000.0)
    evidence.establish(premises.BINFMT, "the test says so")


def cases(name: str) -> Iterator[tuple[str, list[tuple[str, str]]]]:
    """The cases of a stored text: `case TITLE`, then lines, each with the last mark that stood alone on a line
    before it. A line that begins with `;` is a remark."""
    title, mark, lines = "", "", list[tuple[str, str]]()
    for line in data(name).decode("utf-8").split("\n"):
        if line.startswith("case "):
            if title:
                yield title, lines
            title, mark, lines = line.removeprefix("case "), "", []
        elif line.startswith("; ") or not line:
            continue
        elif line.startswith(":"):
            mark, _, rest = line[1:].partition(" ")
            if rest:
                lines.append((mark, rest))
        else:
            lines.append((mark, line))
    if title:
        yield title, lines


def set_ids_stay(path: str) -> bool:
    """Whether a file keeps its set-user-ID bit here."""
    os.chmod(path, 0o4755)
    return bool(os.stat(path).st_mode & stat.S_ISUID)
