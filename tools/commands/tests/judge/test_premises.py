"""No right is called gone where a premise that touches it isn't established: each piece of evidence is taken away in
turn, from each recording of examples/ that has a right which is gone. The program says `yes` to everything here, so
what withholds `gone` is the evidence alone.
"""
import functools
import glob
import os
import shutil
import tempfile
import unittest
from collections.abc import Callable, Iterator
from pathlib import Path
from unittest import mock

from credaudit_tools.command_line import printable
from credaudit_tools.command_line.command import GOOD
from credaudit_tools.evidence import evidence_text, premises
from credaudit_tools.evidence.evidence import Evidence
from credaudit_tools.evidence.premises import BY_NAME, TABLE
from credaudit_tools.formats import rights
from credaudit_tools.formats.report import Report
from credaudit_tools.formats.rights import Right
from credaudit_tools.formats.worlds import File, World
from credaudit_tools.judge.classes import GONE, GONE_BY_OWN_CALLS
from credaudit_tools.judge.program_questions import Asking
from credaudit_tools.replay import recording, scan_fits
from credaudit_tools.replay.program import Program
from credaudit_tools.summary import summary, summary_command
from credaudit_tools.trace import trace_command
from credaudit_tools.unit import unit_command
from pages import premises_page

from .. import support
from ..plain_program import Plain
from ..told_program import YES

ASKED = [Right("uid", 7), Right("gid", 7), Right("cap", 21, "init")]


@functools.cache
def recordings() -> list[str]:
    """Copies of the recordings of examples/, which tell of their files what the recorder tells since: theirs are older.
    The scan of these tests goes with them."""
    top = tempfile.mkdtemp(prefix="credaudit-test-")
    unittest.addModuleCleanup(shutil.rmtree, top)
    for path in sorted(glob.glob(os.path.join(support.EXAMPLES, "**", recording.MADE), recursive=True)):
        kept = recording.read(os.path.dirname(path))
        if kept.made is not None and kept.made.format == recording.FORMAT:
            support.stand(kept.made.evidence, [status.pid for status in kept.statuses])
            recording.write(os.path.join(top, os.path.relpath(os.path.dirname(path), support.EXAMPLES)), kept)
    return sorted(os.path.dirname(path) for path in glob.glob(os.path.join(top, "**", recording.MADE), recursive=True))


class Yes(Program):
    """Says yes to each question. Replays as plain Python has them, each once."""

    def __init__(self) -> None:
        super().__init__("yes")
        self.replays: dict[tuple[bytes, bytes], Report] = {}

    def run(self, *words: str) -> Report:
        key = Path(words[1]).read_bytes(), Path(words[2]).read_bytes()
        if key not in self.replays:
            self.replays[key] = Plain().run(*words)
        return self.replays[key]

    def tail(self, *words: str) -> tuple[bytes, int]:
        return (b"holds\n", 0) if words[0] == "check" else (b"end 0\n" + YES.encode(), 0)


def without(premise: str) -> Callable[[Evidence, str, str], None]:
    """What stands for Evidence.establish where nothing establishes a premise."""
    real = Evidence.establish
    return lambda self, name, by: None if name == premise else real(self, name, by)


class Case(support.Case):
    """Recordings with a scan."""

    program = Yes()
    whole = dict[str, set[Right]]()         # by recording what is gone where nothing was taken away

    def setUp(self) -> None:
        super().setUp()
        self.scan = self.put_scan("scan.toml", World("script", files=[File("/usr/bin/su", 0, 0, 0o4755)]))
        self.enterContext(mock.patch.object(summary, "rights_had", lambda *_: ASKED))
        self.enterContext(mock.patch.object(summary_command, "Program", lambda: self.program))
        self.enterContext(mock.patch.object(summary, "suspicion", lambda *_: []))      # a lint, which judges nothing
        self.enterContext(mock.patch.object(Asking, "side_by_side",
                                            lambda _, what, ask, items, *of: list(map(ask, items))))

    def classes(self, folder: str, *words: str) -> dict[Right, set[str]]:
        """The classes of the rights that are asked about, of all families; none where nothing is answered."""
        status, out, _ = self.told(summary_command.main, "--classes", "-", "--files", self.scan, *words, folder)
        self.assertEqual(status == GOOD, out != "")
        found = dict[Right, set[str]]()
        for word, kind in (line.split() for line in out.split("\n")[:-1]):
            right = rights.parse(word)
            if right is not None:
                found.setdefault(right, set()).add(kind)
        return found

    def gone(self, folder: str) -> set[Right]:
        """The rights that are called gone, of whichever family."""
        return {right for right, kinds in self.classes(folder).items() if GONE in kinds}

    def recordings(self) -> Iterator[tuple[str, set[Right]]]:
        """The recordings of examples/ with a right that is gone, and those rights."""
        for folder in recordings():
            with self.subTest(os.path.basename(folder)):
                if folder not in self.whole:
                    self.whole[folder] = self.gone(folder)
                if self.whole[folder]:
                    yield folder, self.whole[folder]

    def one(self) -> tuple[str, set[Right]]:
        """A recording in which each right is gone that is asked about."""
        [folder] = [each for each in recordings() if os.path.basename(each) == "drops_rightly"]
        return folder, self.gone(folder)

    def copied(self, folder: str) -> str:
        """A recording of one's own."""
        copy = os.path.join(self.work, "copy")
        shutil.rmtree(copy, ignore_errors=True)
        shutil.copytree(folder, copy)
        return copy


def changed(folder: str, name: str, data: bytes, sums: bool) -> None:
    """Gives a file of a recording other bytes; with `sums` all sums too, as one would who does it on purpose."""
    Path(folder, name).write_bytes(data)
    if sums:
        lines = Path(folder, recording.MADE).read_text().split(f"\n[{evidence_text.SUMS}]\n")[0].split("\n")
        now = {each: evidence_text.sum_of(Path(folder, each).read_bytes()) for each in recording.ALL
               if each != recording.MADE and os.path.exists(os.path.join(folder, each))}
        Path(folder, recording.MADE).write_bytes(evidence_text.sealed(lines[:-1], recording.MADE, now))


class Taken(Case):
    """What is taken away, piece by piece."""

    def test_what_is_gone(self) -> None:
        """Enough recordings have a right of each kind that is gone: what follows is no test of nothing."""
        found = [gone for _, gone in self.recordings()]
        self.assertGreaterEqual(len(found), 20)
        self.assertEqual(set[Right]().union(*found), set(ASKED))

    def test_the_evidence_of_each_row(self) -> None:
        for folder, gone in self.recordings():
            for row in TABLE:
                with self.subTest(row.name), mock.patch.object(Evidence, "establish", without(row.name)):
                    self.assertEqual(self.gone(folder), {right for right in gone if not row.touches(right)})

    def test_a_doubt_of_each_row(self) -> None:
        folder, gone = self.one()
        kept = recording.read(folder)
        assert kept.made is not None
        for row in TABLE:
            kept.made.evidence = Evidence(dict(kept.made.evidence.established), seen=dict(kept.made.evidence.seen))
            kept.made.evidence.doubt(row.name, "the test says so")
            recording.write(os.path.join(self.work, "copy"), kept)
            with self.subTest(row.name):
                found = self.gone(os.path.join(self.work, "copy"))
                self.assertEqual(found, {right for right in gone if not row.touches(right)})

    def test_each_line_of_what_the_recorder_says(self) -> None:
        """Whether or not who takes it out works out the sum anew."""
        for folder, gone in self.recordings():
            copy = self.copied(folder)
            lines = Path(folder, recording.MADE).read_bytes().split(b"\n")[:-1]
            for number, line in enumerate(lines):
                fewer = b"".join(each + b"\n" for each in lines[:number] + lines[number + 1:])
                with self.subTest(line):
                    changed(copy, recording.MADE, fewer, sums=False)
                    self.assertEqual(self.classes(copy), {})
                    name = line.split(b" = ")[0].decode().strip('"')
                    if name.startswith(scan_fits.SPACE) or name in (scan_fits.BOOT, scan_fits.CHANGED):
                        changed(copy, recording.MADE, fewer, sums=True)
                        self.assertLessEqual(self.gone(copy), gone if name == scan_fits.CHANGED else set())
                    if name in BY_NAME:
                        changed(copy, recording.MADE, fewer, sums=True)
                        self.assertEqual(self.gone(copy), {each for each in gone if not BY_NAME[name].touches(each)})

    def test_pids_that_are_numbered_anew(self) -> None:
        """What was seen of a thread is of it under its new number."""
        folder, gone = self.one()
        made = trace_command.numbered(recording.read(folder), 500)
        recording.write(os.path.join(self.work, "numbered"), made)
        self.assertIn(500, [status.pid for status in made.statuses])
        self.assertEqual(self.gone(os.path.join(self.work, "numbered")), gone)
        assert made.made is not None
        made.made.evidence.seen = {f"{scan_fits.LEFT}7": "3", f"{scan_fits.SPACE}8": "x", scan_fits.BOOT: "y"}
        self.assertEqual(scan_fits.renumbered(made.made.evidence.seen, {7: 500, 8: 501}),
                         {f"{scan_fits.LEFT}500": "3", f"{scan_fits.SPACE}501": "x", scan_fits.BOOT: "y"})

    def test_each_line_of_what_the_kernel_showed(self) -> None:
        for folder, _ in self.recordings():
            copy = self.copied(folder)
            made = Path(folder, recording.MADE).read_bytes()
            for name in (recording.STATUS, recording.SPACES):
                lines = Path(folder, name).read_bytes().split(b"\n")[:-1]
                for number, line in enumerate(lines):
                    fewer = b"".join(each + b"\n" for each in lines[:number] + lines[number + 1:])
                    for sums in (False, True):
                        changed(copy, name, fewer, sums)
                        with self.subTest(line, sums=sums):
                            self.assertEqual(self.classes(copy), {})
                    changed(copy, recording.MADE, made, sums=False)
                changed(copy, name, Path(folder, name).read_bytes(), sums=False)

    def test_each_file(self) -> None:
        for folder, _ in self.recordings():
            copy = self.copied(folder)
            for name in sorted(set(recording.ALL) & set(os.listdir(folder))):
                os.remove(os.path.join(copy, name))
                with self.subTest(name):
                    self.assertEqual(self.gone(copy), set())
                shutil.copy(os.path.join(folder, name), copy)

    def test_each_line_of_a_scan(self) -> None:
        place, (folder, gone) = evidence_text.beside(self.scan), self.one()
        data = Path(place).read_bytes()
        lines = data.split(b"\n")[:-1]
        for number, line in enumerate(lines):
            Path(place).write_bytes(b"".join(each + b"\n" for each in lines[:number] + lines[number + 1:]))
            with self.subTest(line):
                self.assertEqual(self.gone(folder), set())
        os.remove(place)
        self.assertLessEqual(set[str]().union(*self.classes(folder).values()), {GONE_BY_OWN_CALLS})
        Path(place).write_bytes(data)
        self.assertEqual(self.gone(folder), gone)
        world = Path(self.scan).read_bytes()
        Path(self.scan).write_bytes(world.replace(b"4755", b"0755"))
        self.assertEqual(self.gone(folder), set())


class Unit(Case):
    """A unit, whose world is made of its settings."""

    def of_unit(self, *words: str) -> set[str]:
        """The rights that are called gone."""
        self.put("/etc/passwd", b"web:x:33:34::/:/x\n")
        self.put("/etc/group", b"web:x:34:\n")
        unit = self.put("web.service", b"[Service]\nExecStart=/usr/sbin/web\nUser=web\n")
        with mock.patch.object(unit_command, "Program", lambda: self.program):
            status, out, _ = self.told(unit_command.main, "--root", self.work, "--classes", "-", *words, unit)
        self.assertEqual(status, GOOD)
        return {line.split()[0] for line in out.split("\n")[:-1] if line.split()[1] == GONE}

    def test_the_evidence_of_each_row(self) -> None:
        whole = self.of_unit("--files", self.scan)
        self.assertLessEqual({"uid:0", "gid:0", "cap:CAP_SYS_ADMIN@init"}, whole)
        self.assertEqual(self.of_unit(), set())
        for row in TABLE:
            kept = {word for word in whole if not row.kinds.count(word.split(":")[0])}
            with self.subTest(row.name), mock.patch.object(Evidence, "establish", without(row.name)):
                self.assertEqual(self.of_unit("--files", self.scan), kept)

    def test_a_doubt_of_the_scan(self) -> None:
        self.scan = self.put_scan("doubted.toml", World("script"), "/srv can't be read")
        self.assertEqual(self.of_unit("--files", self.scan), set())


class Told(Case):
    """What is told of it, each row in one line."""

    def setUp(self) -> None:
        super().setUp()
        self.enterContext(mock.patch.object(printable, "WIDE", 10000))

    def test_why(self) -> None:
        """Each row that touches the right is told, with what established it."""
        folder, gone = self.one()
        self.assertEqual(gone, set(ASKED))
        for right in sorted(gone, key=Right.text):
            status, out, _ = self.told(summary_command.main, "--why", right.text(), "--files", self.scan, folder)
            first, *rows = out.split("\n")[:-1]
            self.assertEqual((status, first), (GOOD, f"{right.text()}: gone"))
            self.assertEqual([row.split(":")[0].strip() for row in rows],
                             [row.name for row in TABLE if row.touches(right)])
            self.assertEqual([row for row in rows if ". Established: " not in row], [])

    def test_what_lacks_is_told_by_its_row(self) -> None:
        folder, _ = self.one()
        with mock.patch.object(Evidence, "establish", without(premises.RINGS)):
            out = self.told(summary_command.main, "--files", self.scan, folder)[1]
            why = self.told(summary_command.main, "--why", "uid:7", "--files", self.scan, folder)[1]
        self.assertIn(" not called gone: rings: nothing establishes it\n", support.unfolded(out))
        self.assertIn("  rings: nothing acts for a member through io_uring. Doubted: nothing establishes it\n", why)


class Page(unittest.TestCase):
    def test_the_page_has_the_table(self) -> None:
        with open(premises_page.PAGE, encoding="utf-8") as file:
            page = file.read()
        self.assertEqual(premises_page.made(page), page)

    def test_each_row_is_whole(self) -> None:
        for row in TABLE:
            self.assertTrue(row.holds and row.by and row.lost and row.kinds, row.name)
            self.assertLessEqual(set(row.kinds), {"uid", "gid", "cap"})
        self.assertEqual(len(BY_NAME), len(TABLE))
        self.assertLessEqual(set(premises.OF_FILES), set(BY_NAME))
