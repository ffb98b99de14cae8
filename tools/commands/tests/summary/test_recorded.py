"""The recorded programs of examples/strace: what credaudit-summary says of each beside what is expected by hand
(examples/strace/queries). Plain Python stands for the program (plain_program.py). Where the variable CREDAUDIT_BUILT
names a built program, it is asked too.
"""
import json
import os
import unittest
from collections.abc import Callable, Iterator
from dataclasses import dataclass
from unittest import mock

from credaudit_tools.command_line.command import GOOD
from credaudit_tools.formats import rights
from credaudit_tools.judge.classes import CLASSES, HELD
from credaudit_tools.replay import recording
from credaudit_tools.replay.program import Program
from credaudit_tools.summary import summary, summary_command

from .. import support
from ..plain_program import Plain

FOLDER = os.path.join(support.EXAMPLES, "strace")
BUILT = os.environ.get("CREDAUDIT_BUILT")


@dataclass(frozen=True)
class Expected:
    """A line of the file: of which recording and process, which right, and its class."""
    recording: str
    pid: str
    right: str
    kind: str


def lines() -> Iterator[Expected]:
    """The lines of the file. ValueError where one has another number of words."""
    with open(os.path.join(FOLDER, "queries"), encoding="ascii") as file:
        for line in file:
            words = line.partition(" # ")[0].split() if not line.startswith("#") else []
            if words:
                yield Expected(*words)


def recordings() -> list[str]:
    """The names of the recordings."""
    return sorted(name for name in os.listdir(FOLDER) if recording.is_folder(os.path.join(FOLDER, name)))


class File(unittest.TestCase):
    """The file itself."""

    def test_each_recording_has_a_line(self) -> None:
        self.assertGreaterEqual(len(recordings()), 36)
        self.assertEqual(sorted({each.recording for each in lines()}), recordings())

    def test_lines(self) -> None:
        """A line names a process that the kernel showed at the end, a right and a class, and stands once."""
        found = [(each.recording, each.pid, each.right) for each in lines()]
        self.assertEqual(len(found), len(set(found)))
        for each in lines():
            with self.subTest(each):
                shown = {str(status.pid) for status in recording.read(os.path.join(FOLDER, each.recording)).statuses}
                self.assertIn(each.pid, shown)
                right = rights.parse(each.right)
                assert right is not None
                self.assertEqual(right.text(), each.right)
                self.assertIn(each.kind, CLASSES)

    def test_it_has_classes_of_both_kinds(self) -> None:
        """Rights that are gone, that are held, and that can be had again."""
        kinds = {each.kind for each in lines()}
        self.assertLessEqual({"held", "gone-by-own-calls", "own-calls", "program"}, kinds)


class Told(support.Case):
    """What credaudit-summary says."""

    def compare(self, program: Callable[[], Program]) -> None:
        """Asks for all lines of each process at once."""
        every = list(lines())
        for name, pid in dict.fromkeys((each.recording, each.pid) for each in every):
            wanted = {each.right: each.kind for each in every if (each.recording, each.pid) == (name, pid)}
            asked = [word for right in wanted for word in ("--right", right)]
            with self.subTest(name, pid=pid), mock.patch.object(summary_command, "Program", program):
                status, out, errors = self.told(summary_command.main, "--json", *asked, os.path.join(FOLDER, name), pid)
                self.assertEqual(status, GOOD, errors)
                told = {each["right"]: each for each in json.loads(out)["answers"][0]["rights"]}
                self.assertEqual({right: told[right]["class"] for right in wanted}, wanted)
                for each in told.values():      # of what is held it is known by what
                    front = f"process {each['holder']} (" if each["class"] == HELD else ""
                    self.assertTrue("".join(each["reasons"][:1]).startswith(front), each)

    def test_by_plain_python(self) -> None:
        """The named rights alone: all that a process had would take minutes."""
        with mock.patch.object(summary, "rights_had", lambda *_: []):
            self.compare(Plain)

    @unittest.skipIf(BUILT is None, "CREDAUDIT_BUILT names no program")
    def test_by_the_program(self) -> None:
        self.compare(lambda: Program(os.path.abspath(BUILT or "")))


if __name__ == "__main__":
    unittest.main()
