"""The stored timelines of recorded daemons (examples/strace/NAME/timeline.txt) are what credaudit-timeline tells. Plain
Python stands for the program, of daemons whose runs it finds (plain_program.py); where the variable CREDAUDIT_BUILT
names a built program, it is asked about all."""
import glob
import os
import unittest
from collections.abc import Callable, Sequence
from unittest import mock

from credaudit_tools.command_line.command import GOOD
from credaudit_tools.replay.program import Program
from credaudit_tools.timeline import timeline_command

from .. import support
from ..plain_program import Plain

BUILT = os.environ.get("CREDAUDIT_BUILT")
FOLDER = os.path.join(support.EXAMPLES, "strace")
PLAIN = ("chronyd", "dnsmasq", "ssh_agent", "start_stop_daemon", "tcpdump")


def stored() -> list[str]:
    """The daemons that have one."""
    return sorted(os.path.basename(os.path.dirname(path))
                  for path in glob.glob(os.path.join(FOLDER, "*", "timeline.txt")))


class Stored(support.Case):
    def compare(self, program: Callable[[], Program], names: Sequence[str]) -> None:
        """Asks about some daemons."""
        for name in names:
            folder = os.path.join(FOLDER, name)
            with self.subTest(name), mock.patch.object(timeline_command, "Program", program):
                status, out, errors = self.told(timeline_command.main, folder)
                self.assertEqual((status, errors), (GOOD, ""))
                with open(os.path.join(folder, "timeline.txt"), encoding="ascii") as file:
                    self.assertEqual(out, file.read())

    def test_there_are_enough(self) -> None:
        self.assertGreaterEqual(len(stored()), 11)
        self.assertLessEqual(set(PLAIN), set(stored()))

    def test_the_picture_of_the_readme(self) -> None:
        """docs/timeline.svg is the drawing of the daemon that drops too late."""
        path = os.path.join(self.work, "drawing.svg")
        with mock.patch.object(timeline_command, "Program", Plain):
            status, _, errors = self.told(timeline_command.main, "--svg", path,
                                          os.path.join(support.EXAMPLES, "drops_too_late", "recording-late"))
        self.assertEqual((status, errors), (GOOD, ""))
        with open(path, encoding="ascii") as made, open(os.path.join(support.EXAMPLES, "..", "docs", "timeline.svg"),
                                                        encoding="ascii") as stored_one:
            self.assertEqual(made.read(), stored_one.read())

    def test_by_plain_python(self) -> None:
        self.compare(Plain, PLAIN)

    @unittest.skipIf(BUILT is None, "CREDAUDIT_BUILT names no program")
    def test_by_the_program(self) -> None:
        self.compare(lambda: Program(os.path.abspath(BUILT or "")), stored())


if __name__ == "__main__":
    unittest.main()
