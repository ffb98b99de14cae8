"""Recordings with scans that were made on Linux 6.18, in places of their own. The program's part is told: it says `yes`
to everything, or, of a path that a member may run, how it is run."""
import os
import shutil
from unittest import mock

from credaudit_tools.command_line.command import GOOD
from credaudit_tools.judge.program_questions import Asking
from credaudit_tools.summary import summary_command

from .. import support
from ..plain_program import Plain
from ..told_program import Answers, Told, no

TOOL = "/srv/tool/x"


class Places(support.Case):
    def summary(self, name: str, answers: Answers) -> tuple[Told, str, str]:
        """What is told of a stored recording with its scan, and the program that was asked."""
        folder = os.path.join(self.work, name)
        shutil.copytree(os.path.join(support.DATA, "recordings", name), folder)
        program = Told(None, answers, confirms=lambda *_: 100)
        scan = os.path.join(support.DATA, "scans", name + ".toml")
        with mock.patch.object(summary_command, "Program", lambda: program), \
                mock.patch.object(Told, "run", Plain().run), \
                mock.patch.object(Asking, "side_by_side", lambda _, what, ask, items, *of: list(map(ask, items))):
            status, out, errors = self.told(summary_command.main, "--files", scan, folder)
        self.assertEqual(status, GOOD, errors)
        return program, out, errors

    def test_where_pid_1_is_hidden(self) -> None:
        """In a sandbox of bwrap(1) that shows the outside's /proc: `credaudit-capture -o FILE $$` has a doubt of user
        namespaces, `--files FILE` takes over those of programs alone, and a daemon that drops rightly comes out as
        gone."""
        scan = support.data("scans", "hidden_first.toml.evidence").decode()
        self.assertIn("the user namespace of process 1 isn't shown: Permission denied", scan)
        _, out, _ = self.summary("hidden_first", {})
        self.assertRegex(support.unfolded(out), r"\nuid:0(, uid:\d+)* gone\n")

    def test_a_path_that_is_another_file_for_a_child(self) -> None:
        """The scan saw a set-user-ID program, a child that made a mount namespace of its own executes another file
        under its path. The row of the child's file took the place of the scan's once, and uid:0 was called gone."""
        answers = {("real", "uid:0"): no(100, f"100 execve {TOOL} = 0")}
        program, out, errors = self.summary("shadowed", answers)
        self.assertEqual({row.path: (row.mode, row.uid) for row in program.worlds["real"].files},
                         {TOOL: (0o4755, 0), TOOL + "#2": (0o750, 0)})
        self.assertIn(f"uid:0 regained through {TOOL}: ", support.unfolded(out))
        self.assertIn(f"note: {TOOL} was another file in the log than in the scan", errors)
