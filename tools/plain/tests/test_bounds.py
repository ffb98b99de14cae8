"""The stored answers of audits, checks, confirmations and drills are those of plain Python (docs/TESTING.md, "Cases of
reports"), and no case is passed over."""
import unittest

from ..bounds import difference
from ..cases import FOLDER, all_cases, misplaced, stored_cases
from ..drill import drill

LONGEST = 1000      # events of a drill that is worked out here
ASKED = "case one\nworld\ncase x\nrun x\nend\nrun replay world log\ncase two\nrun drill 1\nrun drill 2\n"
ANSWERED = "case one\nend 0\nstatus 0\ncase two\nlive 1\nstatus 0\nlive 2\nstatus 0\n"


class Stored(unittest.TestCase):
    """The cases of report_cases."""

    def test_answers_by_bounds_and_runs(self) -> None:
        """Audits, checks and confirmations."""
        for case in all_cases():
            with self.subTest(case.name, words=case.words):
                self.assertIsNone(difference(case))

    def test_drills(self) -> None:
        """Drills that aren't long."""
        drills = [case for case in all_cases() if case.words[0] == "drill" and case.status == 0]
        self.assertTrue(drills)
        for case in drills:
            if int(case.words[1]) <= LONGEST:
                self.assertEqual(drill(int(case.words[1])).report(), case.lines)


class Read(unittest.TestCase):
    """How the cases are read."""

    def test_each_line_counts(self) -> None:
        """What is read is as many cases and runs as the files have lines of them, but for those within texts."""
        stdin, stdout = ((FOLDER / name).read_text().split("\n") for name in ("stdin", "stdout"))
        cases = all_cases()
        self.assertEqual(list(dict.fromkeys(case.name for case in cases)),
                         list(dict.fromkeys(line[5:] for line in stdout if line.startswith("case "))))
        self.assertEqual(len(cases), sum(line.startswith("run ") for line in stdin))

    def test_a_case_that_is_left_out(self) -> None:
        """Or a run, here or there; and cases that have changed places."""
        self.assertIsNone(misplaced(ASKED, ANSWERED))
        self.assertEqual([(case.name, case.words, case.lines) for case in stored_cases(ASKED, ANSWERED)],
                         [("one", ["replay", "world", "log"], ["end 0"]), ("two", ["drill", "1"], ["live 1"]),
                          ("two", ["drill", "2"], ["live 2"])])
        one, two = "case one\nend 0\nstatus 0\n", "case two\nlive 1\nstatus 0\nlive 2\nstatus 0\n"
        for answered in (one, two, two + one, ANSWERED.replace("live 2\nstatus 0\n", ""), ANSWERED + "status 0\n",
                         ANSWERED + "case three\n", ANSWERED.replace("two", "three"), ""):
            self.assertIsNotNone(misplaced(ASKED, answered), answered)
        for asked in ("", ASKED.replace("run drill 2\n", ""), ASKED + "case three\n", ASKED.replace("case two\n", ""),
                      ASKED.replace("run replay world log\n", "")):
            self.assertIsNotNone(misplaced(asked, ANSWERED), asked)


if __name__ == "__main__":
    unittest.main()
