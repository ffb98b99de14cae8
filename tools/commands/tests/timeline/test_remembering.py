"""Questions that are asked once: worlds that differ in pids alone are equal, and an answer about one is told of another
one with its own pids and the log's names of namespaces."""
import tempfile
import unittest

from credaudit_tools.command_line.command import Failure
from credaudit_tools.formats import report, worlds
from credaudit_tools.formats.report import Report
from credaudit_tools.timeline.remembering import Remembering, row_in
from credaudit_tools.timeline.walk import Walk, walked

from .. import support
from ..told_program import CERTIFICATE, Answers, Told, no, standing_lines
from .timeline_case import replayed

ROOT = 'log = "script"\n[[process]]\npid = 100\n'
TWINS = "100 fork = 101\n100 fork = 102\n101 setuid 33 = 0\n102 setuid 33 = 0\n"


class Program(Told):
    """Replays a world without a log as it stands, or, where `other` is given, with other user ids."""
    other = b"33"

    def run(self, *words: str) -> Report:
        with open(words[1], "rb") as file:
            world = worlds.read(file.read().replace(b"33", self.other))
        return report.read(standing_lines(world) + "end 0\n", 0)


class Asked(support.Case):
    def asking(self, answers: Answers) -> tuple[Remembering, Program]:
        """The program, which is told what to answer."""
        program = Program("", answers, confirms=lambda _, run: int(run[0].split()[0]))
        folder = tempfile.mkdtemp(dir=self.work)
        return Remembering(program, folder), program

    def about(self, made: Walk, ask: Remembering, place: int, moment: int, right: str) -> tuple[object, ...]:
        """What is answered about a process at a moment."""
        life = made.lives[place]
        files = ask.about(made.family_world(life, moment))
        told = ask.audit(files, life.pid, right)
        return told.verdict.word, told.verdict.holder, told.run

    def test_equal_worlds_are_asked_once(self) -> None:
        made = walked(*replayed(ROOT, TWINS))
        ask, program = self.asking({("real", "uid:0"): no(101, "101 setresuid -1 0 -1 = 0")})
        self.assertEqual(self.about(made, ask, 1, 3, "uid:0"), ("no", 101, (b"101 setresuid -1 0 -1 = 0",)))
        self.assertEqual(self.about(made, ask, 2, 4, "uid:0"), ("no", 102, (b"102 setresuid -1 0 -1 = 0",)))
        self.assertEqual(self.about(made, ask, 2, 3, "uid:0")[0], "no")     # another world: it is still root
        self.assertEqual(len(program.asked), 2)

    def test_the_pids_of_a_family_go_by_their_order(self) -> None:
        """Who is the greater of two in one world is so in the other: plans go by ascending pids (docs/PLANS.md)."""
        log = "100 fork = 101\n101 fork = 103\n100 fork = 105\n105 fork = 104\n"
        made = walked(*replayed(ROOT, log))
        ask, program = self.asking({("real", "uid:5"): no(103, "103 setresuid -1 5 -1 = 0")})
        self.about(made, ask, 1, 4, "uid:5")
        ask.audit(ask.about(made.family_world(made.lives[3], 4)), 105, "uid:5")
        self.assertEqual(len(program.asked), 2)     # in the second family the child has the lesser pid

    def test_checks_and_confirmations_are_remembered(self) -> None:
        made = walked(*replayed(ROOT, TWINS))
        ask, program = self.asking({})
        first, second = (ask.about(made.family_world(made.lives[place], 4)) for place in (1, 2))
        self.assertEqual([ask.holds(files, pid, "uid:7", CERTIFICATE.encode())
                          for files, pid in ((first, 101), (second, 102))], [True, True])
        self.assertEqual([ask.confirms(files, pid, "uid:7", [b"%d setuid 7 = 0" % pid])
                          for files, pid in ((first, 101), (second, 102))], [101, 102])
        self.assertEqual([word for word, _, _ in program.asked], ["check", "confirm"])

    def test_namespaces_have_the_names_of_the_log(self) -> None:
        made = walked(*replayed(ROOT, "100 unshare = 0\n"))
        ask, _ = self.asking({("real", "uid:5"): no(100, "100 write_uid_map made-1 0 0 1 = 0"),
                              ("real", "uid:6"): f"undecided maps made-1\n{CERTIFICATE}\n"})
        files = ask.about(made.family_world(made.lives[0], 1))
        self.assertEqual(ask.audit(files, 100, "uid:5").run, (b"100 write_uid_map #1 0 0 1 = 0",))
        self.assertEqual(ask.audit(files, 100, "uid:6").verdict.row, "#1")
        self.assertEqual([row_in(row, {"made-1": "#1"}) for row in ("fresh(made-1)", "init", None)],
                         ["fresh(#1)", "init", None])

    def test_a_world_that_is_another_one_fails(self) -> None:
        """The program replays each world that is asked about, and must show the members as the log's replay does."""
        made = walked(*replayed(ROOT, "100 setuid 33 = 0\n"))
        ask, program = self.asking({})
        end = made.family_world(made.lives[0], 1)
        program.other = b"34"
        with self.assertRaisesRegex(Failure, "isn't what the replay shows"):
            ask.about(end)


if __name__ == "__main__":
    unittest.main()
