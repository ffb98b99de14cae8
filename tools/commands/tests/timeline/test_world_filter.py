"""The world's [filter] before the log's end: it counts from the lines on that install one, of each member, and where no
line tells it at the end alone (docs/FORMATS.md: it binds the calls after the log). Plain Python stands for the
program."""
import unittest
from collections.abc import Mapping, Sequence

from credaudit_tools.command_line.command import FOUND, GOOD
from credaudit_tools.formats.rights import Right
from credaudit_tools.judge.classes import GONE, HELD, OWN_CALLS, Outcome
from credaudit_tools.timeline.borders import Search
from credaudit_tools.timeline.held_rights import Holding
from credaudit_tools.timeline.walk import walked

from .timeline_case import Case, Spans, replayed, spans_in

# A daemon that keeps user id 0 as its saved one: the filter alone keeps it from taking that.
WORLD = """log = "script"
[[process]]
pid = 100
uid = [33, 0, 0, 0]
gid = 33
permitted = "none"
effective = "none"
no_new_privs = true
"""
FILTER = '[filter]\nexclude = ["setuid", "setreuid", "setresuid"]\n'
DROPS, INSTALLS, IDLE = "100 setresuid 33 33 0 = 0\n", "; mark 100 seccomp = 0\n", "100 no_new_privs 1 = 0\n"
REMARK, BORN = "; nothing\n", "100 fork = 101\n"
UID, LOST = "uid:0", "gone-by-own-calls"


def searched(log: str, place: int = 0, world: str = WORLD) -> list[tuple[int, str]]:
    """By line what uid:0 becomes, where it is gone by the filter and can be had without it."""
    given, read = replayed(world + FILTER, log)
    walk = walked(given, read, log.encode())
    life = walk.lives[place]

    def ask(moment: int, rights: Sequence[Right]) -> Mapping[Right, Outcome]:
        kind = GONE if walk.family_world(life, moment).world.exclude else OWN_CALLS
        return {right: Outcome(right, kind) for right in rights}
    [right] = rights = [Right("uid", 0)]
    course = Search(walk, life, Holding(rights, walk), ask).course()
    return [(walk.line(course.moments[at]), course.outcomes[right][at].kind) for at in course.begins(right)]


class Lines(unittest.TestCase):
    """From which line on it counts."""

    def test_one_process(self) -> None:
        rows: list[tuple[str, str, list[tuple[int, str]]]] = [
            ("its line", DROPS + INSTALLS + IDLE + REMARK, [(0, HELD), (1, OWN_CALLS), (2, GONE)]),
            ("no line", DROPS + REMARK + IDLE + REMARK, [(0, HELD), (1, OWN_CALLS), (4, GONE)]),
            ("no line behind the last event", DROPS + IDLE + IDLE, [(0, HELD), (1, OWN_CALLS), (3, GONE)]),
            ("before the drop, which it would refuse", INSTALLS + DROPS + IDLE + REMARK,
             [(0, HELD), (2, OWN_CALLS), (4, GONE)]),
            ("the last of several", DROPS + INSTALLS + IDLE + INSTALLS + IDLE,
             [(0, HELD), (1, OWN_CALLS), (4, GONE)]),
            ("a call that it refuses", DROPS + INSTALLS + "100 setuid 7 = EPERM\n" + REMARK,
             [(0, HELD), (1, OWN_CALLS), (2, GONE)]),
            ("one that failed", DROPS + "; mark 100 seccomp = EINVAL\n" + IDLE, [(0, HELD), (1, OWN_CALLS), (3, GONE)]),
            ("another call", DROPS + "; mark 100 accept4 3 = 5\n" + IDLE, [(0, HELD), (1, OWN_CALLS), (3, GONE)]),
            ("another process", DROPS + "; mark 7 seccomp = 0\n" + IDLE, [(0, HELD), (1, OWN_CALLS), (3, GONE)]),
            ("an empty log", "", [(0, HELD)])]
        for name, log, wanted in rows:
            with self.subTest(name):
                self.assertEqual(searched(log), wanted)

    def test_a_family(self) -> None:
        """All members have to have it; a child has its forebear's."""
        own = DROPS + BORN + "; mark 101 seccomp = 0\n" + IDLE + INSTALLS + REMARK
        self.assertEqual(searched(own), [(0, HELD), (1, OWN_CALLS), (5, GONE)])
        self.assertEqual(searched(own, 1), [(2, OWN_CALLS), (3, GONE)])
        later = DROPS + INSTALLS + BORN + IDLE
        self.assertEqual(searched(later), [(0, HELD), (1, OWN_CALLS), (2, GONE)])
        self.assertEqual(searched(later, 1), [(3, GONE)])
        without = DROPS + BORN + INSTALLS + REMARK + IDLE
        self.assertEqual(searched(without), [(0, HELD), (1, OWN_CALLS), (5, GONE)])
        ended = DROPS + BORN + INSTALLS + IDLE + "101 exit = 0\n" + IDLE
        self.assertEqual(searched(ended), [(0, HELD), (1, OWN_CALLS), (5, GONE)])
        self.assertEqual(searched(ended, 1), [(2, OWN_CALLS)])      # dead before the log's end, and never bound

    def test_it_counts_no_more(self) -> None:
        """A child does what the filter refuses: it isn't that line's, so nothing says that the family has it."""
        log = DROPS + INSTALLS + IDLE + BORN + "101 setresuid -1 0 -1 = 0\n101 setresuid -1 33 -1 = 0\n" + REMARK
        self.assertEqual(searched(log), [(0, HELD), (1, OWN_CALLS), (2, GONE), (4, OWN_CALLS), (5, HELD),
                                         (6, OWN_CALLS), (7, GONE)])

    def test_lines_of_strace(self) -> None:
        world = WORLD.replace('"script"', '"strace"')
        program = "{len=1, filter=[BPF_STMT(BPF_RET|BPF_K, SECCOMP_RET_ALLOW)]}"
        rows: list[tuple[str, int]] = [
            (f"seccomp(SECCOMP_SET_MODE_FILTER, 0, {program}) = 0", 2),
            (f"prctl(PR_SET_SECCOMP, SECCOMP_MODE_FILTER, {program}) = 0", 2),
            (f"seccomp(SECCOMP_SET_MODE_FILTER, SECCOMP_FILTER_FLAG_NEW_LISTENER, {program}) = 3", 2),
            (f"seccomp(SECCOMP_SET_MODE_FILTER, SECCOMP_FILTER_FLAG_TSYNC, {program}) = 101", 3),
            ("seccomp(SECCOMP_GET_ACTION_AVAIL, 0, [SECCOMP_RET_LOG]) = 0", 3),
            ("seccomp(SECCOMP_SET_MODE_FILTER, 0, NULL) = -1 EFAULT (Bad address)", 3),
            ("seccomp( <unfinished ...>\n100 <... seccomp resumed>SECCOMP_SET_MODE_FILTER, 0, NULL) = 0", 4),
            ("prctl(PR_GET_SECCOMP) = 0", 3)]
        for line, since in rows:
            with self.subTest(line):
                log = f"100 setresuid(33, 33, 0) = 0\n100 {line}\n100 prctl(PR_SET_NO_NEW_PRIVS, 1, 0, 0, 0) = 0\n"
                self.assertEqual(searched(log, world=world), [(0, HELD), (1, OWN_CALLS), (since, GONE)])


class Told(Case):
    """What the command tells."""

    def spans(self, log: str, *given: str) -> tuple[Spans, list[object]]:
        """The spans of uid:0, and the notes; they are the same by audits of each front of the log."""
        names = self.names(WORLD + FILTER, log)
        made = self.document(*names, "100", *given)
        self.assertEqual(self.document(*names, "100", "--every-line"), made)
        return spans_in(made["answers"][0]["lanes"][0])[UID], made["notes"]

    def test_its_line(self) -> None:
        self.assertEqual(self.spans(DROPS + INSTALLS + IDLE + REMARK),
                         ([("held", 0), ("own-calls", 1), (LOST, 2)], []))
        _, out, _ = self.command(*self.names(WORLD + FILTER, DROPS + INSTALLS + IDLE), "100")
        self.assertIn("gone by its own calls since line 2 (seccomp = 0)\n", out)
        self.assertIn("\n   2  100 seccomp = 0\n        gone by its own calls: uid:0\n", out)
        self.assertNotIn("marked", out)

    def test_the_logs_end(self) -> None:
        found, notes = self.spans(DROPS + REMARK + IDLE + REMARK)
        self.assertEqual(found, [("held", 0), ("own-calls", 1), (LOST, 4)])
        self.assertEqual(notes, ["no line tells when process 100 installed the world's [filter]: for its families it"
                                 " counts at the log's end alone"])
        _, out, _ = self.command(*self.names(WORLD + FILTER, DROPS + REMARK), "100")
        self.assertIn("gone by its own calls since line 2 ([filter])\n", out)
        self.assertIn("\n   2  the end, where the world's [filter] counts\n", out)

    def test_before_a_call(self) -> None:
        """A daemon that reads its network under the filter, and one that does so before."""
        expect = self.put("expect", b"uid:0 gone-by-own-calls before accept4\nuid:33 held\ngid:* held\ngroups unseen\n")
        reads = "; mark 100 accept4 3 = 5\n"
        for log, status in ((DROPS + INSTALLS + reads + IDLE, GOOD), (DROPS + reads + INSTALLS + IDLE, FOUND),
                            (DROPS + reads + IDLE, FOUND)):
            with self.subTest(log):
                found, _, errors = self.command(*self.names(WORLD + FILTER, log), "100", "--expect", expect)
                self.assertEqual(found, status, errors)


if __name__ == "__main__":
    unittest.main()
