"""What stands against a `yes` at the line that it is about, though it is over at the log's end: a capability that acts
without a listed call (capabilities(7)), fs ids (setfsuid(2)), a row of docs/KERNEL.md. By hand; plain Python stands for
the program."""
import unittest

from credaudit_tools.command_line.command import FOUND, GOOD
from credaudit_tools.evidence.evidence import Evidence
from credaudit_tools.evidence.premises import FILTERS
from credaudit_tools.judge.program_questions import Files
from credaudit_tools.replay import recording
from credaudit_tools.summary.summary import Given
from credaudit_tools.timeline.lane_judge import seen
from credaudit_tools.timeline.walk import walked

from ..told_rows import space_row
from .timeline_case import Case, Spans, replayed, spans_in

USER = 'log = "script"\n[[process]]\npid = 100\nuid = {}\ngid = 33\ngroups = [33]\n'
BOTH = 'permitted = "CAP_NET_RAW,CAP_SYS_ADMIN"\neffective = "CAP_NET_RAW,CAP_SYS_ADMIN"\nno_new_privs = true\n'
# It gives up CAP_NET_RAW, reads its network with CAP_SYS_ADMIN, and then gives up that.
POWER = """100 capset CAP_SYS_ADMIN CAP_SYS_ADMIN none = 0
; mark 100 accept4 3 = 5
100 capset none none none = 0
"""
RAW, LOST = "cap:CAP_NET_RAW@init", "gone-by-own-calls"


class AtItsLine(Case):
    def spans(self, world: str, log: str, right: str, *given: str) -> Spans:
        """The spans of a right in the lane of process 100; they are the same by audits of each front of the log."""
        words = *self.names(world, log), "100", "--right", right
        made = self.document(*words, *given)
        self.assertEqual(self.document(*words, "--every-line"), made)
        return spans_in(made["answers"][0]["lanes"][0])[right]

    def test_power(self) -> None:
        world = USER.format(33) + BOTH
        self.assertEqual(self.spans(world, POWER, RAW), [("held", 0), ("doubted", 1), (LOST, 3)])
        _, out, _ = self.command(*self.names(world, POWER), "100")
        self.assertIn("not called gone from line 1 (capset", out)
        self.assertIn("power: CAP_SYS_ADMIN over", out)
        self.assertIn("the last one since line 3\n", out)

    def test_power_by_a_call(self) -> None:
        """Since the line of the drop the right is gone, as expected before the next call, but not before the first."""
        rest = f"\n{RAW.replace('NET_RAW', 'SYS_ADMIN')} {LOST}\nuid:33 held\ngid:33 held\n"
        for log, status in ((POWER, FOUND), (POWER + "; mark 100 accept4 3 = 6\n", FOUND),
                            (POWER.replace("; mark 100 accept4 3 = 5\n", "") + "; mark 100 accept4 3 = 6\n", GOOD)):
            with self.subTest(log):
                expect = self.put("expect", f"{RAW} {LOST} before accept4{rest}".encode())
                found, _, errors = self.command(*self.names(USER.format(33) + BOTH, log), "100", "--expect", expect)
                self.assertEqual(found, status, errors)

    def test_fs_ids(self) -> None:
        """It makes a set-user-ID file of its fs user id, and executes it."""
        world = USER.format([33, 33, 33, 0]) + 'permitted = "none"\neffective = "none"\n'
        self.assertEqual(self.spans(world, "100 setfsuid 33 = 0\n100 keepcaps 1 = 0\n", "uid:0"),
                         [("doubted", 0), (LOST, 1)])

    def test_an_install(self) -> None:
        """Of a recording whose log has one, which no recorder writes, it stands against each class of the family."""
        world, none = USER.format(33) + 'permitted = "none"\neffective = "none"\n', "100 keepcaps 1 = 0\n"
        for log, doubted in ((none, False), ("100 no_new_privs 1 = 0\n100 install setuid = 0\n" + none, True)):
            read_world, read = replayed(world, log)
            kept = recording.Recording(world.encode(), log.encode(), [])
            given = Given(Files("", ""), read_world, world.encode(), log.encode(), Evidence(), kept)
            walk = walked(given.world, read, given.log)
            life = walk.lives[0]
            end = walk.family_world(life, walk.end(life))
            found = seen(given, read, walk, life).evidence(walk, life, end)
            self.assertEqual(any(each.premise == FILTERS for each in found.doubts), doubted)

    def test_a_row_of_the_kernel(self) -> None:
        """A map that isn't written yet, and then is: by another process."""
        world = 'log = "script"\n' + space_row("box", 5) + "[[process]]\npid = 90\n[[process]]\npid = 100\nuid = 5\n" \
            "gid = 5\ngroups = [5]\nno_new_privs = true\n"
        log = "90 write_uid_map box 0 5 1 = 0\n90 write_gid_map box 0 5 1 = 0\n"
        self.assertEqual(self.spans(world, log, "gid:7"), [("doubted", 0), (LOST, 2)])


if __name__ == "__main__":
    unittest.main()
