"""Exposure: the share of lines, and of time where it is told, in which a right was held, could be had again, and was
gone. Worked out by hand."""
import os
import shutil
import unittest

from credaudit_tools.replay import recording
from credaudit_tools.timeline.exposure import Clock, percent

from .. import support
from .timeline_case import LOG, WORLD, Case

FIXED = os.path.join(support.EXAMPLES, "first_try", "recording-fixed")
FIVE = b"""100 execve("/tmp/daemon-fixed", [], NULL) = 0
100 setgroups(0, NULL) = 0
100 setresgid(33, 33, 33) = 0
100 setresuid(33, 33, 33) = 0
100 prctl(PR_SET_NO_NEW_PRIVS, 1, 0, 0, 0) = 0
"""


class Shares(Case):
    def exposure(self, *given: str) -> dict[str, tuple[dict[str, int], dict[str, int | None]]]:
        """By right the lines and the milliseconds."""
        told = self.document(*given)["answers"][0]["exposure"]
        return {right: (row["lines"], row["milliseconds"]) for row in told for right in row["rights"]}

    def test_of_lines(self) -> None:
        """The worker lives from line 3 to line 6: after lines 3 and 4 root is held, after 5 su gives it, after 6 it is
        gone."""
        told = self.exposure(*self.names(WORLD, LOG), "101")
        none = {"held": None, "regainable": None, "gone": None}
        self.assertEqual(told["uid:0"], ({"held": 2, "regainable": 1, "gone": 1}, none))
        self.assertEqual(told["gid:0"], ({"held": 1, "regainable": 2, "gone": 1}, none))
        self.assertEqual(told["uid:33"], ({"held": 2, "regainable": 2, "gone": 0}, none))

    def test_of_time(self) -> None:
        """Until the next line, and to the recording's end: five lines, at 10, 11, 13, 17 and 25 seconds, and the end at
        30. Root is held until line 4, and gone from there on; before line 3 the group 33 can be taken."""
        folder = os.path.join(self.work, "rec")
        shutil.copytree(FIXED, folder)
        kept = recording.read(folder)
        assert kept.made is not None
        kept.log = FIVE
        kept.times = "10.0\n11.0\n13.0\n17.0\n25.0\n"
        kept.made.evidence.seen["ended"] = "30.000"
        recording.write(folder, kept)
        made = self.document(folder)
        self.assertTrue(made["times"])
        told = self.exposure(folder)
        self.assertEqual(told["uid:0"], ({"held": 3, "regainable": 0, "gone": 2},
                                         {"held": 7000, "regainable": 0, "gone": 13000}))
        self.assertEqual(told["gid:33"], ({"held": 3, "regainable": 2, "gone": 0},
                                          {"held": 17000, "regainable": 3000, "gone": 0}))
        self.assertEqual(told["gid:0"][1], {"held": 3000, "regainable": 4000, "gone": 13000})

    def test_the_table(self) -> None:
        _, out, _ = self.command(*self.names(WORLD, LOG), "101")
        table = out[out.index("of process 101's lines:"):].split("\n")
        self.assertEqual(table[1:4], [
            "                                     held regainable       gone",
            "  uid:0                             50.0%      25.0%      25.0%",
            "  uid:33                            50.0%      50.0%          -"])

    def test_of_an_empty_log(self) -> None:
        told = self.exposure(*self.names(WORLD, ""), "100")
        self.assertEqual(told["uid:0"][0], {"held": 0, "regainable": 0, "gone": 0})


class Words(unittest.TestCase):
    def test_percent(self) -> None:
        """Little is never nothing, and nearly all isn't all."""
        rows = [(0, 10, "-"), (10, 10, "100%"), (1, 4, "25.0%"), (1, 100000, "0.1%"), (99999, 100000, "99.9%"),
                (0, 0, "-")]
        self.assertEqual([percent(part, whole) for part, whole, _ in rows], [told for *_, told in rows])

    def test_clock(self) -> None:
        clock = Clock((10.0, 11.0, 10.5), 12.0)
        self.assertEqual([clock.at(line) for line in (0, 1, 2, 3, 4)], [10.0, 10.0, 11.0, 10.5, 12.0])
        self.assertEqual(Clock((10.0, 11.0), 10.9).at(3), 11.0)     # a clock that was set back
        self.assertEqual(Clock((10.0, 11.0)).at(3), 11.0)


if __name__ == "__main__":
    unittest.main()
