"""Whether a scan goes with a recording: where and when both looked. Moments and namespaces are made up."""
import tomllib
from dataclasses import replace

from credaudit_tools.evidence import evidence_text
from credaudit_tools.evidence.evidence import Evidence
from credaudit_tools.evidence.premises import BINFMT, FILES, MAPS, MOUNTS, SCAN
from credaudit_tools.replay import scan_fits
from credaudit_tools.system import mount_namespaces
from credaudit_tools.system.mount_namespaces import MountSpace, of_table, of_text

from .. import support
from ..support import SPACE, scanned, stand

CHANGE = "after line 3 of the log process 100 gave /x the mode 04755"
OTHER = replace(SPACE, number=4026532177, count=9)


def recorded(changed: float | None = None, space: MountSpace = SPACE, doubt: str | None = None) -> Evidence:
    """The evidence of a recording that ended at 1000."""
    found = Evidence()
    if doubt is not None:
        found.doubt(doubt, CHANGE)
    stand(found, [100, 101], changed, space)
    return found


def fitted(own: Evidence, scan: Evidence, pids: tuple[int, ...] = (100,)) -> Evidence:
    """The evidence of both; the scans of tests began at 500 and ended at 600."""
    found = own.copy()
    scan_fits.tell(found, own, scan, pids)
    return found


class Fits(support.Case):
    def test_a_scan_before(self) -> None:
        found = fitted(recorded(), scanned())
        self.assertTrue(all(map(found.holds, (SCAN, MOUNTS, FILES, BINFMT))))

    def test_a_change_after_the_scan(self) -> None:
        for premise in (FILES, MOUNTS):
            found = fitted(recorded(501.0, doubt=premise), scanned())
            self.assertFalse(found.holds(premise))
            self.assertIn(CHANGE, [each.why for each in found.doubts])

    def test_a_scan_after_the_change(self) -> None:
        for premise in (FILES, MOUNTS):
            found = fitted(recorded(499.0, doubt=premise), scanned())
            self.assertTrue(found.holds(FILES) and found.holds(MOUNTS), premise)

    def test_a_scan_that_was_under_way(self) -> None:
        self.assertFalse(fitted(recorded(550.0, doubt=FILES), scanned()).holds(FILES))

    def test_another_namespace(self) -> None:
        found = fitted(recorded(space=OTHER), scanned())
        self.assertEqual([each.why for each in found.doubts],
                         ["process 100 stands in the mount namespace mnt:[4026532177], which the scan didn't look at"])
        own = recorded(space=OTHER)
        own.seen["left 100"] = "2"
        self.assertIn("mnt:[4026532177] since line 2 of the log,", fitted(own, scanned()).doubts[0].why)

    def test_a_number_that_came_again(self) -> None:
        self.assertFalse(fitted(recorded(space=replace(SPACE, count=77)), scanned()).holds(MOUNTS))
        self.assertTrue(fitted(recorded(space=replace(SPACE, count=mount_namespaces.UNKNOWN)), scanned()).holds(MOUNTS))

    def test_other_mounts(self) -> None:
        found = fitted(recorded(space=replace(SPACE, mounts="f" * 32)), scanned())
        self.assertEqual([each.why for each in found.doubts],
                         ["process 100 has other mounts than those that the scan looked at"])

    def test_another_start_of_the_machine(self) -> None:
        scan = scanned()
        scan.seen["boot"] = "another"
        self.assertFalse(fitted(recorded(), scan).holds(MOUNTS))

    def test_a_member_that_was_not_seen(self) -> None:
        self.assertFalse(fitted(recorded(), scanned(), (100, 102)).holds(MOUNTS))

    def test_what_nobody_told(self) -> None:
        """A recording, or a scan, of before says nothing of it."""
        for own, scan in ((recorded(), Evidence({SCAN: "before"})), (Evidence(), scanned())):
            self.assertFalse(fitted(own, scan).holds(MOUNTS))

    def test_doubts_of_spaces_stay_with_the_scan(self) -> None:
        """A hidden pid 1 is a doubt of the captured family, not of the programs."""
        scan = scanned()
        scan.doubt(MAPS, "the user namespace of process 1 isn't shown: Permission denied")
        found = fitted(recorded(), scan)
        self.assertEqual(found.doubts, [])
        scan.doubt(BINFMT, "an entry")
        self.assertFalse(fitted(recorded(), scan).holds(BINFMT))

    def test_lines_come_back(self) -> None:
        self.assertEqual(of_text(SPACE.text()), SPACE)
        own = recorded(12.5)
        lines = "".join(line + "\n" for line in evidence_text.evidence_lines(own))
        self.assertEqual(evidence_text.evidence_of(tomllib.loads(lines)).seen, own.seen)

    def test_which_mounts_count(self) -> None:
        front = b"27 1 254:0 / / rw,relatime - ext4 /dev/vda rw\n"
        sums = {of_table(1, 0, front + rest).mounts for rest in (
            b"", b"28 27 0:25 / /run rw,nosuid - tmpfs tmpfs rw\n", b"22 27 0:21 / /proc rw - proc proc rw\n")}
        self.assertEqual(len(sums), 1)
        for rest in (b"28 27 0:25 / /run rw - tmpfs tmpfs rw\n", b"28 27 0:25 / /mnt rw - tmpfs tmpfs rw\n",
                     b"28 27 0:26 / /run rw - tmpfs tmpfs rw\n", b"28 27 0:25 / /run rw,idmapped - tmpfs tmpfs rw\n"):
            sums.add(of_table(1, 0, front + rest).mounts)
        self.assertEqual(len(sums), 5)
