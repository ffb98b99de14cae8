"""Where the world of a capture goes, and whose its files become: under sudo(8) those of whoever called it, where that
user could have put them there."""
import os
import stat
import unittest
from collections.abc import Sequence
from unittest import mock

from credaudit_tools.capture import capture_command
from credaudit_tools.evidence import evidence_text

from .. import support

SUDO = {"SUDO_UID": "1234", "SUDO_GID": "2345"}
CALLER, OTHER = 1234, 77
NAMES = ["world.toml", "world.toml.evidence"]


class Put(support.Case):
    def setUp(self) -> None:
        super().setUp()
        self.given: list[tuple[str, int, int]] = []
        self.owners: dict[str, int] = {}

    def given_by(self, handle: int, user: int, group: int) -> None:
        """In the place of fchown, which needs root: what is given to whom."""
        name = os.path.basename(os.readlink(f"/proc/self/fd/{handle}"))
        self.given.append((name.removesuffix(".part"), user, group))

    def put_world(self, mode: int = 0o755, variables: dict[str, str] | None = None) -> list[str]:
        """Puts a world as root that sudo made into a folder of this mode; the names of what is given to the caller."""
        self.given, stats = [], os.stat
        os.chmod(self.work, mode)

        def seen_by_root(name: str, *, dir_fd: int, follow_symlinks: bool) -> os.stat_result:
            """A file as root sees it, with the owner that the test says."""
            told = stats(name, dir_fd=dir_fd, follow_symlinks=follow_symlinks)
            return os.stat_result((*told[:4], self.owners.get(name, 0), *told[5:10]))

        def folder_by_root(handle: int) -> os.stat_result:
            """Likewise the folder."""
            told = stats(handle)
            return os.stat_result((*told[:4], self.owners.get(".", 0), *told[5:10]))
        with mock.patch.dict(os.environ, SUDO if variables is None else variables), \
                mock.patch.object(os, "geteuid", lambda: 0), mock.patch.object(os, "fchown", self.given_by), \
                mock.patch.object(os, "stat", seen_by_root), \
                mock.patch.object(os, "fstat", folder_by_root):
            capture_command.put(b"world", b"evidence", os.path.join(self.work, "world.toml"))
        self.assertEqual({(user, group) for _, user, group in self.given} - {(1234, 2345)}, set())
        return sorted(name for name, _, _ in self.given)

    def test_in_a_folder_of_the_caller(self) -> None:
        self.owners["."] = CALLER
        self.assertEqual(self.put_world(), NAMES)
        for name in NAMES:
            self.assertEqual(stat.S_IMODE(os.stat(os.path.join(self.work, name)).st_mode), 0o600)
        self.assertEqual(evidence_text.beside(NAMES[0]), NAMES[1])
        self.owners[NAMES[0]] = OTHER                       # it is the caller's folder: who could take it away
        self.assertEqual(self.put_world(), NAMES)

    def test_in_a_folder_of_all(self) -> None:
        self.assertEqual(self.put_world(0o1777), NAMES)
        self.owners = {NAMES[0]: CALLER, NAMES[1]: OTHER}   # its own again, and another one's
        self.assertEqual(self.put_world(0o1777), NAMES[:1])

    def test_elsewhere(self) -> None:
        """In a folder of root's nothing is given away."""
        self.assertEqual(self.put_world(), [])
        self.assertEqual(self.put_world(0o1777, {"SUDO_UID": "0", "SUDO_GID": "0"}), [])
        self.assertEqual(self.put_world(0o1777, {"SUDO_UID": "", "SUDO_GID": ""}), [])

    def test_nothing_can_be_put(self) -> None:
        """It is told before anything is looked at."""
        status, _, errors = self.told(without_system, "-o", os.path.join(self.work, "none", "world.toml"),
                                      "1")
        self.assertEqual(status, 3)
        self.assertIn("there is no folder", errors)


def without_system(words: Sequence[str]) -> int:
    """The command over no system at all."""
    return capture_command.capture(mock.NonCallableMock(spec=[]), capture_command.words_of(words))


@unittest.skipUnless(os.geteuid() == 0, "it needs root")
class AsRoot(support.Case):
    def test_whose_it_becomes(self) -> None:
        os.chown(self.work, 1234, 2345)
        with mock.patch.dict(os.environ, SUDO):
            capture_command.put(b"world", b"evidence", os.path.join(self.work, "world.toml"))
        for name in NAMES:
            told = os.stat(os.path.join(self.work, name))
            self.assertEqual((told.st_uid, told.st_gid), (1234, 2345))


if __name__ == "__main__":
    unittest.main()
