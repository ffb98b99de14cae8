"""The folder of a recording while it is made: whose it becomes, and what others can do meanwhile."""
import os
import stat
import unittest
from unittest import mock

from credaudit_tools.command_line.command import Failure
from credaudit_tools.replay import recording
from credaudit_tools.replay.recording import Recording
from credaudit_tools.trace import room

from .. import support

SUDO = {"SUDO_UID": "1234", "SUDO_GID": "2345"}
KEPT = Recording(b"world", b"log", [])


class Rooms(support.Case):
    def setUp(self) -> None:
        super().setUp()
        self.given: list[tuple[str, int, int]] = []

    def given_by(self, handle: int, user: int, group: int) -> None:
        """In the place of fchown, which needs root: what is given to whom."""
        self.given.append((os.readlink(f"/proc/self/fd/{handle}"), user, group))

    def made(self, folder: str, variables: dict[str, str] | None = None) -> list[str]:
        """Makes a recording there as root that sudo made; what is given, by its path below the test's folder."""
        self.given = []
        with mock.patch.dict(os.environ, SUDO if variables is None else variables), \
                mock.patch.object(os, "geteuid", lambda: 0), mock.patch.object(os, "fchown", self.given_by), \
                mock.patch.object(os, "fstat", self.as_root(os.fstat)):
            with room.room(folder) as place:
                recording.write(place.path, KEPT, place.owner)
        self.assertEqual({(user, group) for _, user, group in self.given} - {(1234, 2345)}, set())
        return [os.path.relpath(path, self.work).removesuffix(".part") for path, _, _ in self.given]

    @staticmethod
    def as_root(seen: object) -> object:
        """What a folder looks like to root, whoever runs the test."""
        def told(handle: int) -> os.stat_result:
            assert callable(seen)
            found: os.stat_result = seen(handle)
            return os.stat_result((*found[:4], 0, 0, *found[6:10]))
        return told

    def test_under_sudo_what_was_made_is_given(self) -> None:
        """Each file when it is written, then the folders, from the inmost on: after the last write."""
        self.assertEqual(self.made(os.path.join(self.work, "a/b/rec")), [
            "a/b/rec/world.toml", "a/b/rec/log", "a/b/rec/status.txt", "a/b/rec", "a/b", "a"])
        self.assertEqual(stat.S_IMODE(os.stat(os.path.join(self.work, "a")).st_mode), 0o700)

    def test_what_was_there_stays(self) -> None:
        os.makedirs(os.path.join(self.work, "mine"))
        self.assertEqual(self.made(os.path.join(self.work, "mine")), [])
        self.assertEqual(sorted(os.listdir(os.path.join(self.work, "mine"))), ["log", "status.txt", "world.toml"])

    def test_without_sudo(self) -> None:
        for variables in ({"SUDO_UID": "", "SUDO_GID": ""}, {"SUDO_UID": "0", "SUDO_GID": "0"},
                          {"SUDO_UID": "-1", "SUDO_GID": "7"}, {"SUDO_UID": "4294967295", "SUDO_GID": "7"},
                          {"SUDO_UID": "7 7", "SUDO_GID": "7"}, {"SUDO_UID": "1234", "SUDO_GID": "x"}):
            with self.subTest(variables):
                self.assertEqual(self.made(os.path.join(self.work, "rec" + variables["SUDO_UID"]), variables), [])

    def test_a_link_in_its_place(self) -> None:
        """Whoever may move the folder puts a link to another one there: what is written goes where it was made."""
        folder, victim = os.path.join(self.work, "rec"), os.path.join(self.work, "victim")
        os.mkdir(victim)
        with room.room(folder) as place:
            os.rename(folder, folder + "-moved")
            os.symlink(victim, folder)
            recording.write(place.path, KEPT)
        self.assertEqual(os.listdir(victim), [])
        self.assertEqual(len(os.listdir(folder + "-moved")), 3)

    def test_a_folder_that_came_in_between(self) -> None:
        made, cases = os.mkdir, list[list[str]]([["file"], []])
        for left in cases:
            folder = os.path.join(self.work, f"rec{len(left)}")

            def other(name: str, mode: int = 0o777, *, dir_fd: int | None = None, left: list[str] = left) -> None:
                made(name, mode, dir_fd=dir_fd)
                os.chmod(os.path.join(self.work, name), 0o700 if left else 0o755)
                for each in left:
                    self.put(f"{name}/{each}")
            with self.subTest(left), mock.patch.object(os, "mkdir", other), \
                    self.assertRaisesRegex(Failure, "another one came in its place"), room.room(folder):
                pass
        self.link("away", "/there/is/none")
        with self.assertRaisesRegex(Failure, "no folder"), room.room(os.path.join(self.work, "away")):
            pass

    def test_a_recording_that_fails(self) -> None:
        with self.assertRaises(KeyboardInterrupt), room.room(os.path.join(self.work, "a/b/rec")):
            raise KeyboardInterrupt
        self.assertEqual(os.listdir(self.work), [])
        self.put("a/kept")
        with self.assertRaises(KeyboardInterrupt), room.room(os.path.join(self.work, "a/b/rec")):
            raise KeyboardInterrupt
        self.assertEqual(os.listdir(os.path.join(self.work, "a")), ["kept"])


@unittest.skipUnless(os.geteuid() == 0, "it needs root")
class AsRoot(support.Case):
    def test_whose_it_becomes(self) -> None:
        folder = os.path.join(self.work, "a/rec")
        with mock.patch.dict(os.environ, SUDO), room.room(folder) as place:
            recording.write(place.path, KEPT, place.owner)
            self.assertEqual(os.stat(folder).st_uid, 0)
        for path in (folder, os.path.dirname(folder), *(os.path.join(folder, name) for name in os.listdir(folder))):
            self.assertEqual((os.stat(path).st_uid, os.stat(path).st_gid), (1234, 2345), path)


if __name__ == "__main__":
    unittest.main()
