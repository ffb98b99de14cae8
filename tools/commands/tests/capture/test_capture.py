"""Worlds of stored systems: what is declared, what is told, and families that move while they are read. Without
root."""
import os
import tomllib
import unittest

from credaudit_tools.capture import family
from credaudit_tools.capture.capture import Capture, Wishes, captured
from credaudit_tools.capture.scan import Scan
from credaudit_tools.command_line.command import Failure
from credaudit_tools.formats import worlds
from credaudit_tools.formats.world_remarks import SCANNED, UNSCANNED
from credaudit_tools.replay.program import Program

from .. import support
from ..stored_system import StoredSystem

SYSTEMS = os.path.join(support.DATA, "systems")
ROOT = 100
MOUNTS = '\n[[mounts]]\ntable = "1 1 8:1 / / rw - ext4 /dev/sda rw\\n"\n'


def stored(name: str) -> str:
    with open(os.path.join(SYSTEMS, name), encoding="utf-8") as file:
        return file.read()


class Systems(support.Case):
    """A test over stored systems."""

    def system(self, text: str) -> StoredSystem:
        return StoredSystem(text, os.path.join(self.work, "proc"))

    def capture(self, system: StoredSystem, wishes: Wishes = Wishes(), pid: int = ROOT) -> Capture:
        read = family.settled(system, pid, False, 600.0, pause=lambda _: None)
        return captured(system, read, wishes, lambda _: None)


class Stored(Systems):
    """Each stored system gives the rows and the remarks that its file asks for."""

    def test_each_system(self) -> None:
        for name in sorted(os.listdir(SYSTEMS)):
            with self.subTest(name):
                text = stored(name)
                expect = tomllib.loads(text)["expect"]
                made = self.capture(self.system(text))
                written = worlds.written(made.world).decode()
                for part in expect["world"]:
                    self.assertIn(part, written)
                for part in expect["lacks"]:
                    self.assertNotIn(part, written)
                for part in expect["notes"]:
                    self.assertTrue(any(part in note for note in made.notes), f"{part} isn't in {made.notes}")
                self.assertEqual(len(made.doubts), len(expect["doubts"]), made.doubts)
                for part in expect["doubts"]:
                    self.assertTrue(any(part in doubt for doubt in made.doubts), f"{part} isn't in {made.doubts}")

    def test_all_that_is_told_stands_in_the_world(self) -> None:
        for name in sorted(os.listdir(SYSTEMS)):
            made = self.capture(self.system(stored(name)))
            remarks = [line[2:] for line in worlds.written(made.world).decode().split("\n") if line.startswith("# ")]
            for told in made.notes + [f"doubt: {doubt}" for doubt in made.doubts]:
                self.assertIn(told, remarks)

    def test_the_program_accepts_each_world(self) -> None:
        program = Program()
        for name in sorted(os.listdir(SYSTEMS)):
            with self.subTest(name):
                made = self.capture(self.system(stored(name)))
                report = program.replay_texts(worlds.written(made.world), b"")
                self.assertEqual((report.status, report.ending), (0, ["end 0"]))
                self.assertEqual(len(report.start), len(made.world.processes))

    def test_a_written_world_is_read_back(self) -> None:
        for name in sorted(os.listdir(SYSTEMS)):
            made = self.capture(self.system(stored(name))).world
            read = worlds.read(worlds.written(made))
            self.assertEqual((read.spaces, read.mounts, read.files, read.processes),
                             (made.spaces, made.mounts, made.files, made.processes))


class Wished(Systems):
    """What the options change."""

    def test_without_files(self) -> None:
        made = self.capture(self.system(stored("programs.toml")), Wishes(files=False))
        self.assertEqual(made.world.files, [])
        self.assertIn(UNSCANNED, made.world.remarks)
        self.assertNotIn(SCANNED, made.world.remarks)
        self.assertTrue(any("no files are declared" in doubt for doubt in made.doubts))

    def test_a_skipped_mount_is_a_doubt(self) -> None:
        made = self.capture(self.system(stored("nosuid_on_one_mount.toml")), Wishes(skip=(b"/srv",)))
        self.assertEqual(made.world.files, [])
        self.assertEqual(made.doubts, ["/srv isn't looked at, as asked for"])

    def test_own_namespaces_alone(self) -> None:
        made = self.capture(self.system(stored("namespace_of_others.toml")), Wishes(own_spaces=True))
        self.assertEqual(made.world.spaces, [])
        self.assertTrue(any("as asked for; a member who owns one can join it" in doubt for doubt in made.doubts))

    def test_equal_members_and_programs_once(self) -> None:
        threads = "".join(f"\n[[thread]]\ntid = {tid}\npid = 100\n" for tid in range(101, 401))
        odd = "\n[[thread]]\ntid = 401\npid = 100\nuid = 1000\n"
        files = "".join(f'\n[[file]]\npath = "/usr/bin/tool{number}"\nmode = "4755"\n' for number in range(5000))
        script = '\n[[file]]\npath = "/usr/bin/script"\nmode = "4755"\nstart = "#!/usr/bin/tool1\\n"\n'
        system = self.system("[[thread]]\ntid = 100\n" + threads + odd + files + script + MOUNTS)
        with self.assertRaisesRegex(Failure, "at most 4096"):
            self.capture(system)
        made = self.capture(system, Wishes(merge=True)).world
        self.assertEqual([(row.pid, row.parent) for row in made.processes], [(100, None), (401, 100)])
        self.assertEqual([row.path for row in made.files], ["/usr/bin/tool0"])

    def test_too_many_namespaces(self) -> None:
        spaces = "".join(f"\n[[space]]\nkey = {key}\nowner = 1000\n" for key in range(10, 266))
        system = self.system("[[thread]]\ntid = 100\n" + spaces + MOUNTS)
        with self.assertRaisesRegex(Failure, "256 user namespaces"):
            self.capture(system)
        self.assertEqual(self.capture(system, Wishes(own_spaces=True)).world.spaces, [])

    def test_a_family_below_another_process(self) -> None:
        made = self.capture(self.system(stored("children_and_threads.toml")), pid=101).world
        self.assertEqual([(row.pid, row.parent) for row in made.processes], [(101, None), (102, 101)])

    def test_no_such_process(self) -> None:
        with self.assertRaisesRegex(Failure, "no process 7"):
            self.capture(self.system(stored("one_process.toml")), pid=7)

    def test_a_process_that_has_ended(self) -> None:
        with self.assertRaisesRegex(Failure, "process 101 has ended"):
            self.capture(self.system(stored("ended_child.toml")), pid=101)


class Skipped(Systems):
    """Directories that are left out."""

    MOUNTS = ("1 1 8:1 / / rw - ext4 /dev/sda rw", "2 1 8:2 / /srv rw - xfs /dev/sdb rw",
              "3 2 8:3 / /srv/data rw - xfs /dev/sdc rw")
    FILES = ((1, "/usr/bin/su"), (1, "/opt/big/su"), (1, "/opt/big/in/su"), (1, "/opt/bigger/su"), (2, "/srv/su"),
             (3, "/srv/data/su"))

    def skipped(self, *skip: str, mounts: tuple[str, ...] = (), files: tuple[tuple[int, str], ...] = ()) -> list[str]:
        """The paths of the programs that are declared then. Of each directory that is left out a doubt is told."""
        table = "".join(line + "\\n" for line in (*self.MOUNTS, *mounts))
        rows = "".join(f'\n[[file]]\npath = "{path}"\nmode = "4755"\nmount = {mount}\n'
                       for mount, path in (*self.FILES, *files))
        system = self.system(f'[[thread]]\ntid = 100\n\n[[mounts]]\ntable = "{table}"\n{rows}')
        made = self.capture(system, Wishes(skip=tuple(map(os.fsencode, skip))))
        self.assertEqual(made.doubts, [f"{each} isn't looked at, as asked for" for each in skip])
        return sorted(row.path for row in made.world.files)

    def left(self, *gone: str) -> list[str]:
        """The paths of all programs but those below these directories."""
        return sorted(path for _, path in self.FILES if not any(path.startswith(each + "/") for each in gone))

    def test_a_directory(self) -> None:
        self.assertEqual(self.skipped(), self.left())
        for gone in (("/opt/big",), ("/opt/big/in",), ("/opt/big", "/opt/big/in"), ("/opt", "/usr")):
            self.assertEqual(self.skipped(*gone), self.left(*gone), gone)

    def test_a_mount_with_those_below_it(self) -> None:
        for gone in ("/srv", "/srv/data"):
            self.assertEqual(self.skipped(gone), self.left(gone), gone)
        self.assertEqual(self.skipped("/"), [])

    def test_what_another_mount_shows_too_is_looked_at_there(self) -> None:
        inner = ("4 1 8:1 /opt/big /mnt rw - ext4 /dev/sda rw",), ((4, "/mnt/su"), (4, "/mnt/in/su"))
        whole = ("4 1 8:1 / /mnt rw - ext4 /dev/sda rw",), tuple((4, "/mnt" + path) for mount, path in self.FILES
                                                                 if mount == 1)
        for mounts, files in (inner, whole):
            self.assertEqual(self.skipped(mounts=mounts, files=files), self.left())
            shown = [path for _, path in files if mounts == inner[0] or "/opt/big/" in path]
            self.assertEqual(self.skipped("/opt/big", mounts=mounts, files=files),
                             sorted(self.left("/opt/big") + shown))
            self.assertEqual(self.skipped("/opt/big", "/mnt", mounts=mounts, files=files), self.left("/opt/big"))

    def test_what_is_no_directory_is_told(self) -> None:
        for path in ("/opt/none", "/usr/bin/su", "/opt/bi"):
            with self.subTest(path), self.assertRaisesRegex(Failure, f"there is no directory '{path}', so it can't be"):
                self.skipped(path)


class Far(Systems):
    """How far the scan of the files is."""

    def test_how_many_where_and_for_how_long(self) -> None:
        system = self.system("""
[[thread]]
tid = 100

[[mounts]]
table = "1 1 8:1 / / rw - ext4 /dev/sda rw\\n2 1 0:9 / /srv/\\\\033[2J rw - nfs4 host:/ rw\\n"

[[folder]]
path = "/"
inodes = 5003

[[file]]
path = "/bin/a"
mode = "0755"

[[file]]
path = "/srv/\\u001b[2J/b"
mode = "0755"
mount = 2
""")
        read, told = family.settled(system, ROOT, False, 600.0, pause=lambda _: None), list[str]()
        clock = iter((100.0, 100.4, 162.0))
        Scan(system, read, (), told.append, lambda: next(clock)).rows()
        self.assertEqual(told, [
            "1 file looked at in 0 s, now below '/' (part 1 of 2, ext4 with 5003 inodes in use)",
            "2 files looked at in 62 s, now below '/srv/\\033[2J' (part 2 of 2, nfs4)"])


class Moving(Systems):
    """A system that is another one at each reading."""

    TEXT = "[[thread]]\ntid = 100\n\n[[thread]]\ntid = 101\nparent = 100\nuid = 1000\n" + MOUNTS

    def setUp(self) -> None:
        super().setUp()
        self.says: list[str] = []

    def settle(self, changes: list[dict[str, object]], running: bool = False) -> family.Family:
        """The family of a system in which before each reading the row of process 101 becomes the next of these, and
        then stays."""
        system = self.system(self.TEXT)
        waiting = iter(changes)
        clock = iter(range(1000))

        def pause(_: float) -> None:
            row = next(waiting, None)
            if row is not None:
                kept = [each for each in system.rows("thread") if each["tid"] != 101]
                system.table["thread"] = kept if row.get("gone") else [*kept, {"tid": 101, "parent": 100, **row}]
                system.build()
        return family.settled(system, ROOT, running, 12.0, self.says.append, lambda: float(next(clock)), pause)

    def test_two_readings_that_agree(self) -> None:
        self.assertEqual(self.settle([]).readings, 2)

    def test_readings_that_do_not_agree_are_told(self) -> None:
        self.settle([{"uid": 1001}, {"uid": 1002}])
        self.assertEqual(len(self.says), 3)
        self.assertEqual(self.says[1], "2 readings, and no two agree yet: process 101 ('daemon') changed")

    def test_a_change_is_read_again(self) -> None:
        read = self.settle([{"uid": 1001}])
        self.assertEqual((read.readings, read.threads[101].status.credential.uid), (3, (1001,) * 4))

    def test_equal_credentials_of_a_thread_that_ran_between_are_not_enough(self) -> None:
        # It may have had others meanwhile, while another process was looked at.
        with self.assertRaisesRegex(Failure, r"process 101 \('daemon'\) ran meanwhile"):
            self.settle([{"uid": 1000, "switches": count} for count in range(6, 20)])

    def test_a_thread_on_a_processor_is_not_taken(self) -> None:
        with self.assertRaisesRegex(Failure, "never held still in .* readings: process 101 .* ran meanwhile"):
            self.settle([{"uid": 1000, "waits": "running"}] * 14)

    def test_a_thread_that_waits_in_another_call_ran(self) -> None:
        with self.assertRaises(Failure):
            self.settle([{"uid": 1000, "waits": f"{count} 0x0"} for count in range(14)])

    def test_what_runs_is_taken_where_that_is_asked_for(self) -> None:
        read = self.settle([{"uid": 1000, "waits": "running"}] * 14, running=True)
        self.assertEqual((read.ran, read.readings), ((101,), family.TIMES))

    def test_what_changes_is_never_taken(self) -> None:
        with self.assertRaisesRegex(Failure, r"process 101 .*changed"):
            self.settle([{"uid": 1001 + count % 2} for count in range(14)], running=True)

    def test_another_process_of_the_same_number(self) -> None:
        read = self.settle([{"uid": 1000, "started": 999}])
        self.assertEqual(read.readings, 3)

    def test_a_process_that_comes_and_goes(self) -> None:
        with self.assertRaisesRegex(Failure, "process 101 came or went"):
            self.settle([{"gone": True} if count % 2 else {"uid": 1000} for count in range(1, 14)])

    def test_a_process_that_ends_while_it_is_read(self) -> None:
        system = self.system(self.TEXT)
        os.remove(system.proc.path(101, "task", 101, "status"))
        with self.assertRaisesRegex(Failure, "ended while it was read"):
            family.settled(system, ROOT, False, 0.0, pause=lambda _: None)

    def test_a_folder_without_its_file(self) -> None:
        system = self.system(self.TEXT)
        os.remove(system.proc.path(101, "task", 101, "stat"))
        with self.assertRaisesRegex(Failure, "ended while it was read"):
            family.settled(system, ROOT, False, 0.0, pause=lambda _: None)
        with self.assertRaisesRegex(Failure, "can't be listed"):
            family.processes(system, ROOT)

    def test_a_process_whose_namespaces_are_not_shown(self) -> None:
        system = self.system(self.TEXT)
        os.remove(system.proc.path(101, "task", 101, "ns", "user"))
        with self.assertRaisesRegex(Failure, "can't be looked into") as raised:
            family.settled(system, ROOT, False, 0.0, pause=lambda _: None)
        self.assertIn("$$", raised.exception.advice)

    def test_what_ran_is_told(self) -> None:
        system = self.system(self.TEXT.replace("uid = 1000", 'uid = 1000\nwaits = "running"'))
        read = family.settled(system, ROOT, True, 5.0, pause=lambda _: None)
        made = captured(system, read, Wishes(), lambda _: None)
        self.assertTrue(any("process 101 ran at each reading" in doubt for doubt in made.doubts))


if __name__ == "__main__":
    unittest.main()
