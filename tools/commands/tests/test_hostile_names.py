"""Names that whoever is captured or recorded may choose, in each place where a name can stand: each stays one name."""
import os
import re
import shutil
import tomllib
from unittest import mock

from credaudit_tools.capture import family
from credaudit_tools.capture.capture import Capture, Wishes, captured
from credaudit_tools.command_line import printable
from credaudit_tools.command_line.command import FAILED
from credaudit_tools.evidence import evidence_text
from credaudit_tools.formats import worlds
from credaudit_tools.formats.world_remarks import SCANNED
from credaudit_tools.lint import lint_command
from credaudit_tools.system import mounts, proc, program_rows
from credaudit_tools.system.kernel_questions import Program
from credaudit_tools.system.running_kernel import walk_tree
from credaudit_tools.trace import strace_options, trace_command
from credaudit_tools.verify import verify_command

from . import support
from .stored_system import StoredSystem

NAMES: list[str] = tomllib.loads(support.data("hostile_names.toml").decode())["names"]
MOUNTS = {"table": "1 1 8:1 / / rw - ext4 /dev/sda rw\n"}
HEADS = re.compile(r"^\[", re.M)
ROOT = 100


def octal(name: bytes) -> str:
    """A field of mountinfo: blanks, line feeds, tabs and backslashes in octal."""
    return "".join(f"\\{byte:03o}" if byte in b" \t\n\\" else chr(byte) for byte in name)


class Hostile(support.Case):
    """Each stored name in each place."""

    def setUp(self) -> None:
        super().setUp()
        self.system = StoredSystem("", os.path.join(self.work, "proc"))

    def capture(self, **rows: list[dict[str, object]]) -> Capture:
        self.system.table = {"thread": [{"tid": ROOT}], "mounts": [MOUNTS], **rows}
        self.system.build()
        read = family.settled(self.system, ROOT, False, 600.0, pause=lambda _: None)
        return captured(self.system, read, Wishes(), lambda _: None)

    def check(self, made: Capture) -> worlds.World:
        """What is written has no byte that is obeyed, and is read as the same rows."""
        data = worlds.written(made.world)
        self.assertFalse(set(data) - set(range(0x20, 0x7f)) - {0x0a}, data)
        read = worlds.read(data)
        self.assertEqual((read.log, read.files, read.processes), ("script", made.world.files, made.world.processes))
        self.assertEqual(len(HEADS.findall(data.decode())), len(read.files) + len(read.processes) + len(read.spaces))
        marks = [line for line in data.decode().split("\n") if line == "# " + SCANNED]
        self.assertEqual(len(marks), 1)
        evidence = evidence_text.world_text(made.evidence, data)
        self.assertFalse(set(evidence) - set(range(0x20, 0x7f)) - {0x0a}, evidence)
        self.assertEqual(evidence_text.of_world(evidence, data, "x").doubts, made.evidence.doubts)
        for told in made.notes + made.doubts:
            self.assertFalse(set(printable.shown(told)) - set(map(chr, range(0x20, 0x7f))), told)
        return read

    def test_there_are_enough(self) -> None:
        self.assertGreaterEqual(len(set(NAMES)), 40)

    def test_as_the_name_of_a_process(self) -> None:
        for name in NAMES:
            with self.subTest(name):
                # The kernel keeps 15 bytes of it; a longer one stands here, since it does no harm either.
                read = self.check(self.capture(thread=[{"tid": ROOT, "name": name},
                                                       {"tid": 101, "parent": ROOT, "name": name}]))
                self.assertEqual([(row.pid, row.parent) for row in read.processes], [(100, None), (101, 100)])
                self.assertEqual({row.credential.uid for row in read.processes}, {(0, 0, 0, 0)})

    def test_as_a_set_id_program(self) -> None:
        for name in NAMES:
            with self.subTest(name):
                path = "/opt/" + name
                read = self.check(self.capture(file=[{"path": path, "mode": "4755", "uid": 7}]))
                self.assertEqual([(row.uid, row.mode) for row in read.files], [(7, 0o4755)])
                self.assertTrue(program_rows.can_stand(read.files[0].path.encode()))

    def test_as_a_folder_of_two_programs(self) -> None:
        for name in NAMES:
            with self.subTest(name):
                rows: list[dict[str, object]] = [{"path": f"/opt/{name}/{file}", "mode": "4755"} for file in ("one",
                                                                                                              "two")]
                self.assertEqual(len({row.path for row in self.check(self.capture(file=rows)).files}), 2)

    def test_as_a_mount(self) -> None:
        for name in NAMES:
            with self.subTest(name):
                point = b"/mnt/" + name.encode("latin-1")
                line = f"2 1 8:2 / {octal(point)} rw - ext4 /dev/sdb rw\n"
                [mount] = mounts.table(line.encode("latin-1"))
                self.assertEqual((mount.point, mount.options, mount.runs_set_id()), (point, frozenset([b"rw"]), True))
                read = self.check(self.capture(mounts=[{"table": MOUNTS["table"] + line}],
                                               file=[{"path": f"/mnt/{name}/su", "mode": "4755", "mount": 2}]))
                self.assertEqual(len(read.files), 1)

    def test_as_an_interpreter(self) -> None:
        for name in NAMES:
            with self.subTest(name):
                start = f"#!/opt/{name} -x\n/opt/evil"
                made = self.capture(file=[{"path": "/usr/bin/tool", "mode": "4755", "start": start}])
                self.check(made)

    def test_as_what_cannot_be_looked_at(self) -> None:
        for name in NAMES:
            with self.subTest(name):
                made = self.capture(trouble=[{"path": f"/srv/{name}", "why": "Permission denied"}])
                self.check(made)
                self.assertEqual(len(made.doubts), 1)

    def test_as_a_control_group(self) -> None:
        for name in NAMES:
            with self.subTest(name):
                row = {"group": f"0::/{octal(name.encode('latin-1'))}"}
                made = self.capture(thread=[{"tid": ROOT, **row}, {"tid": 300, **row}])
                self.assertEqual([each.pid for each in self.check(made).processes], [ROOT])

    def test_names_are_told_apart(self) -> None:
        rows: list[dict[str, object]] = [{"path": "/opt/" + name, "mode": "4755"} for name in NAMES]
        files = self.check(self.capture(file=rows)).files
        self.assertEqual(len({row.path for row in files}), len(NAMES))


class Users(support.Case):
    """Each stored name as that of the user who is to run a program."""

    def test_as_the_name_of_a_user(self) -> None:
        for name in NAMES:
            word = os.fsdecode(name.encode("latin-1"))
            with self.subTest(name), mock.patch.object(proc, "needs_root", lambda _: None), \
                    mock.patch.object(strace_options, "find", return_value="strace"), \
                    mock.patch.object(strace_options, "version", return_value="6.1"):
                folder = os.path.join(self.work, "x")
                status, out, errors = self.told(trace_command.main, "-o", folder, "--user=" + word, "true")
                self.assertEqual((status, out), (FAILED, ""))
                self.assertFalse(set(errors) - set(map(chr, range(0x20, 0x7f))) - {"\n"}, errors)
                self.assertEqual(errors.count("\n"), 1)


class OnDisk(support.Case):
    """Files of these names in a folder that is walked, and as the arguments of the commands."""

    def made(self) -> list[bytes]:
        names = [name.encode("latin-1") for name in NAMES]
        names = [name for name in names if b"/" not in name and name not in (b".", b"..")]
        for name in names:
            self.put(b"tree/" + name, b"#!/bin/sh\n", 0o4755)
        return names

    def test_a_walk_finds_each_once(self) -> None:
        if not support.set_ids_stay(self.put("probe")):
            self.skipTest("no set-id bits here")
        names = self.made()
        top = os.open(os.path.join(self.work, "tree"), os.O_PATH | os.O_DIRECTORY)
        try:
            found = [each for each in walk_tree(top, b"/top", 0) if isinstance(each, Program)]
        finally:
            os.close(top)
        self.assertEqual(sorted(each.path for each in found), sorted(b"/top/" + name for name in names))

    def test_recordings_of_such_names_are_verified(self) -> None:
        for name in self.made():
            with self.subTest(name):
                folder = os.path.join(self.work, "recordings", os.fsdecode(name))
                shutil.copytree(os.path.join(support.DATA, "recordings", "daemon"), folder)
                status, out, errors = self.told(verify_command.main, folder)
                self.assertEqual((status, errors), (0, ""))
                self.assertFalse(set(out) - set(map(chr, range(0x20, 0x7f))) - {"\n"}, out)

    def test_the_lint_shows_no_byte_that_is_obeyed(self) -> None:
        for name in self.made():
            path = os.fsdecode(os.path.join(os.fsencode(self.work), b"tree", name))
            with self.subTest(name):
                status, out, errors = self.told(lint_command.main, path + "-world", path + "-log")
                self.assertEqual((status, out), (FAILED, ""))
                self.assertFalse(set(errors) - set(map(chr, range(0x20, 0x7f))) - {"\n"}, errors)
                self.assertEqual(errors.count("can't be read"), 2)
