"""What the commands share: names as they are shown, files that are read, errors, the program's runner, reports,
worlds, statuses."""
import os
import sys
import unittest
from unittest import mock

from credaudit_tools.command_line import command, files, printable
from credaudit_tools.command_line.command import Failure, Progress
from credaudit_tools.formats import kernel_names, report, worlds
from credaudit_tools.formats.credential import Credential, differences, field_text, four
from credaudit_tools.formats.statuses import from_file, from_line, line_of
from credaudit_tools.replay import program
from credaudit_tools.system.namespaces import map_text
from credaudit_tools.system.proc import Proc

from .support import Case

LINE = ("> 100 init uid=0,1,2,3 gid=4,5,6,7 groups=8,9 inh=0000000000000001 prm=0000000000000003 eff=0000000000000002"
        " bnd=000001ffffffffff amb=0000000000000001 sec=2f nnp=1")
STATUS = (b"Name:\t%b\nUmask:\t0022\nState:\tS (sleeping)\nTgid:\t100\nPid:\t100\nPPid:\t1\nTracerPid:\t0\n"
          b"Uid:\t0\t1\t2\t3\nGid:\t4\t5\t6\t7\nGroups:\t8 9 \nNSpid:\t100\nCapInh:\t0000000000000001\n"
          b"CapPrm:\t0000000000000003\nCapEff:\t0000000000000002\nCapBnd:\t000001ffffffffff\n"
          b"CapAmb:\t0000000000000001\nNoNewPrivs:\t1\nSeccomp:\t2\nSeccomp_filters:\t1\n")
# What a process calls itself, as the kernel writes it, and the name.
COMMS = [(b"plain", b"plain"), (b"a b", b"a b"), (b"a\\nUid:", b"a\nUid:"), (b"a\\\\n", b"a\\n"),
         (b"\x1b[2J", b"\x1b[2J"), (b"; Pid: 1", b"; Pid: 1"),
         (b"\xff", b"\xff"), (b"<x>", b"<x>"), (b'"', b'"'), (b"Space: 7", b"Space: 7"), (b"", b"")]


class Names(unittest.TestCase):
    def test_words_come_back(self) -> None:
        for name in (b"a", b"a b", b"\\", b"\\134", b"\n", b"\x1b]0;x\x07", b"\xff", bytes(range(256))):
            word = printable.escaped(name, b";:")
            self.assertEqual(printable.unescaped(word), name)
            self.assertTrue(all("!" <= each <= "~" and each not in ";:" for each in word), word)

    def test_nothing_reaches_a_terminal(self) -> None:
        for name in ("a\x1b[31mb", "a\rb", "a\nb", "\u202ex", "\udcff", "\x9b2J"):
            self.assertTrue(all(" " <= each <= "~" for each in printable.quoted(name)), name)

    def test_capabilities(self) -> None:
        self.assertEqual(kernel_names.capability_text("all"), kernel_names.ALL)
        self.assertEqual(kernel_names.capability_text("CAP_CHOWN,CAP_SETUID"), 0x81)
        self.assertEqual(kernel_names.capability_text("FFFFFFFFFFFFFFFF"), kernel_names.ALL)
        self.assertIsNone(kernel_names.capability_text("cap_chown"))
        self.assertEqual([kernel_names.capability_names(bits) for bits in (0, kernel_names.ALL, 0x81)],
                         ["none", "all", "CAP_CHOWN,CAP_SETUID"])


class Files(Case):
    def test_regular_files_alone(self) -> None:
        path = self.put("x", b"text")
        self.assertEqual(files.read_regular(path), b"text")
        self.link("link", path)
        os.mkfifo(os.path.join(self.work, "pipe"))
        for name, why in (("link", "Too many levels"), ("pipe", "a pipe"), (".", "a directory"),
                          ("none", "No such file")):
            with self.subTest(name), self.assertRaisesRegex(Failure, why):
                files.read_regular(os.path.join(self.work, name))
        self.assertEqual(files.read_regular(os.path.join(self.work, "link"), follow=True), b"text")
        with self.assertRaisesRegex(Failure, "a device"):
            files.read_regular("/dev/null")
        with self.assertRaisesRegex(Failure, "more than 3 bytes"):
            files.read_regular(path, 3)
        self.assertEqual([files.kind(mode) for mode in (0o120000, 0o140000, 0)],
                         ["a symbolic link", "a socket", "another kind of file"])

    def test_nothing_is_written_through_a_link(self) -> None:
        victim = self.put("victim", b"before")
        part = os.path.join(self.work, "x.part")
        for symbolic in (True, False):
            os.symlink(victim, part) if symbolic else os.link(victim, part)
            files.write_new(self.work, "x", b"after")
            self.assertEqual(files.read_regular(victim), b"before")
            self.assertEqual(files.read_regular(os.path.join(self.work, "x")), b"after")
            self.assertFalse(os.path.lexists(part))


class Commands(Case):
    def test_failures_are_told(self) -> None:
        def fails(_: object) -> int:
            raise Failure("no \x1b[31m", "do this")

        def refused(_: object) -> int:
            raise FileNotFoundError(2, "No such file", b"a\nb")

        def closed(_: object) -> int:
            raise BrokenPipeError

        self.assertEqual(self.told(fails), (3, "", "test: no \\033[31m\ntest: do this\n"))
        self.assertEqual(self.told(refused), (3, "", "test: No such file: a\\012b\n"))
        with mock.patch("os.dup2"), mock.patch("sys.stdout", mock.Mock(fileno=lambda: 1)):
            self.assertEqual(command.carried_out("test", closed, []), 3)
        with self.assertRaises(SystemExit), mock.patch.object(sys, "argv", ["test"]):
            command.run("test", lambda _: 0)

    def test_progress(self) -> None:
        now, told = [0.0], []
        patience = mock.patch.object(command, "PATIENCE", 1.0)
        with patience, mock.patch.object(command, "tell", lambda _, text: told.append(text)):
            progress = Progress("test", lambda: now[0])
            for now[0], text in ((0.5, "a"), (1.5, "b"), (2.0, "c"), (7.0, "d"), (13.0, "d"), (14.0, "e")):
                progress.at(text)
        self.assertEqual(told, ["b", "d", "e"])


class Runner(Case):
    def test_found(self) -> None:
        own = self.put("credaudit", b"#!/bin/sh\nexit 3\n", 0o755)
        with mock.patch.dict(os.environ, {"CREDAUDIT": own}):
            self.assertEqual(program.find(), own)
            self.assertEqual(program.Program().run("x").status, 3)
        with mock.patch.dict(os.environ, {"PATH": self.work}), mock.patch.dict(os.environ):
            del os.environ["CREDAUDIT"]
            self.assertEqual(program.find(), own)
        with mock.patch.dict(os.environ, {"CREDAUDIT": self.work}), self.assertRaisesRegex(Failure, "isn't there"):
            program.find()

    def test_fails(self) -> None:
        for text, why in ((b"#!/bin/sh\nkill -9 $$\n", "killed by signal 9"), (b"#!/nowhere\n", "can't be started"),
                          (b"#!/bin/sh\nprintf 'end'\n", "ends within a line")):
            path = self.put("x", text, 0o755)
            with self.subTest(why), self.assertRaisesRegex(Failure, why):
                program.Program(path).replay_texts(b"", b"")


class Reports(unittest.TestCase):
    def test_a_report(self) -> None:
        child = LINE.replace("> 100", "> 101")
        told = report.read(f"{LINE}\n2: 100 fork = 101\n{LINE}\n{child}\n5: 101 exit = 0\nend 2\nno 1\n"
                           "101 setuid 0 = 0\nholder 101\n", 1)
        self.assertEqual((told.start[0].pid, told.start[0].space, told.status), (100, "init", 1))
        own = told.start[0].credential
        self.assertEqual((own.uid, own.gid, own.groups, own.sec, own.nnp),
                         ((0, 1, 2, 3), (4, 5, 6, 7), frozenset({8, 9}), 0x2f, True))
        self.assertEqual([(each.line, each.call, each.result, len(each.after)) for each in told.events],
                         [(2, "fork", "101", 2), (5, "exit", "0", 0)])
        self.assertEqual(told.ending, ["end 2", "no 1", "101 setuid 0 = 0", "holder 101"])
        self.assertEqual(sorted(told.alive()), [100])

    def test_no_groups(self) -> None:
        told = report.read(LINE.replace("8,9", "-") + "\n", 0)
        self.assertEqual(told.start[0].credential.groups, frozenset())


class Worlds(unittest.TestCase):
    def test_a_world_comes_back(self) -> None:
        own = Credential(four([0]), four([1, 2, 3, 4]), frozenset({7}), 1, 3, 2, kernel_names.ALL, 1, 5, True)
        world = worlds.World(
            "script", [worlds.Space("a", "init", 7, ((0, 7, 1),), None, "deny", True)],
            [worlds.Mount("m", "a", True, True, ((0, 1, 2),), None, ((0, 3, 1),), ((0, 4, 1),))],
            [worlds.File("/x", 0, 0, 0o4755, "m", "01", None), worlds.File("/y", 0, 0, 0o755, interpreter="/x")],
            [worlds.Process(100, own), worlds.Process(101, own, 100, "a")], ["setuid"], ["a\nb"])
        text = worlds.written(world)
        self.assertTrue(text.startswith(b"# a\\x0ab\nlog = "))
        back = worlds.read(text)
        back.remarks = world.remarks
        self.assertEqual(back, world)

    def test_names_end_no_text(self) -> None:
        for name in ('a"b', "a\\b", "a\nb", 'a"""b', "\x1b", "\u202e", "]]"):
            world = worlds.World(files=[worlds.File(name, 0, 0, 0)])
            self.assertEqual(worlds.read(worlds.written(world)).files[0].path, name)

    def test_what_can_not_be_read(self) -> None:
        for text in (b"x", b"\xff", b"log = 1\n[[process]]\n", b"log = 'x'\n[[process]]\npid = 1\npermitted = 'x'\n",
                     b"log = 'x'\n[[process]]\npid = 1\nuid = [1, 2]\n", b"[[x]]\n"):
            with self.subTest(text), self.assertRaises(Failure):
                worlds.read(text)

    def test_defaults(self) -> None:
        world = worlds.read(b"\xef\xbb\xbflog = 'script'\n[[process]]\npid = 1\n[[process]]\npid = 2\nuid = 7\n")
        self.assertEqual([each.credential.prm for each in world.processes], [kernel_names.ALL, 0])


class Statuses(unittest.TestCase):
    def test_names_add_no_part(self) -> None:
        for told, name in COMMS:
            with self.subTest(name):
                status = from_file(STATUS % told)
                self.assertEqual((status.name, status.credential.uid, status.filters), (name, (0, 1, 2, 3), 1))
                back = from_line(line_of(status))
                self.assertEqual((back.pid, back.name, back.credential, back.space), (100, name, status.credential, 0))

    def test_differences(self) -> None:
        one = from_file(STATUS % b"x").credential
        changed = (STATUS % b"x").replace(b"Uid:\t0", b"Uid:\t9").replace(b"NoNewPrivs:\t1", b"NoNewPrivs:\t0")
        other = from_file(changed).credential
        self.assertEqual(differences(one, other), [("uid", "0,1,2,3", "9,1,2,3"), ("nnp", "1", "0")])
        self.assertEqual([field_text("sec", 5), field_text("sec", None), field_text("groups", frozenset())],
                         ["05", "not known", "-"])


class Stored(Case):
    def test_proc(self) -> None:
        self.put("100/status", b"x")
        self.put("100/task/100/status")
        self.put("100/task/101/status")
        self.put("notes")
        self.link("100/fd/3", "/x")
        self.link("100/cwd", "/home")
        tree = Proc(self.work)
        self.assertEqual((tree.pids(), tree.tasks(100), tree.threads(), tree.tasks(7)),
                         ([100], [100, 101], [100, 101], []))
        self.assertEqual((tree.read(100, "status"), tree.read(7, "status")), (b"x", None))
        self.assertEqual((tree.link(100, "cwd"), tree.link(100, "exe"), tree.descriptors(100), tree.descriptors(7)),
                         ("/home", None, {3: "/x"}, {}))

    def test_maps(self) -> None:
        self.assertEqual(map_text(b"         0       1000          1\n"), ((0, 1000, 1),))
        self.assertEqual(map_text(None), ())
