"""credaudit-summary on answers of the program that are told by hand from the formats, and on stored recordings."""
import contextlib
import json
import os
import shutil
import tomllib
import unittest
from collections.abc import Callable
from dataclasses import replace
from unittest import mock

from credaudit_tools.command_line import schemas
from credaudit_tools.command_line.command import BROKEN, FAILED, FOUND, GOOD, USAGE, Failure
from credaudit_tools.formats import rights, worlds
from credaudit_tools.formats.kernel_names import CAPABILITIES
from credaudit_tools.formats.rights import Right
from credaudit_tools.formats.world_remarks import SCANNED
from credaudit_tools.formats.worlds import File, Mount, World
from credaudit_tools.judge import acting_caps, classes
from credaudit_tools.judge.classes import Outcome
from credaudit_tools.judge.program_questions import Asking, Files, shortened
from credaudit_tools.lint import lint_command
from credaudit_tools.replay import recording
from credaudit_tools.replay.program import PIECE, Program, tail_of
from credaudit_tools.summary import summary, summary_command
from credaudit_tools.verify import verify_command

from .. import support
from ..plain_program import Plain
from ..told_program import CERTIFICATE, YES, Answers, Told, no
from ..told_rows import file_row, space_row

# A daemon that root starts, with two capabilities; it becomes the user 33 and keeps its saved user id.
WORLD = f"""# {SCANNED}
log = "script"
{file_row("/usr/bin/su", "4755")}[[process]]
pid = 100
groups = [4]
permitted = "CAP_KILL,CAP_SETUID"
effective = "CAP_KILL,CAP_SETUID"
"""
LOG = "100 setresuid 33 33 0 = 0\n"
BOX = space_row("box", 0, [[0, 7, 1]], [[0, 7, 1]])
RAISE = "100 capset 0000000000000080 0000000000000080 0000000000000000 = 0"
OWN, SU = "100 setresuid -1 0 -1 = 0", "100 execve /usr/bin/su = 0"
ANSWERS: Answers = {
    ("real", "uid:33"): no(100), ("real", "uid:0"): no(100, RAISE, OWN), ("own", "uid:0"): no(100, RAISE, OWN),
    ("real", "gid:0"): no(101, RAISE, SU, OWN),
    ("real", "gid:4"): f"undecided exec_gid fresh(init)\n{CERTIFICATE}\n",
    ("if-1", "gid:4"): f"undecided exec_gid fresh(init)\n{CERTIFICATE}\n", ("if-2", "uid:0"): no(100, OWN)}
NEEDED = {"uid:0": OWN, "gid:0": SU}       # without which the program doesn't confirm a run
START = ["uid:0", "gid:0", "gid:4", "cap:CAP_KILL@init", "cap:CAP_SETUID@init"]
HAD = ["uid:0", "uid:33", *START[1:]]
MADE = [f"cap:CAP_{name}@#2" for name in CAPABILITIES]


class Case(support.Case):
    """A world and a log, and a program that is told what to answer."""

    def setUp(self) -> None:
        super().setUp()
        self.program = Told(None, ANSWERS, confirms=lambda right, run: 100 if NEEDED[right] in run else None)

    def names(self, world: str = WORLD, log: str = LOG) -> list[str]:
        return [self.put("world.toml", world.encode()), self.put("log", log.encode())]

    def command(self, *given: str) -> tuple[int, str, str]:
        with mock.patch.object(summary_command, "Program", lambda: self.program):
            return self.told(summary_command.main, *given)

    def words(self, *given: str) -> str:
        """What it writes, without the folds."""
        return support.unfolded(self.command(*given)[1])


class Whole(Case):
    def test_the_verdict_comes_first_and_equal_lines_are_one(self) -> None:
        status, out, errors = self.command(*self.names(), "100")
        self.assertEqual((status, errors), (GOOD, ""))
        self.assertEqual(out.split("\n"), [
            "process 100: of 6 rights 1 comes back by its own calls, 1 comes back through programs, 1 is open, 1",
            "    is held, 2 are gone by its own calls",
            "process 100: real user 33, effective user 33, saved user 0, fs user 33; group 0; groups 4; no",
            "    capabilities (permitted CAP_KILL, CAP_SETUID); bounding set all capabilities",
            "uid:0   regained by its own calls: process 100 takes these user ids: effective 0",
            "uid:33  held by process 100 (effective user id)",
            "gid:0   regained through /usr/bin/su: process 100 executes /usr/bin/su (set-user-ID 0)",
            "gid:4   open: a set-group-ID program that a member may run lets it in, in user namespaces that are",
            "        made later in init (rule exec_gid, row fresh(init)): set no_new_privs in every member; mount",
            "        nosuid; exclude execve",
            "2 capabilities over init (CAP_KILL, CAP_SETUID):", "        gone by its own calls",
            "with no_new_privs 3 of 3 gone by its own calls", "with an empty bounding set 2 of 3 gone by its own calls",
            "with a filter of the calls that take ids, capabilities or user namespaces 2 of 3 gone by its own",
            "    calls", ""])

    def test_many_capabilities_have_one_line(self) -> None:
        """A daemon that forgot its saved user id: the program's answers on 41 capabilities are the same."""
        sets = ("000001ffffffffff", "000001ffffffffff", "0000000000000000")
        names = [f"cap:CAP_{name}@init" for name in CAPABILITIES]
        run = no(100, f"100 capset {' '.join(sets)} = 0")
        own = no(100, f"100 capset {' '.join(sets)} = 0", "100 setresgid -1 0 -1 = 0")
        answers: Answers = {(kind, right): run for kind in ("real", "own") for right in names}
        answers |= {(kind, "gid:0"): own for kind in ("real", "own")}
        answers |= {("real", names[7]): YES}
        world = 'log = "script"\n[[process]]\npid = 100\n'
        self.program = Told(None, answers)
        with mock.patch.object(Told, "run", Plain().run):
            _, out, _ = self.command(*self.names(world, "100 setresuid 33 33 0 = 0\n"), "100")
        lines = support.unfolded(out).split("\n")
        self.assertIn("40 capabilities over init (all but CAP_SETUID): regained by its own calls: process 100 makes"
                      " all that is permitted effective", lines)
        self.assertIn("gid:0 regained by its own calls: process 100 makes all that is permitted effective, then takes"
                      " these group ids: effective 0", lines)
        self.assertTrue(any(line.startswith("cap:CAP_SETUID@init not called gone: power: ") for line in lines), lines)
        self.assertEqual(len(lines), 10)

    def test_no_line_is_wide(self) -> None:
        kept = os.path.join(self.work, "kept")
        choices: list[list[str]] = [[], ["--why", "uid:0"], ["--certificates", kept]]
        for given in choices:
            _, out, _ = self.command(*self.names(), "100", *given)
            self.assertLessEqual(max(map(len, out.split("\n"))), 100, out)

    def test_the_questions(self) -> None:
        self.command(*self.names(WORLD.replace("[[file]]", BOX + "[[file]]"), LOG + "100 unshare = 0\n"), "100")
        asked = self.program.asked
        self.assertEqual({right for word, kind, right in asked if (word, kind) == ("audit", "own")}, {"uid:0", "gid:0"})
        box = {right.replace("#2", "box") for right in MADE}
        self.assertEqual({right for word, kind, right in asked if word in ("audit", "check") and kind == "real"},
                         {*HAD, *MADE, *box, *(each.text() for each in acting_caps.RIGHTS)})
        own = self.program.worlds["own"]
        self.assertEqual((own.files, own.processes[0].space), ([], "made-2"))
        [limited, unbounded, filtered] = [self.program.worlds[f"if-{number}"] for number in range(3)]
        self.assertEqual([len(each.files) for each in (limited, unbounded, filtered)], [1, 1, 1])
        self.assertTrue(limited.processes[0].credential.nnp)
        self.assertEqual(unbounded.processes[0].credential.bnd, 0)
        self.assertIn("setresuid", filtered.exclude or [])

    def captured(self, *doubts: str) -> str:
        """What is told of a captured world, which has no log."""
        scan = self.put_scan("captured.toml", worlds.read(WORLD.encode()), *doubts)
        return self.words(scan, self.put("empty"), "100", "--right", "cap:CAP_FOWNER@init")

    def what_ifs(self, *given: str) -> list[str]:
        """What is told of other starts."""
        return [line for line in self.words(*given).split("\n") if line.startswith("with ")]

    def test_other_starts_are_judged_by_their_evidence(self) -> None:
        """A real user id of root's comes back under no_new_privs (docs/KERNEL.md); what is doubted of the whole stays
        so; what the check refuses counts for nothing."""
        world, empty = worlds.read(WORLD.encode()), self.put("empty")
        told = self.what_ifs(self.put_scan("captured.toml", world), empty, "100")
        self.assertEqual([told[0], told[1], told[2].split("namespaces ")[1]], [
            "with no_new_privs 3 of 3 gone", "with an empty bounding set 2 of 3 gone", "2 of 3 gone"])
        doubted = self.what_ifs(self.put_scan("captured.toml", world, "/srv can't be read"), empty, "100")
        self.assertEqual([line.split()[-4] for line in doubted], ["0", "0", "0"])
        self.program.sound = False
        refused = self.what_ifs(self.put_scan("captured.toml", world), empty, "100")
        self.assertEqual([line.split()[-4] for line in refused], ["0", "0", "0"])
        self.program.sound = True
        [row] = world.processes
        own = replace(row.credential, uid=(0, 33, 33, 33))
        world.processes, world.exclude = [replace(row, credential=own)], ["no_new_privs"]
        told = self.what_ifs(self.put_scan("captured.toml", world), empty, "100", "--right", "gid:0")
        self.assertEqual(told[0], "with no_new_privs 2 of 3 gone")

    def test_a_captured_world(self) -> None:
        self.assertIn("(CAP_KILL, CAP_SETUID, CAP_FOWNER): gone\n", self.captured())

    def test_a_captured_world_with_a_doubt(self) -> None:
        self.assertIn(", CAP_FOWNER): not called gone: scan: /srv can't be read\n", self.captured("/srv can't be read"))

    def test_a_captured_world_with_another_log(self) -> None:
        scan = self.put_scan("captured.toml", worlds.read(WORLD.encode()))
        self.assertIn("2 capabilities over init (CAP_KILL, CAP_SETUID): gone by its own calls\n",
                      self.words(scan, self.put("log", LOG.encode()), "100"))

    def test_the_word_of_a_writer(self) -> None:
        status, out, _ = self.command(*self.names(), "100", "--why", "cap:CAP_KILL@init")
        lines = support.unfolded(out.replace("\n  ", "\n* ").replace("\n*     ", "\n      ")).split("\n")[:-1]
        self.assertEqual((status, lines[0]), (GOOD, "cap:CAP_KILL@init: gone-by-own-calls"))
        self.assertIn("* births: each process of the family is in the log from its birth to its end. Established: the"
                      " word of who wrote the world and the log", lines)
        self.assertIn("* scan: all programs with set-id bits or capabilities were looked for. Doubted: nothing"
                      " establishes it", lines)

    def test_who_says_what_an_install_excludes(self) -> None:
        """A world without [filter]. Of a family that has a filter, its own or by inheritance, it isn't said that there
        is none."""
        log = "100 no_new_privs 1 = 0\n100 install setuid = 0\n100 fork = 101\n101 fork = 102\n101 exit = 0\n"
        names = self.names(WORLD + "[[process]]\npid = 200\nuid = 7\n", log)
        none = "; the world declares none, and the log installs none that a member has"
        for pid, more in (("100", ""), ("102", ""), ("200", none)):
            with self.subTest(pid), mock.patch.object(summary_command, "Program", Plain):
                _, out, _ = self.told(summary_command.main, *names, pid, "--why", "cap:CAP_KILL@init")
                self.assertIn(f"for the process that makes it. Established: {summary.BY_HAND}{more} securebits: ",
                              " ".join(out.split()))

    def test_a_child_had_what_its_ancestor_had(self) -> None:
        log = "100 fork = 101\n101 fork = 102\n101 exit = 0\n102 setresuid 5 5 5 = 0\n"
        _, out, _ = self.command(*self.names(WORLD, log), "102", "--classes", "-")
        self.assertEqual([line.split(" ")[0] for line in out.split("\n")[:-1]], ["uid:0", "uid:5", *START[1:]])

    def test_ids_of_all_kinds(self) -> None:
        world = WORLD.replace("[[file]]", BOX + "[[file]]").replace(
            "groups = [4]", 'groups = [4]\nuid = [1, 2, 3, 4]\ngid = [5, 6, 7, 5]\nspace = "box"')
        _, out, _ = self.command(*self.names(world, ""), "100", "--classes", "-")
        self.assertEqual([line.split(" ")[0] for line in out.split("\n")[:-1]],
                         ["uid:2", "uid:1", "uid:3", "uid:4", "uid:7", "gid:6", "gid:5", "gid:7", "gid:4",
                          "cap:CAP_KILL@box", "cap:CAP_SETUID@box"])

    def test_who_started_others(self) -> None:
        self.assertIn("; with 2 processes that it started\n",
                      self.words(*self.names(WORLD, "100 fork = 101\n100 fork = 102\n"), "100"))

    def test_a_run_over_names_of_the_end_comes_back(self) -> None:
        join = "100 setns made-2 = 0"
        answers = {("real", "uid:0"): no(100, "100 setns #2 = 0", SU), ("own", "uid:0"): no(100, join)}
        self.program = Told(None, answers)
        out = self.words(*self.names(WORLD.replace("[[file]]", BOX + "[[file]]"), LOG + "100 unshare = 0\n"), "100")
        self.assertIn("uid:0 regained by its own calls: process 100 (in #2) enters the user namespace #2\n", out)

    def test_a_run_that_needs_all_its_calls(self) -> None:
        self.program.confirms = lambda right, run: None
        out = self.words(*self.names(), "100")
        self.assertIn("regained by its own calls: process 100 makes all that is permitted effective: CAP_SETUID;"
                      " inheritable no capabilities, then takes these user ids: effective 0\n", out)
        self.assertIn("2 capabilities over init (CAP_KILL, CAP_SETUID): gone by its own calls\n", out)

    def test_a_run_that_needs_no_program(self) -> None:
        self.program.confirms = lambda right, run: 100 if OWN in run else None
        self.assertIn("gid:0 regained by its own calls: process 100 takes these user ids: effective 0\n",
                      self.words(*self.names(), "100"))

    def test_a_certificate_that_the_check_refuses(self) -> None:
        self.program.sound = False
        self.assertIn("CAP_SETUID): not called gone: the program's check doesn't accept the program's certificate\n",
                      self.words(*self.names(), "100"))

    def test_certificates(self) -> None:
        folder = os.path.join(self.work, "kept")
        _, out, _ = self.command(*self.names(), "100", "--certificates", folder)
        self.assertEqual(sorted(os.listdir(folder)), ["cap:CAP_KILL@init.json", "cap:CAP_SETUID@init.json"])
        self.assertIn(f"CAP_SETUID): gone by its own calls (certificate in {folder})\n", support.unfolded(out))

    def test_the_files_of_a_scan(self) -> None:
        scan = World("script", mounts=[Mount("nosuid", nosuid=True)],
                     files=[File("/usr/bin/su", 5, 5, 0o4755), File("/opt/x", 0, 0, 0o2755, mount="nosuid")])
        path, folder = self.put_scan("scan.toml", scan), os.path.join(self.work, "kept")
        _, out, _ = self.command(*self.names(), "100", "--files", path, "--certificates", folder)
        self.assertIn("CAP_SETUID): gone by its own calls (", support.unfolded(out))
        asked = self.program.worlds["real"]
        self.assertEqual([(each.path, each.uid) for each in asked.files],
                         [("/usr/bin/su#2", 0), ("/usr/bin/su", 5), ("/opt/x", 0)])
        with open(os.path.join(folder, "world.toml"), "rb") as file:
            self.assertEqual(worlds.read(file.read()).files, asked.files)
        for mount in (Mount("root", noexec=True), Mount("nosuid", space="box")):
            scan.mounts = [mount]
            own = WORLD.replace("[[file]]", BOX + '[[mount]]\nname = "root2"\n[[file]]').replace("root2", mount.name)
            self.assertEqual(self.command(*self.names(own), "100", "--files",
                                          self.put("scan.toml", worlds.written(scan)))[0], FAILED)

    def test_json(self) -> None:
        expected = b"uid:0 gone\n* gone-by-own-calls,held,program,open\n"
        status, out, _ = self.command(*self.names(), "100", "--json", "--expect", self.put("expect", expected))
        self.assertEqual(status, FOUND)
        self.assertTrue(out.startswith('{\n "format": 2,'))
        told = json.loads(out)
        self.assertTrue(schemas.fits(told, summary.SCHEMA), out)
        self.assertEqual(told["unexpected"], [{"process": 100, "right": "uid:0", "class": "own-calls",
                                               "expected": ["gone"]}])
        self.assertEqual(told["answers"][0]["rights"][2]["programs"], ["/usr/bin/su"])
        _, out, _ = self.command(*self.names(), "100", "--json")
        [held] = [each for each in json.loads(out)["answers"][0]["rights"] if each["class"] == classes.HELD]
        self.assertEqual((held["right"], held["holder"], held["reasons"]),
                         ("uid:33", 100, ["process 100 (effective user id)"]))

    def test_a_forgotten_setgroups_that_is_not_seen(self) -> None:
        world = WORLD.replace("groups = [4]\n", "").replace("CAP_KILL,CAP_SETUID", "CAP_KILL,CAP_SETGID")
        note = " began without supplementary groups, and setgroups was never called"
        for log, pid, told in (
                ("", "100", "100"), ("100 setgroups = 0\n", "100", ""), ("100 setgroups 7 = 0\n", "100", ""),
                ("100 setgroups = ENOMEM\n", "100", "100"),
                ("100 fork = 101\n101 fork = 102\n101 setgroups = 0\n", "102", "102"),
                ("100 fork = 101\n101 setgroups = 0\n101 fork = 102\n", "102", ""),
                ("100 fork = 101\n101 setgroups = 0\n", "100", "100"),
                ("100 fork = 101\n100 fork = 102\n101 setgroups = 0\n100 setgroups = 0\n", "100", "102"),
                ("100 fork = 101\n100 setgroups 4 = 0\n100 fork = 102\n", "100", "101"),
                ("100 fork = 101\n101 setgroups = 0\n101 exit = 0\n", "100", "100"),
                ("100 fork = 101\n101 setgroups = 0\n101 exit = 0\n100 fork = 101\n", "101", "101")):
            with self.subTest(log), mock.patch.object(Told, "run", Plain().run):
                _, _, errors = self.command(*self.names(world, log), pid)
                self.assertEqual(f"note: process {told}{note}" in errors, bool(told), errors)
                self.assertEqual(note in errors, bool(told), errors)
        self.assertNotIn(note, self.command(*self.names(), "100")[2])

    def test_what_is_suspect_is_told(self) -> None:
        _, _, errors = self.command(*self.names(WORLD, LOG.rstrip("\n")), "100")
        self.assertIn("note: suspect: ", errors)
        many = WORLD + "".join(f"[[process]]\npid = {number}\n" for number in (1, 2))
        self.assertIn("has no parent", self.command(*self.names(many), "100")[2])


class Statuses(Case):
    def test_statuses(self) -> None:
        names = self.names()
        good = self.put("good", self.command(*names, "100", "--classes", "-")[1].encode())
        odd, cut = self.put("odd", b"log = 1\n"), self.put("bad", b"100 jump = 0\n")
        rows: list[tuple[int, list[str]]] = [
            (GOOD, [*names, "100", "--expect", good]), (FOUND, [*names, "100", "--expect", self.put("x", b"* gone\n")]),
            (USAGE, [*names, "0"]), (USAGE, [*names]), (USAGE, [*names, "100", "7"]), (USAGE, []),
            (USAGE, [*names, "100", "--right", "uid"]), (FAILED, [*names, "7"]), (FAILED, [names[0]]),
            (FAILED, [names[0], names[1] + "x", "100"]), (FAILED, [*names, "100", "--expect", odd]),
            (FAILED, [*names, "100", "--certificates", odd]), (BROKEN, [names[0], cut, "100"]),
            (BROKEN, [self.put("bad.toml", b"x"), names[1], "100"]), (FAILED, [self.work])]
        for status, given in rows:
            with self.subTest(given):
                self.assertEqual(self.command(*given)[0], status)
        self.program.default = "bad query: right\n"
        self.assertEqual(self.command(*names, "100")[0], FAILED)

    def test_the_rights_of_the_expected_classes_are_asked_for(self) -> None:
        path = self.put("expect", b"uid:33 held\n# a remark\ncap:CAP_KILL@init gone-by-own-calls,held # another\n"
                                  b"* gone-by-own-calls,open,own-calls\n")
        status, out, errors = self.command(*self.names(), "100", "--expect", path)
        self.assertIn("uid:33  held by process 100 (effective user id)", out)
        told = "credaudit-summary: gid:0 is program, and expected is gone-by-own-calls or open or own-calls\n"
        self.assertEqual((status, errors), (FOUND, told))


class Recordings(Case):
    def folder(self, name: str, stored: str | None = None) -> str:
        path = os.path.join(self.work, name)
        shutil.copytree(os.path.join(support.DATA, "recordings", stored or name), path)
        return path

    def test_a_recording(self) -> None:
        folder = self.folder("daemon")
        self.program.default = no(100)
        status, out, _ = self.command(folder)
        self.assertEqual(status, GOOD)
        self.assertIn("uid:0 ", out)
        self.assertEqual(self.command(folder, "100")[0], GOOD)
        self.assertEqual(self.command(folder, "4000")[0], FAILED)

    def test_a_broken_one(self) -> None:
        folder = self.folder("daemon")
        log = os.path.join(folder, "log")
        with open(log, "rb") as file:
            data = file.read()
        with open(log, "wb") as file:
            file.write(data[:-9])
        status, out, errors = self.command(folder)
        self.assertEqual((status, out), (BROKEN, ""))
        self.assertIn("the recording isn't true: log isn't as it was recorded: its sum differs", errors)
        os.remove(os.path.join(folder, "status.txt"))
        self.assertEqual(self.command(folder)[0], FAILED)

    def test_its_doubts(self) -> None:
        folder = self.folder("daemon")
        kept = recording.read(folder)
        assert kept.made is not None
        kept.made.evidence.doubt("births", "a child went on untraced")
        recording.write(folder, kept)
        _, out, _ = self.command(folder)
        self.assertIn("not called gone: births: a child went on untraced", out)

    def test_its_files_by_their_names(self) -> None:
        """They count as written by hand, and what the recorder doubted stays."""
        folder = self.folder("daemon")
        names = [os.path.join(folder, name) for name in ("world.toml", "log")]
        self.assertIn("(all but CAP_SYS_RESOURCE): gone by its own calls\n", self.words(*names, "100"))
        kept = recording.read(folder)
        assert kept.made is not None
        kept.made.evidence.doubt("births", "a child went on untraced")
        recording.write(folder, kept)
        self.assertIn("not called gone: births: a child went on untraced", self.command(*names, "100")[1])
        with contextlib.chdir(folder):
            self.assertIn("not called gone: births: a child", self.command("world.toml", "log", "100")[1])

    def test_one_that_was_altered(self) -> None:
        folder = self.folder("daemon")
        for name in ("recording.toml", "world.toml", "changes.txt"):
            path = os.path.join(folder, name)
            with open(path, "rb") as file:
                data = file.read()
            self.put("daemon/" + name, data.replace(b"a", b"e", 1))
            with self.subTest(name):
                status, out, errors = self.command(folder)
                self.assertEqual((status, out), (BROKEN, ""))
                self.assertIn("isn't as it was", errors)
            self.put("daemon/" + name, data)

    def test_one_of_an_older_form(self) -> None:
        """Nothing of it is called gone, with a scan or without."""
        folder = self.folder("daemon")
        kept = recording.read(folder)
        assert kept.made is not None
        sums = [f'"{name}" = "{told}"' for name, told in kept.made.sums.items() if name in ("log", "status.txt")]
        older = ['strace = "6.1"', 'kernel = "6.18.44"', 'end = "time"', "doubts = []", "notes = []", "[sums]", *sums]
        self.put("daemon/recording.toml", "".join(line + "\n" for line in older).encode())
        scan = ["--files", self.put_scan("scan.toml", World("script"))]
        for words in ([folder], [folder, *scan]):
            status, out, errors = self.command(*words)
            self.assertEqual(status, GOOD, errors)
            self.assertNotIn("  gone", out)
            self.assertIn("not called gone: births: nothing establishes it; ", out)
            self.assertIn("this recording is of an older form", errors)
        for main, status in ((verify_command.main, GOOD), (lint_command.main, FOUND)):
            told = self.told(main, folder)
            self.assertEqual(told[0], status)
            self.assertIn("is of an older form", "".join(told[1:]))
        os.remove(os.path.join(folder, "recording.toml"))
        status, out, errors = self.command(folder, *scan)
        self.assertNotIn("  gone", out)
        self.assertIn("this recording is of an older form", errors)

    def scanned(self, name: str, folder: str | None = None) -> str:
        """A stored recording in a folder, which tells where its threads stood, as the scans of tests do."""
        path = self.folder(name, *([] if folder is None else [folder]))
        kept = recording.read(path)
        assert kept.made is not None
        support.stand(kept.made.evidence, [status.pid for status in kept.statuses])
        recording.write(path, kept)
        return path

    def test_with_a_scan(self) -> None:
        scan = self.put_scan("scan.toml", World("script"))
        _, out, errors = self.command(self.scanned("daemon"), "--files", scan)
        self.assertIn("(all but CAP_SYS_RESOURCE): gone\n", support.unfolded(out))
        self.assertNotIn("scan.toml", errors)
        os.remove(scan + ".evidence")
        _, out, errors = self.command(self.scanned("daemon2", "daemon"), "--files", scan)
        self.assertIn("(all but CAP_SYS_RESOURCE): gone by its own calls\n", support.unfolded(out))
        self.assertIn("beside " + scan + " no evidence stands", errors)

    def test_a_filter_that_not_every_member_had(self) -> None:
        folder = self.folder("daemon")
        kept = recording.read(folder)
        kept.world += b'\n[filter]\nexclude = ["setuid"]\n'
        recording.write(folder, kept)
        out = self.words(folder)
        self.assertIn("not called gone: filters: the world declares a [filter], and the kernel showed none", out)

    def test_one_whose_processes_ended(self) -> None:
        self.assertEqual(self.command(self.folder("ended"))[0], FAILED)


class Shortening(unittest.TestCase):
    def short(self, run: str, good: Callable[[str], bool]) -> tuple[str, int | None]:
        kept, holder = shortened([each.encode() for each in run],
                                 lambda fewer: 7 if good(b"".join(fewer).decode()) else None)
        return b"".join(kept).decode(), holder

    def test_what_the_program_confirms_goes(self) -> None:
        self.assertEqual(self.short("abcd", lambda run: "b" in run and "d" in run), ("bd", 7))
        self.assertEqual(self.short("abcd", lambda run: run in ("abd", "ad")), ("ad", 7))
        self.assertEqual(self.short("ab", lambda run: True), ("b", 7))
        self.assertEqual(self.short("a", lambda run: True), ("a", None))
        self.assertEqual(self.short("ab", lambda run: False), ("ab", None))
        self.assertEqual(self.short("", lambda run: True), ("", None))

    def test_one_that_frees_an_earlier_one(self) -> None:
        self.assertEqual(self.short("abc", lambda run: run in ("ac", "c")), ("c", 7))


class Pieces(support.Case):
    def test_rights(self) -> None:
        for text, right in (("uid:0", Right("uid", 0)), ("gid:007", Right("gid", 7)),
                            ("cap:CAP_KILL@init", Right("cap", 5, "init")), ("cap:CAP_KILL@#3", Right("cap", 5, "#3")),
                            ("uid:4294967295", None), ("uid:", None), ("cap:CAP_NO@init", None), ("cap:CAP_KILL", None),
                            ("cap:CAP_KILL@a b", None), ("uid:0\n", None), ("uid:-1", None)):
            self.assertEqual(rights.parse(text), right, text)

    def test_each_class_has_words(self) -> None:
        for kind in classes.CLASSES:
            self.assertTrue(classes.words(Outcome(Right("uid", 0), kind, holder=1)))

    def test_the_tail_of_a_report(self) -> None:
        long = b"> line\n" * PIECE
        self.assertEqual(tail_of([long, b"end 7\nyes\n"]), b"end 7\nyes\n")
        self.assertEqual(tail_of([long, b"e", b"nd 7", b"\nyes\n"]), b"end 7\nyes\n")
        self.assertEqual(tail_of([b"end 7\n", long, long]), b"end 7\n" + long + long)
        self.assertEqual(len(tail_of([long, long])), PIECE)
        self.assertEqual(tail_of([]), b"")
        script = b"#!/bin/sh\nyes '> a line' | head -n 50000\necho end 3\necho yes\nexit 2\n"
        program = self.put("program", script, 0o755)
        self.assertEqual(Program(program).tail("x"), (b"end 3\nyes\n", 2))
        self.assertEqual(Program(self.put("short", b"#!/bin/sh\necho usage\nexit 6\n", 0o755)).tail(), (b"usage\n", 6))
        killed = Program(self.put("killed", b"#!/bin/sh\nkill -9 $$\n", 0o755))
        for broken in (killed, Program(self.work + "/none")):
            with self.assertRaises(Failure):
                broken.tail("x")

    def test_answers_that_are_none(self) -> None:
        files = Files(self.put("w", b'log = "script"\n'), self.put("l"))
        whole = b"end 0\n" + YES.encode()
        for told, status in ((whole, 1), (b"end 0\nyes\n", 0), (b"usage\n", 6), (b"", 7),
                             (b"end 0\nno 0\nholder 1\n", 0)):
            ask = Asking(Program("told"), self.work)
            with mock.patch.object(Program, "tail", lambda *_, to=(told, status): to), self.assertRaises(Failure):
                ask.audit(files, 1, "uid:0")
        ask = Asking(Program("told"), self.work)
        with mock.patch.object(Program, "tail", lambda *_: (b"limit spaces 256\n", 9)), self.assertRaises(Failure):
            ask.confirms(files, 1, "uid:0", [b"x"])

    def test_names_that_are_not_utf_8(self) -> None:
        names: list[str] = tomllib.loads(support.data("hostile_names.toml").decode())["names"]
        plain = set(map(chr, range(0x20, 0x7f))) | {"\n"}
        for name in names:
            raw = name.encode("latin-1")
            if name in ("..", "-") or name.startswith("-"):
                continue
            with self.subTest(name), mock.patch.object(summary_command, "Program", lambda: Told(None, {}, YES)):
                paths = self.put(b"w/" + raw, WORLD.encode()), self.put(b"l/" + raw, LOG.encode())
                folder = os.path.join(self.work, "kept", os.fsdecode(raw))
                status, out, errors = self.told(summary_command.main, *paths, "100", "--certificates", folder)
                self.assertEqual(status, GOOD, errors)
                self.assertFalse(set(out + errors) - plain, out + errors)

    def test_hostile_paths_in_runs(self) -> None:
        names: list[str] = tomllib.loads(support.data("hostile_names.toml").decode())["names"]
        plain = set(map(chr, range(0x20, 0x7f))) | {"\n"}
        for name in names:
            path = "/opt/" + name
            told = Told(None, {})
            lines = no(100, f"100 execve {path} = 0").encode("latin-1")
            with self.subTest(name), mock.patch.object(summary_command, "Program", lambda: told), \
                    mock.patch.object(Told, "tail", lambda *_, to=lines: (b"end 0\n" + to, 1)):
                status, out, errors = self.told(summary_command.main, self.put("world.toml", WORLD.encode()),
                                                self.put("log", LOG.encode()), "100")
                self.assertIn(status, (GOOD, FAILED))
                self.assertFalse(set(out + errors) - plain, out + errors)


REAL = os.environ.get("CREDAUDIT_STORE")


@unittest.skipIf(REAL is None, "CREDAUDIT_STORE names no program")
class OfTheProgram(support.Case):
    """What the program itself makes of the examples; the classes were worked out by hand from the README's audits."""

    def classes(self, *given: str) -> dict[str, str]:
        with mock.patch.object(summary_command, "Program", lambda: Program(REAL)):
            status, out, errors = self.told(summary_command.main, "--classes", "-", *given)
        self.assertEqual(status, GOOD, errors)
        return dict((line.split()[0], line.split()[1]) for line in out.split("\n")[:-1])

    def test_the_examples(self) -> None:
        for name, pid, kind in (("saved_id_forgotten", "100", classes.OWN_CALLS),
                                ("program_left", "100", classes.PROGRAM),
                                ("program_not_declared", "100", classes.GONE_BY_OWN_CALLS),
                                ("dropped_for_good", "100", classes.GONE_BY_OWN_CALLS),
                                ("real_id_left", "100", classes.DOUBTED), ("two_workers", "31", classes.OPEN)):
            folder = os.path.join(support.EXAMPLES, name)
            names = [os.path.join(folder, each) for each in ("world.toml", "log")]
            with self.subTest(name):
                self.assertEqual(self.classes(*names, pid, "--right", "uid:0")["uid:0"], kind)

    def test_a_right_drop(self) -> None:
        names = [self.put("world.toml", WORLD.encode()),
                 self.put("log", b"100 setresuid 33 33 33 = 0\n100 no_new_privs 1 = 0\n")]
        told = self.classes(*names, "100", "--right", "uid:33", "--certificates", os.path.join(self.work, "kept"))
        kept = dict.fromkeys(("gid:0", "gid:4", "uid:33"), classes.HELD)
        self.assertEqual(told, {**dict.fromkeys(START, classes.GONE_BY_OWN_CALLS), **kept})

    def test_a_recording(self) -> None:
        # Its last process is root again (test_examples).
        self.assertEqual(self.classes(os.path.join(support.EXAMPLES, "strace", "saved_user_left"), "100")["uid:0"],
                         classes.HELD)
