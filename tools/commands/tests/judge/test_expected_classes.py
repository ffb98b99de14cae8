"""Expected classes: their text, what fails by them, the file of them that a summary writes, and pipes."""
import os
import re
import threading
import unittest
from unittest import mock

from credaudit_tools.command_line import typed_files, users
from credaudit_tools.command_line.command import BROKEN, FAILED, FOUND, GOOD, USAGE, Failure
from credaudit_tools.formats import rights
from credaudit_tools.formats.rights import Reading, Right
from credaudit_tools.judge import classes, expected_classes
from credaudit_tools.judge.classes import Outcome
from credaudit_tools.judge.expected_classes import Expected, Lines
from credaudit_tools.judge.holders import Member
from credaudit_tools.summary import summary_command

from .. import support
from ..plain_program import Plain
from ..summary.test_summary import HAD, WORLD, Case
from ..told_program import Told

ROOT, ADM = Right("uid", 0), Right("gid", 4)
NGINX, HELPER = b"/usr/sbin/nginx", b"/opt/a b,c"
MASTER, WORKER, OTHER, OLD = (Member(100, NGINX), Member(101, NGINX), Member(102, HELPER), Member(103))
OTHERS = b"* " + ",".join(classes.CLASSES).encode() + b"\n"
HELD = Outcome(ROOT, classes.HELD, holder=100)


def lookup(kind: str, name: str) -> int | None:
    """A machine with one user and one group."""
    return {("uid", "www-data"): 33, ("gid", "adm"): 4}.get((kind, name))


def read(text: str) -> Expected:
    """The expected classes of a text."""
    return expected_classes.read(text.encode(), Reading(lookup))


class Text(unittest.TestCase):
    def test_lines_that_are_none(self) -> None:
        for text in ("uid:0\n", "uid:0 gon\n", "uid:0 gone held\n", "uid gone\n", "uid:0 gone\nuid:0 held\n",
                     "* gone\n* held\n", "uid:0 gone,\n", "\ufffd gone\n", "uid:0 held:\n", "uid:0 held:nginx\n",
                     "uid:0 gone:100\n", "uid:0 held:-1\n", "groups\nuid:0 gone\n", "groups gone\nuid:0 gone\n",
                     "groups unseen:x\nuid:0 gone\n", "groups seen\ngroups unseen\nuid:0 gone\n",
                     "process\nuid:0 gone\n",
                     "process x\nuid:0 gone\n", "process 1 2\nuid:0 gone\n", "process 1\nuid:0 gone\nprocess 1\n",
                     "gid:4 gone\ngid:adm gone\n", "gid:nobody-has-this gone\n", "uid:adm gone\n"):
            with self.subTest(text), self.assertRaises(Failure):
                read(text)

    def test_texts_that_are_not_whole(self) -> None:
        """What a redirect leaves after a failure, what expects nothing, and what was cut."""
        for text in ("", "\n", "# uid:0 gone\n", "groups unseen\n", "uid:0 gone", "uid:0 gone\ngid:0 held"):
            with self.subTest(text), self.assertRaises(Failure):
                read(text)
        self.assertEqual(read("* gone\n"), Expected(Lines(others=("gone",))))

    def test_lines_of_a_kind(self) -> None:
        """A right's own line goes before that of its kind, and this before that of all others."""
        told = read("uid:0 held\nuid:* gone\ncap:* open\n* program\n").lines(100)
        self.assertEqual([told.wanted(right) for right in (ROOT, Right("uid", 7), Right("cap", 7, "init"), ADM)],
                         [("held",), ("gone",), ("open",), ("program",)])
        below = read("cap:* open\n* held\nprocess 100\ncap:* gone\n")
        self.assertEqual([below.lines(pid).wanted(Right("cap", 7, "init")) for pid in (100, 101)],
                         [("gone",), ("open",)])
        for text in ("cap:* gone\ncap:* held\n", "box:* gone\n", "cap:*x gone\n"):
            with self.subTest(text), self.assertRaises(Failure):
                read(text)

    def test_lines_that_say_by_when_are_for_timelines(self) -> None:
        with self.assertRaisesRegex(Failure, "tells by when"):
            read("uid:0 gone before accept\n")

    def test_remarks_and_names(self) -> None:
        told = read("# a remark\n  \ncap:CAP_KILL@#1 gone,held # another\nuid:www-data held:/a,held:7\t#\r\n"
                    "gid:adm gone\ngroups seen,unseen:101\n").common
        self.assertEqual(told.rights, {Right("cap", 5, "#1"): ("gone", "held"), ADM: ("gone",),
                                       Right("uid", 33): ("held:/a", "held:7")})
        self.assertEqual(told.groups, ("seen", "unseen:101"))

    def test_lines_of_a_process(self) -> None:
        """They stand in the place of the common ones."""
        told = read("uid:0 gone\n* gone\ngroups unseen\nprocess 7\nuid:0 held\nprocess 8\n* held\ngroups seen\n")
        self.assertEqual((told.lines(7), told.lines(8)), (
            Lines({ROOT: ("held",)}, ("gone",), ("unseen",)), Lines({ROOT: ("gone",)}, ("held",), ("seen",))))
        self.assertEqual([each.right for each in told.new(9, [HELD], {})], ["process"])
        self.assertEqual([each.process for each in told.without_answer([8, 9])], [7])

    def test_names_that_were_looked_up_are_told(self) -> None:
        reading = Reading(lookup)
        expected_classes.read(b"gid:adm gone\nuid:7 gone\n", reading)
        self.assertEqual(list(reading.notes()), ["gid:adm is gid:4 here"])

    def test_what_is_written_is_expected(self) -> None:
        told = [HELD, Outcome(Right("uid", 1), classes.GONE)]
        text = "".join(line + "\n" for line in expected_classes.written(told))
        self.assertEqual(text, "uid:0 held\nuid:1 gone\n")
        self.assertEqual(read(text).new(100, told, {ROOT: [MASTER, WORKER]}), [])


class New(unittest.TestCase):
    def whys(self, text: str, outcomes: list[Outcome], holders: tuple[Member, ...] = (),
             unseen: tuple[Member, ...] = ()) -> list[tuple[str, str, tuple[str, ...]]]:
        told = read(text).new(100, outcomes, {ROOT: holders}, unseen)
        return [(each.right, each.kind, each.expected) for each in told]

    def test_a_right_without_a_line(self) -> None:
        newly = Outcome(ADM, classes.HELD, holder=100)
        self.assertEqual(self.whys("uid:0 held\n", [HELD, newly], (MASTER,)), [("gid:4", "held", ())])
        self.assertEqual(self.whys("uid:0 held\n* gone\n", [HELD, newly], (MASTER,)), [("gid:4", "held", ("gone",))])
        self.assertEqual(self.whys("uid:0 held\n* gone,held\n", [HELD, newly], (MASTER,)), [])
        self.assertEqual(self.whys("uid:0 held\n", [HELD, Outcome(ADM, classes.GONE)]), [("gid:4", "gone", ())])

    def test_whose_it_may_be(self) -> None:
        """By program and by pid; each holder must be one of them."""
        for classes_told, holders, wrong in (
                ("held", (MASTER, OTHER, OLD), ""), ("held:/usr/sbin/nginx", (MASTER, WORKER), ""),
                ("held:/usr/sbin/nginx", (MASTER, OTHER), "held:102"), ("held:100", (MASTER,), ""),
                ("held:100", (MASTER, WORKER), "held:101"), ("held:100,held:101", (MASTER, WORKER), ""),
                ("held:100,held:/opt/a\\040b\\054c", (MASTER, OTHER), ""), ("held:/opt/a", (OTHER,), "held:102"),
                ("held:/usr/sbin/nginx", (OLD,), "held:103"), ("gone,held:103", (OLD,), ""),
                ("held:/usr/sbin/nginx,held", (OTHER,), ""), ("held:7", (), "held:100")):
            with self.subTest(classes_told, holders=holders):
                found = self.whys(f"uid:0 {classes_told}\n", [HELD], holders)
                self.assertEqual([kind for _, kind, _ in found], [wrong] if wrong else [])

    def test_held_by_somebody_is_no_other_class(self) -> None:
        self.assertEqual(self.whys("uid:0 held:100\n", [Outcome(ROOT, classes.GONE)]),
                         [("uid:0", "gone", ("held:100",))])
        self.assertEqual(self.whys("uid:0 gone\n", [HELD], (MASTER,)), [("uid:0", "held", ("gone",))])

    def test_groups_that_were_not_seen(self) -> None:
        for line, unseen, wrong in (("", (), ""), ("", (MASTER,), "unseen:100"),
                                    ("groups seen\n", (MASTER,), "unseen:100"),
                                    ("groups unseen\n", (MASTER, OTHER), ""),
                                    ("groups unseen:100\n", (MASTER,), ""),
                                    ("groups unseen:100\n", (MASTER, WORKER), "unseen:101"),
                                    ("groups unseen:/usr/sbin/nginx\n", (MASTER, OTHER), "unseen:102"),
                                    ("groups unseen\n", (), "")):
            with self.subTest(line, unseen=unseen):
                found = self.whys(line + "uid:0 held\n", [HELD], (MASTER,), unseen)
                self.assertEqual([kind for right, kind, _ in found if right == "groups"], [wrong] if wrong else [])


class Command(Case):
    """The whole command: the file of classes, and what it reads them from."""

    def classes(self) -> str:
        """The file of classes that a good run writes."""
        path = os.path.join(self.work, "rights.expected")
        self.assertEqual(self.command(*self.names(), "100", "--classes", path)[0], GOOD)
        return path

    def test_the_file_of_classes(self) -> None:
        path = self.classes()
        with open(path, encoding="ascii") as file:
            text = file.read()
        self.assertEqual([line.split(" ")[0] for line in text.split("\n")], [*HAD, ""])
        self.assertEqual(self.command(*self.names(), "100", "--classes", "-")[1], text)
        self.assertEqual(self.command(*self.names(), "100", "--expect", path)[0], GOOD)

    def test_it_is_written_on_success_alone(self) -> None:
        path = self.classes()
        before = os.stat(path)
        cut, strict = self.put("cut", b"100 jump = 0\n"), self.put("strict", b"* gone\n")
        for status, given in ((BROKEN, [self.names()[0], cut, "100"]), (FAILED, [*self.names(), "7"]),
                              (FOUND, [*self.names(), "100", "--expect", strict])):
            for place in (path, os.path.join(self.work, "new")):
                self.assertEqual(self.command(*given, "--classes", place)[0], status)
        self.assertEqual((os.stat(path).st_ino, os.stat(path).st_mtime_ns), (before.st_ino, before.st_mtime_ns))
        self.assertFalse(os.path.lexists(os.path.join(self.work, "new")))

    def test_places_that_take_no_file(self) -> None:
        """They are told before the program is asked."""
        for place in (self.work, os.path.join(self.work, "none", "x"), "/dev/null"):
            self.assertEqual(self.command(*self.names(), "100", "--classes", place)[0], FAILED)
        self.assertEqual(self.command(*self.names(), "100", "--classes", "-", "--json")[0], USAGE)
        self.assertEqual(self.program.asked, [])

    def test_a_link_stays_one(self) -> None:
        self.link("link", self.put("kept/rights", b"old\n"))
        self.assertEqual(self.command(*self.names(), "100", "--classes", os.path.join(self.work, "link"))[0], GOOD)
        self.assertTrue(os.path.islink(os.path.join(self.work, "link")))
        with open(os.path.join(self.work, "kept", "rights"), encoding="ascii") as file:
            self.assertTrue(file.read().startswith("uid:0 own-calls\n"))

    def test_pipes(self) -> None:
        with open(self.classes(), "rb") as file:
            good = file.read()
        for data, status in ((good, GOOD), (b"uid:0 gone\n" + good[good.index(b"\n") + 1:], FOUND), (b"", FAILED),
                             (good[:-1], FAILED)):
            reading, writing = os.pipe()
            os.write(writing, data)
            os.close(writing)
            self.assertEqual(self.command(*self.names(), "100", "--expect", f"/dev/fd/{reading}")[0], status)
            os.close(reading)
        self.assertEqual(self.command(*self.names(), "100", "--expect", f"/dev/fd/{reading}")[0], FAILED)

    def test_a_fifo_whose_writer_comes_late(self) -> None:
        with open(self.classes(), "rb") as file:
            good = file.read()
        path = os.path.join(self.work, "fifo")
        os.mkfifo(path)

        def write() -> None:
            with open(path, "wb") as into:
                into.write(good)
        late = threading.Timer(0.2, write)
        late.start()
        self.assertEqual(self.command(*self.names(), "100", "--expect", path)[0], GOOD)
        late.join()
        with mock.patch.object(typed_files, "PATIENCE", 0.05):
            status, _, errors = self.command(*self.names(), "100", "--expect", path)
        self.assertEqual(status, FAILED)
        self.assertIn("nothing came from it for", errors)

    def test_files_that_are_none(self) -> None:
        for path in (self.work, self.put("long", b"#" * (expected_classes.MOST + 1)), "/dev/null"):
            self.assertEqual(self.command(*self.names(), "100", "--expect", path)[0], FAILED)

    def test_a_daemon_that_newly_holds_a_group(self) -> None:
        path = self.classes()
        status, _, errors = self.command(self.put("new.toml", WORLD.replace("[4]", "[4, 24]").encode()),
                                         self.names()[1], "100", "--expect", path)
        self.assertEqual(status, FOUND)
        self.assertIn("gid:24 is gone-by-own-calls, and no line of the expected classes is for it\n", errors)

    def test_one_of_two_workers_forgets_its_groups(self) -> None:
        world = WORLD.replace("groups = [4]\n", "").replace("CAP_KILL,CAP_SETUID", "CAP_KILL,CAP_SETGID")
        log = "100 fork = 101\n100 fork = 102\n100 setgroups = 0\n101 setgroups 7 = 0\n"
        for line, wanted in ((b"", FOUND), (b"groups unseen:102\n", GOOD), (b"groups unseen:101\n", FOUND),
                             (b"groups unseen\n", GOOD)):
            expected = self.put("expect", line + OTHERS)
            with mock.patch.object(Told, "run", Plain().run):
                status, _, errors = self.command(*self.names(world, log), "100", "--expect", expected)
            self.assertEqual(status, wanted, errors)
            told = "credaudit-summary: process 102 began without supplementary groups, and setgroups was never called"
            self.assertEqual(told in errors, wanted == FOUND, errors)

    def test_whose_a_right_may_be(self) -> None:
        log = "100 execve /usr/bin/su = 0\n100 fork = 101\n101 setresuid 33 33 33 = 0\n"
        for line, wanted in (("held", GOOD), ("held:/usr/bin/su", GOOD), ("held:/usr/bin/id", FOUND),
                             ("held:101", GOOD), ("held:100", FOUND)):
            expected = self.put("expect", f"uid:33 {line}\n".encode() + OTHERS)
            with mock.patch.object(Told, "run", Plain().run):
                status, _, errors = self.command(*self.names(WORLD, log), "100", "--expect", expected)
            self.assertEqual(status, wanted, errors)
            told = f"uid:33 is held by process 101 (/usr/bin/su), and expected is {line}\n"
            self.assertEqual(told in errors, wanted == FOUND, errors)

    def test_names(self) -> None:
        with mock.patch.object(users, "on_machine", lookup):
            expected = self.put("expect", b"gid:adm gone\n" + OTHERS)
            status, out, errors = self.command(*self.names(), "100", "--right", "uid:www-data", "--expect", expected)
        self.assertEqual(status, FOUND)
        self.assertIn("uid:33  held by process 100", out)
        for told in ("note: uid:www-data is uid:33 here\n", "note: gid:adm is gid:4 here\n",
                     "gid:4 is open, and expected is gone\n"):
            self.assertIn(told, errors)
        status, _, errors = self.command(*self.names(), "100", "--right", "uid:nobody has this")
        self.assertEqual(status, USAGE)
        status, _, errors = self.command(*self.names(), "100", "--right", "uid:nobody-has-this")
        self.assertEqual((status, self.program.asked == []), (FAILED, False))
        self.assertIn("there is no user 'nobody-has-this' here", errors)

    def test_names_of_the_machine(self) -> None:
        self.assertEqual((users.on_machine("uid", "root"), users.on_machine("gid", "root")), (0, 0))
        for name in ("nobody-has-this", "a\0b", "\ud800"):
            self.assertIsNone(users.on_machine("uid", name))

    def test_the_rights_of_root(self) -> None:
        known = users.Users(users=[users.User("root", 0, 0), users.User("x", 7, 7)], groups={"root": 0, "adm": 4},
                            members={0: set(), 4: {"root", "x"}, 5: {"x"}})
        with mock.patch.object(users, "of_machine", lambda: known):
            _, out, _ = self.command(*self.names(), "100", "--of-root", "--classes", "-")
        found = [line.split(" ")[0] for line in out.split("\n")[:-1]]
        self.assertEqual(found[:len(HAD)], HAD)
        self.assertEqual(sorted(found[len(HAD):]),
                         sorted(each.text() for each in rights.of_root(known) if each.text() not in HAD))
        self.assertEqual([each.text() for each in rights.of_root(known)][:3], ["uid:0", "gid:0", "gid:4"])
        self.assertEqual(len(rights.of_root(known)), 3 + 41)


class Tutorial(support.Case):
    """The job for CI of docs/TUTORIAL.md, by the stored answers of the program."""

    def summary(self, *given: str) -> tuple[int, str]:
        status, out, errors = self.told(summary_command.main, *given, name="credaudit-summary")
        return status, out + errors

    def test_its_lines(self) -> None:
        with open(os.path.join(support.EXAMPLES, "..", "docs", "TUTORIAL.md"), encoding="utf-8") as file:
            page = file.read().split("## In CI")[1].split("```")[1]
        wrong, right = (os.path.join(support.EXAMPLES, "first_try", name) for name in ("recording", "recording-fixed"))
        path = os.path.join(self.work, "rights.expected")
        self.assertEqual(self.summary("--classes", path, right)[0], GOOD)
        with open(path, encoding="ascii") as file:
            ids = "".join(line for line in file if "id:" in line)
        self.assertIn("rights.expected\n" + ids + "$ ", page)
        self.assertEqual(self.summary("--expect", path, right)[0], GOOD)
        status, told = self.summary("--expect", path, wrong)
        self.assertEqual(status, FOUND)
        [line] = [line for line in told.split("\n") if re.search("uid:.* is", line)]
        self.assertTrue(page.endswith(line + "\n"), line)


if __name__ == "__main__":
    unittest.main()
