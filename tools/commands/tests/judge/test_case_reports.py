"""Expected classes as tests: TAP, which prove(1) reads, and XML of JUnit's form."""
import os
import shutil
import subprocess
import tomllib
import unittest
import xml.etree.ElementTree
from unittest import mock

from credaudit_tools.command_line.command import FAILED, FOUND, GOOD, USAGE
from credaudit_tools.judge import case_reports
from credaudit_tools.judge.case_reports import Case
from credaudit_tools.judge.classes import CLASSES

from .. import support
from ..plain_program import Plain
from ..summary import test_summary
from ..told_program import Told

EXPECT = b"uid:0 gone\n* gone-by-own-calls,held,program,open\n"
WHY = "uid:0 is own-calls, and expected is gone"
TODO = Case(100, "uid:0 # TODO later", "held \\# SKIP", "because # TODO of <this> & \"that\"\n1..0")


def proved(path: str) -> tuple[int, str]:
    """What prove says of a file of TAP, and its status."""
    done = subprocess.run(["prove", "-v", "-e", "cat", path], capture_output=True, text=True, check=False)
    return done.returncode, done.stdout


class Reports(test_summary.Case):
    def test_a_case_for_each_right(self) -> None:
        path = os.path.join(self.work, "rights.xml")
        status, out, errors = self.command(*self.names(), "100", "--expect", self.put("expect", EXPECT), "--tap",
                                           "--junit", path)
        self.assertEqual((status, errors), (FOUND, f"credaudit-summary: {WHY}\n"))
        self.assertEqual(out.split("\n"), [
            "TAP version 13", "1..7", "not ok 1 - process 100, uid:0 is own-calls", f"# {WHY}",
            "ok 2 - process 100, uid:33 is held", "ok 3 - process 100, gid:0 is program",
            "ok 4 - process 100, gid:4 is open", "ok 5 - process 100, cap:CAP_KILL@init is gone-by-own-calls",
            "ok 6 - process 100, cap:CAP_SETUID@init is gone-by-own-calls", "ok 7 - process 100, groups is seen", ""])
        [suite] = xml.etree.ElementTree.parse(path).getroot()
        self.assertEqual([suite.get(key) for key in ("name", "tests", "failures")], ["credaudit-summary", "7", "1"])
        told = {each.get("name"): [(inner.get("type"), inner.get("message")) for inner in each] for each in suite}
        self.assertEqual(told.pop("uid:0"), [("own-calls", WHY)])
        self.assertEqual(set(told), {*test_summary.HAD, "groups"} - {"uid:0"})
        self.assertFalse(any(told.values()))

    def test_all_is_as_expected(self) -> None:
        path = os.path.join(self.work, "rights.xml")
        good = self.put("good", self.command(*self.names(), "100", "--classes", "-")[1].encode())
        status, out, errors = self.command(*self.names(), "100", "--expect", good, "--tap", "--junit", path)
        self.assertEqual((status, errors, "not ok" in out), (GOOD, "", False))
        self.assertEqual(xml.etree.ElementTree.parse(path).getroot().get("failures"), "0")

    def test_groups_that_were_not_seen(self) -> None:
        world = test_summary.WORLD.replace("groups = [4]\n", "")
        good = self.put("good", b"* " + ",".join(CLASSES).encode() + b"\n")
        with mock.patch.object(Told, "run", Plain().run):
            status, out, _ = self.command(*self.names(world, ""), "100", "--expect", good, "--tap")
        self.assertEqual(status, FOUND)
        self.assertIn(" - process 100, groups is unseen:100\n# process 100 began without supplementary groups", out)

    def test_words_that_do_not_go_together(self) -> None:
        expect = ["--expect", self.put("expect", EXPECT)]
        for more, wanted in ((["--tap"], USAGE), (["--junit", "x"], USAGE), ([*expect, "--tap", "--json"], USAGE),
                             ([*expect, "--tap", "--classes", "-"], USAGE),
                             ([*expect, "--junit", "/there/is/none"], FAILED)):
            status, out, _ = self.command(*self.names(), "100", *more)
            self.assertEqual((status, out), (wanted, ""))


class Forms(support.Case):
    def test_no_text_is_a_directive_or_a_tag(self) -> None:
        names: list[str] = tomllib.loads(support.data("hostile_names.toml").decode())["names"]
        for case in (TODO, *(Case(100, name, name, name) for name in names)):
            with self.subTest(case.name):
                lines = case_reports.tap([case])
                self.assertEqual(len(lines), 4)
                self.assertTrue(lines[2].startswith("not ok 1 - process 100, "))
                self.assertNotRegex(lines[2], r"(?<!\\)#")
                self.assertTrue(all(" " <= letter <= "~" for line in lines for letter in line))
                [[[failure]]] = xml.etree.ElementTree.fromstring(case_reports.junit("x", [case]))
                self.assertEqual((failure.tag, failure.get("message")), ("failure", failure.text))

    @unittest.skipIf(shutil.which("prove") is None, "prove isn't there")
    def test_prove_reads_it(self) -> None:
        for cases, status, said in (
                ([Case(100, "uid:0", "gone"), Case(100, "cap:CAP_KILL@#2", "gone")], 0, "Result: PASS"),
                ([Case(100, "uid:0", "gone"), Case(100, "uid:33", "held", WHY)], 1, "Failed 1/2 subtests"),
                ([TODO], 1, "Failed 1/1 subtests")):
            path = self.put("rights.tap", "".join(line + "\n" for line in case_reports.tap(cases)).encode())
            found, out = proved(path)
            self.assertEqual(found != 0, status != 0, out)
            self.assertIn(said, out)

    @unittest.skipIf(shutil.which("xmllint") is None, "xmllint isn't there")
    def test_the_xml_is_valid(self) -> None:
        path = self.put("rights.xml", case_reports.junit("x", [TODO, Case(7, "gid:4", "gone")]))
        done = subprocess.run(["xmllint", "--noout", path], capture_output=True, text=True, check=False)
        self.assertEqual((done.returncode, done.stderr), (0, ""))


if __name__ == "__main__":
    unittest.main()
