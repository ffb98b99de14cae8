"""credaudit-summary on a recording in which processes live that aren't of one family: each stands in an answer."""
import json
import os
from unittest import mock

from credaudit_tools.command_line import schemas
from credaudit_tools.command_line.command import FAILED, FOUND, GOOD
from credaudit_tools.replay import end_world
from credaudit_tools.summary import summary, summary_command

from .. import support
from ..told_program import Told, no

# A process gives birth to two and ends: the first becomes user 33, the second keeps all of root.
SIBLING = os.path.join(support.DATA, "recordings", "sibling")


class Sibling(Told):
    """A program that says of the process 102 that it holds everything, and of 101 that all is gone."""

    def tail(self, *words: str) -> tuple[bytes, int]:
        text, status = super().tail(*words)
        return (b"end 0\n" + no(102).encode(), 1) if words[0] == "audit" and words[3] == "102" else (text, status)


class Living(support.Case):
    def command(self, *given: str) -> tuple[int, str, str]:
        with mock.patch.object(summary_command, "Program", lambda: Sibling(None, {})):
            return self.told(summary_command.main, *given)

    def test_each_stands_in_an_answer(self) -> None:
        status, out, errors = self.command(SIBLING)
        first, second = out.split("\n\n")
        self.assertEqual(status, GOOD, errors)
        self.assertIn("\nprocess 101: user 33; ", first)
        self.assertIn("\nuid:0, uid:33  gone by its own calls\n", first)
        self.assertTrue(second.startswith("process 102: all 42 rights are held\nprocess 102: user 0; "), second)
        self.assertRegex(second, r"\nuid:0 +held by process 102 \(effective user id\)\n")

    def test_the_expected_classes_hold_for_each(self) -> None:
        path = self.put("expect", b"* gone-by-own-calls\n")
        self.assertEqual(self.command(SIBLING, "101", "--expect", path)[0], GOOD)
        status, _, errors = self.command(SIBLING, "--expect", path)
        self.assertEqual(status, FOUND)
        self.assertIn("process 102: uid:0 is held, and expected is gone-by-own-calls\n", errors)

    def test_lines_for_each_process(self) -> None:
        """What one of them may, another one needn't."""
        path = os.path.join(self.work, "classes")
        self.assertEqual(self.command(SIBLING, "--classes", path)[0], GOOD)
        with open(path, encoding="ascii") as file:
            text = "groups unseen:102\n" + file.read()
        rows: list[tuple[list[str], str, int, str]] = [
            ([], text, GOOD, ""), (["101"], text, GOOD, ""), (["102"], text, GOOD, ""),
            ([], text.replace("101", "103").replace("102", "101").replace("103", "102"), FOUND,
             "process 101: uid:0 is gone-by-own-calls, and expected is held\n"),
            ([], "uid:0 held\n* held\n" + text.replace("uid:0 gone-by-own-calls\n", ""), FOUND,
             "process 101: uid:0 is gone-by-own-calls, and expected is held\n"),
            ([], text.split("process 102\n")[0], FOUND,
             "process 102: process 102 lives, and no line `process 102` of the expected classes is for it\n"),
            ([], text + "process 103\nuid:0 gone\n", FOUND,
             "process 103 of the expected classes isn't asked about"),
            (["101"], text + "process 103\nuid:0 gone\n", GOOD, "")]
        for pids, texts, status, told in rows:
            with self.subTest(texts, pids=pids):
                found, _, errors = self.command(SIBLING, *pids, "--expect", self.put("expect", texts.encode()))
                self.assertEqual(found, status, errors)
                self.assertIn(told, errors)

    def test_one_that_stands_in_no_answer_is_no_clean_bill(self) -> None:
        with mock.patch.object(end_world.Births, "family", lambda _, root: [root]), \
                mock.patch.object(summary, "chosen", lambda *_: [101]):
            path = self.put("expect", b"* gone-by-own-calls\n")
            status, out, errors = self.command(SIBLING, "--expect", path)
        self.assertEqual((status, out), (FAILED, ""))
        self.assertIn("process 102 lives at the log's end, and stands in no answer", errors)

    def test_of_a_named_one_the_others_are_told(self) -> None:
        _, out, errors = self.command(SIBLING, "101")
        self.assertNotIn("process 102", out)
        self.assertIn("note: nothing is said of process 102, which lives too\n", errors)

    def test_other_forms(self) -> None:
        told = json.loads(self.command(SIBLING, "--json")[1])
        self.assertTrue(schemas.fits(told, summary.SCHEMA), told)
        self.assertEqual([each["process"] for each in told["answers"]], [101, 102])
        _, out, _ = self.command(SIBLING, "--classes", "-")
        first, second = out.split("process 102\n")
        self.assertTrue(first.startswith("process 101\nuid:0 gone-by-own-calls\n"), first)
        self.assertTrue(second.startswith("uid:0 held\n"), second)
        _, out, _ = self.command(SIBLING, "--why", "uid:0")
        self.assertEqual([line for line in out.split("\n") if line.startswith("uid:0: ")],
                         ["uid:0: gone-by-own-calls", "uid:0: held"])
        folder = os.path.join(self.work, "kept")
        self.command(SIBLING, "--certificates", folder)
        self.assertEqual(sorted(os.listdir(folder)), ["101", "102"])
        self.assertIn("uid:0.json", os.listdir(os.path.join(folder, "101")))
        self.assertEqual(os.listdir(os.path.join(folder, "102")), [])
