"""Expected classes that say by when a right is gone: before a call, or by it. Plain Python stands for the program."""
import json
import os
import re

from credaudit_tools.command_line.command import FAILED, FOUND, GOOD
from credaudit_tools.replay import recording

from .. import support
from .timeline_case import Case

WORLD = 'log = "script"\n[[process]]\npid = 100\npermitted = "CAP_SETUID"\neffective = "CAP_SETUID"\n'
# A daemon that reads its network before it drops: the mark is at line 2, the drop at line 4.
LATE = """100 setgroups 33 = EPERM
; mark 100 accept4 3 = 5
100 fork = 101
100 setresuid 33 33 33 = 0
101 setresuid 33 33 33 = 0
; mark 101 recvmsg 5 = EAGAIN
101 exit = 0
"""
# It drops first, at line 1.
EARLY = "100 setresuid 33 33 33 = 0\n; mark 100 accept4 3 = 5\n100 setresuid 33 33 33 = 0\n"
REST = "uid:33 held\ngid:0 held\ngroups unseen\n"
GONE = "gone-by-own-calls"


class Expecting(Case):
    def ends(self, log: str, text: str, *given: str) -> tuple[int, str]:
        """The status of an expectation, and what is told."""
        path = self.put("expect", (text + "\n" + REST).encode())
        status, _, errors = self.command(*self.names(WORLD, log), "100", "--expect", path, *given)
        return status, errors

    def test_before_a_call(self) -> None:
        """By the lines by hand: gone since line 5 in the first log, since a member has it until then, and since line 1
        in the second."""
        rows: list[tuple[str, str, int, str]] = [
            (EARLY, f"* {GONE} before accept4", GOOD, ""),
            (EARLY, f"uid:0 {GONE} before accept4\ncap:* {GONE}", GOOD, ""),
            (EARLY, f"* {GONE} before setresuid", FOUND,
             f"uid:0 is {GONE} since line 1, and expected is before setresuid, whose first line is 1"),
            (EARLY, f"* {GONE} by setresuid", GOOD, ""),
            (EARLY, f"* {GONE} by accept4", GOOD, ""),
            (EARLY, f"* {GONE} before listen", FOUND, "expected is before listen, which never comes"),
            (EARLY, f"* {GONE} by listen", FOUND, "expected is by listen, which never comes"),
            (LATE, f"* {GONE} before accept4", FOUND,
             f"uid:0 is {GONE} since line 5, and expected is before accept4, whose first line is 2"),
            (LATE, f"* {GONE} by setresuid", FOUND,
             "since line 5, and expected is by setresuid, whose first line is 4"),
            (LATE, f"* {GONE} before recvmsg", GOOD, ""),       # a mark counts, whatever it answered
            (LATE, f"* {GONE} by setgroups", FOUND, "expected is by setgroups, which never comes"),     # it failed
            (LATE, f"* {GONE} before exit", GOOD, ""),
            (LATE, f"* held,{GONE} before exit", GOOD, ""),
            (LATE, "* held before exit", FAILED, "is none"),
            (LATE, f"* {GONE} after exit", FAILED, "is none"),
            (LATE, f"* {GONE} before", FAILED, "is none"),
            (LATE, f"* {GONE} before Exit", FAILED, "is none"),
            (LATE, f"* {GONE} before exit now", FAILED, "is none"),
            (LATE, f"groups seen before exit\n* {GONE}", FAILED, "is none")]
        for log, text, status, told in rows:
            with self.subTest(text, log=log):
                found, errors = self.ends(log, text)
                self.assertEqual(found, status, errors)
                self.assertIn(told, errors)

    def test_a_child_that_is_ahead_of_the_line_of_its_birth(self) -> None:
        """Its first call counts (docs/STRACE.md: a child's lines may stand before the one that answers its birth);
        those of another process of its number, which ended before, don't."""
        early = "; mark 101 accept4 3 = 5\n100 fork = 101\n100 setresuid 33 33 33 = 0\n101 setresuid 33 33 33 = 0\n" \
                "; mark 101 accept4 3 = 6\n"
        found, errors = self.ends(early, f"* {GONE} before accept4")
        self.assertEqual(found, FOUND)
        self.assertIn("since line 4, and expected is before accept4, whose first line is 1", errors)
        other = "90 fork = 101\n; mark 101 accept4 3 = 5\n101 exit = 0\n" + early.partition("\n")[2]
        path = self.put("expect", f"* {GONE} before accept4\n{REST}".encode())
        found, _, errors = self.command(*self.names(WORLD + "[[process]]\npid = 90\n", other), "100", "--expect", path)
        self.assertEqual(found, GOOD, errors)

    def test_a_line_of_a_kind(self) -> None:
        """`cap:*` is for each capability without a line of its own, and `*` for what neither has."""
        rows: list[tuple[str, int]] = [
            (f"cap:* {GONE} before setresuid\n* {GONE}", FOUND), (f"cap:* {GONE} by setresuid\n* {GONE}", GOOD),
            (f"cap:CAP_SETUID@init {GONE}\ncap:* {GONE} before setresuid\n* {GONE}", GOOD),
            (f"cap:* {GONE}\nuid:* {GONE},held\ngid:* held", GOOD), ("uid:* held\n* gone", FOUND)]
        for text, status in rows:
            with self.subTest(text):
                found, errors = self.ends(EARLY, text)
                self.assertEqual(found, status, errors)

    def test_of_one_process_alone(self) -> None:
        """The lines below `process PID` are in the place of those above, with what they say of a call."""
        common = f"* {GONE} before setresuid\n"
        self.assertEqual(self.ends(EARLY, common)[0], FOUND)
        self.assertEqual(self.ends(EARLY, common + f"process 100\n* {GONE}")[0], GOOD)
        self.assertEqual(self.ends(EARLY, f"* {GONE}\nprocess 100\n* {GONE} before setresuid")[0], FOUND)

    def test_it_is_in_the_json(self) -> None:
        path = self.put("expect", f"* {GONE} before accept4\n{REST}".encode())
        status, out, _ = self.command("--json", "--expect", path, *self.names(WORLD, LATE), "100")
        self.assertEqual(status, FOUND)
        told = {each["right"]: each for each in json.loads(out)["unexpected"]}
        self.assertEqual(sorted(told), ["cap:CAP_SETUID@init", "uid:0"])
        self.assertEqual(told["uid:0"], {"process": 100, "right": "uid:0", "class": GONE,
                                         "expected": [f"{GONE} before accept4"]})

    def test_the_rights_of_the_file_are_told_too(self) -> None:
        path = self.put("expect", f"uid:7 {GONE} by setresuid\n* {GONE}\n{REST}".encode())
        status, out, errors = self.command("--expect", path, *self.names(WORLD, EARLY), "100")
        self.assertEqual(status, GOOD, errors)
        self.assertIn("uid:7", out)


class Tutorial(Case):
    """The step of docs/TUTORIAL.md with a daemon that drops too late, by plain Python and the stored recordings."""

    def block(self, number: int) -> str:
        """A block of the step."""
        with open(os.path.join(support.EXAMPLES, "..", "docs", "TUTORIAL.md"), encoding="utf-8") as file:
            return file.read().split("## 9. Your daemon drops, but too late")[1].split("```\n")[2 * number + 1]

    def recording(self, name: str) -> str:
        """A stored recording."""
        return os.path.join(support.EXAMPLES, "drops_too_late", name)

    def test_the_course(self) -> None:
        _, out, errors = self.command(self.recording("recording-late"))
        course = re.search(r"^ *0  .*?^$", out, re.MULTILINE | re.DOTALL)
        assert course is not None
        self.assertEqual(self.block(1).partition("\n")[2], course[0] + "\n", errors)

    def test_the_expectation(self) -> None:
        lines = self.block(2).split("\n")
        words = re.findall("'([^']*)'", next(line for line in lines if line.startswith("$ printf")))
        path = self.put("late.expected", "".join(f"{word}\n" for word in words[1:]).encode())
        for name, status in (("recording-late-fixed", GOOD), ("recording-late", FOUND)):
            found, _, errors = self.command("--expect", path, self.recording(name))
            self.assertEqual(found, status, errors)
        self.assertEqual(lines[-2:-1], [line for line in errors.split("\n") if "uid:0 is" in line])

    def test_what_the_two_recordings_are(self) -> None:
        """The same program but for one thing, recorded with marks and times."""
        for name, order in (("recording-late", "accept setresuid"), ("recording-late-fixed", "setresuid accept")):
            kept = recording.read(self.recording(name))
            self.assertEqual(recording.altered(kept), [])
            self.assertRegex(kept.log.decode(), order.replace(" ", "(.|\n)*"))
            self.assertEqual(len(recording.clock_of(kept)[0]), 9)
