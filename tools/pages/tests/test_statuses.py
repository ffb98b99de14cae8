"""Exit statuses: one number for one cause, over all commands around the program, as docs/STATUSES.md has them."""
import os
import re
import unittest
from collections.abc import Callable, Sequence
from unittest import mock

from commands.tests import support
from credaudit_tools.audit import audit_command
from credaudit_tools.capture import capture_command
from credaudit_tools.command_line import command
from credaudit_tools.explain import explain_command
from credaudit_tools.lint import lint_command
from credaudit_tools.replay import recording
from credaudit_tools.summary import summary_command
from credaudit_tools.system import proc
from credaudit_tools.timeline import timeline_command
from credaudit_tools.trace import trace_command
from credaudit_tools.unit import unit_command
from credaudit_tools.verify import verify_command

COMMANDS: dict[str, Callable[[Sequence[str]], int]] = {
    "trace": trace_command.main, "verify": verify_command.main, "capture": capture_command.main,
    "lint": lint_command.main, "summary": summary_command.main, "explain": explain_command.main,
    "unit": unit_command.main, "audit": audit_command.main, "timeline": timeline_command.main}
OWN = ("audit",)        # which has the program's statuses
PAGE = os.path.join(support.EXAMPLES, "..", "docs", "STATUSES.md")
NAMES = {command.GOOD: "done", command.FOUND: "found", command.USAGE: "words", command.FAILED: "can't be done",
         command.BROKEN: "refused"}


def rows() -> dict[int, tuple[str, set[str]]]:
    """By status the cause, and the commands that end with it."""
    with open(PAGE, encoding="utf-8") as file:
        found = re.findall(r"^\| (\d) \| (.*) \| (.*) \|$", file.read(), re.MULTILINE)
    every = set(COMMANDS)
    return {int(number): (cause, every - set(names.removeprefix("all but ").split(", ")) if names.startswith("all but")
                          else every if names == "all" else set(names.split(", ")))
            for number, cause, names in found}


class Page(unittest.TestCase):
    def test_it_has_each_number(self) -> None:
        self.assertEqual(set(rows()), set(NAMES))
        for number, (cause, _) in rows().items():
            self.assertIn(NAMES[number], cause)

    def test_each_command_is_there(self) -> None:
        for name in COMMANDS:
            self.assertTrue(os.access(os.path.join(support.HERE, "..", "..", f"credaudit-{name}"), os.X_OK), name)


class Whole(support.Case):
    def test_each_help_has_the_numbers_of_the_page(self) -> None:
        for name, main in COMMANDS.items():
            if name not in OWN:
                _, told, _ = self.told(main, "--help")
                found = {int(each) for each in re.findall(r"^  (\d)  ", told.split("exit status:")[1], re.MULTILINE)}
                self.assertEqual(found, {number for number, (_, names) in rows().items() if name in names}, name)

    def ends(self, words: dict[str, list[str]], status: int) -> None:
        """Each of these commands ends with a status, and tells why on standard error."""
        for name, given in words.items():
            with self.subTest(name), mock.patch.object(proc, "needs_root", lambda *_: None), \
                    mock.patch.object(capture_command, "needs_root", lambda *_: None):
                found, out, errors = self.told(COMMANDS[name], *given)
                self.assertEqual(found, status, out + errors)
                self.assertTrue(errors or out)

    def test_words(self) -> None:
        self.ends({name: ["--jump"] for name in COMMANDS if name not in OWN}, command.USAGE)

    def test_what_can_not_be_read(self) -> None:
        none = os.path.join(self.work, "none")
        self.ends({"verify": [none], "lint": [none, none], "summary": [none, none, "100"], "explain": [none],
                   "timeline": [none, none, "100"],
                   "unit": [none + ".service"], "capture": ["4194304"], "trace": ["-o", none, "-p", "4194304"]},
                  command.FAILED)
        self.assertFalse(os.path.exists(none))

    def test_a_recording_that_can_not_be_read(self) -> None:
        self.put("rec/world.toml", b'log = "strace"\n')
        folder = os.path.join(self.work, "rec")
        self.ends({name: [folder] for name in ("verify", "lint", "summary", "timeline")}, command.FAILED)
        self.put("rec/log")
        self.put("rec/status.txt", b"x\n")
        self.ends({name: [folder] for name in ("verify", "lint", "summary", "timeline")}, command.FAILED)

    def test_what_credaudit_refuses(self) -> None:
        world, log = self.put("rec/world.toml", b"x\n"), self.put("rec/log", b"")
        self.put("rec/status.txt", b"")
        folder, masked = os.path.join(self.work, "rec"), os.path.join(self.work, "lib/systemd/system")
        os.makedirs(masked)
        os.symlink("/dev/null", os.path.join(masked, "web.service"))
        self.ends({"lint": [world, log], "summary": [world, log, "100"], "verify": [folder],
                   "timeline": [world, log, "100"],
                   "unit": ["web", "--root", self.work]}, command.BROKEN)

    def test_nothing_is_written_over(self) -> None:
        """A recording stays where nobody asked for another one in its place; so do files of its names."""
        for name in recording.ALL:
            folder = os.path.join(self.work, name)
            path = self.put(f"{name}/{name}", b"kept")
            with mock.patch.object(trace_command, "Recorder") as recorder:
                self.ends({"trace": ["-o", folder, "true"]}, command.FAILED)
                self.assertFalse(recorder.called)
            with open(path, "rb") as file:
                self.assertEqual(file.read(), b"kept")


if __name__ == "__main__":
    unittest.main()
