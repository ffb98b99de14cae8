"""The pages of man/: what they must have, and their options and statuses beside those of the commands."""
import os
import re
from unittest import mock

from commands.tests.plain_program import Plain
from commands.tests.support import EXAMPLES, Case
from commands.tests.told_program import Told, no
from credaudit_tools.audit import audit_command
from credaudit_tools.capture import capture_command
from credaudit_tools.command_line import schemas
from credaudit_tools.explain import explain, explain_command
from credaudit_tools.lint import lint_command
from credaudit_tools.summary import summary, summary_command
from credaudit_tools.timeline import timeline, timeline_command
from credaudit_tools.trace import trace_command
from credaudit_tools.unit import unit_command
from credaudit_tools.verify import verify_command

PAGES = os.path.join(EXAMPLES, "..", "man")
COMMANDS = {"credaudit-trace": trace_command.main, "credaudit-verify": verify_command.main,
            "credaudit-capture": capture_command.main, "credaudit-lint": lint_command.main,
            "credaudit-explain": explain_command.main, "credaudit-unit": unit_command.main,
            "credaudit-summary": summary_command.main, "credaudit-audit": audit_command.main,
            "credaudit-timeline": timeline_command.main}
STATUSES = {"credaudit-explain": ["0", "2", "3"], "credaudit-audit": []}
SCHEMAS = {"credaudit-explain": explain.SCHEMA, "credaudit-unit": unit_command.SCHEMA,
           "credaudit-summary": summary.SCHEMA, "credaudit-timeline": timeline.SCHEMA}
SECTIONS = ("NAME", "SYNOPSIS", "DESCRIPTION", "EXIT STATUS", "EXAMPLES", "SEE ALSO")


def page(name: str) -> str:
    """The text of a command's page."""
    with open(os.path.join(PAGES, name + ".1"), encoding="ascii") as file:
        return file.read()


class Pages(Case):
    def test_sections(self) -> None:
        for name in COMMANDS:
            found = re.findall(r"^\.Sh (.*)$", page(name), re.MULTILINE)
            self.assertEqual([each for each in found if each in SECTIONS], list(SECTIONS), name)

    def test_options(self) -> None:
        for name, main in COMMANDS.items():
            _, told, _ = self.told(main, "--help")
            options = set(re.findall(r"(?<![\w-])--([a-z][a-z-]+)", told.split("options:")[1]))
            text = page(name)
            self.assertEqual(options, {each for each in options if f"Fl -{each}" in text}, name)
            described = set(re.findall(r"^\.It .*Fl -([a-z-]+)", text, re.MULTILINE))
            self.assertEqual(described, described & options, name)

    def test_statuses(self) -> None:
        for name in COMMANDS:
            statuses = page(name).split(".Sh EXIT STATUS")[1].split(".Sh ")[0]
            wanted = STATUSES.get(name, ["0", "1", "2", "3", "4"])
            self.assertEqual(re.findall(r"^\.It (\d)$", statuses, re.MULTILINE), wanted, name)

    def test_schemas(self) -> None:
        for name, schema in SCHEMAS.items():
            told = page(name).split(".Sh JSON")[1].split(".Bd ")[1].split("\n", 1)[1].split("\n.Ed")[0]
            self.assertEqual(told.split("\n"), list(schemas.lines(schema)), name)
            self.assertEqual(next(iter(schema)), "format")

    def test_the_example_of_a_verification(self) -> None:
        folder = os.path.join(EXAMPLES, "strace", "sudo")
        status, told, _ = self.told(verify_command.main, folder)
        self.assertEqual(status, 0)
        self.assertIn("\nexamples/strace/sudo" + told.removeprefix(folder), page("credaudit-verify"))

    def test_the_example_of_an_explanation(self) -> None:
        _, told, _ = self.told(explain_command.main, os.path.join(EXAMPLES, "saved_id_forgotten", "report"))
        self.assertIn("| credaudit-explain\n" + told, page("credaudit-explain"))

    def test_the_example_of_a_summary(self) -> None:
        folder = os.path.join(EXAMPLES, "real_id_left")
        answers = {("real", f"{kind}:33"): no(100) for kind in ("uid", "gid")}
        with mock.patch.object(summary_command, "Program", lambda: Told(None, answers)):
            _, told, _ = self.told(summary_command.main, "--classes", "-", os.path.join(folder, "world.toml"),
                                   os.path.join(folder, "log"), "100")
        self.assertIn("log 100\n" + told, page("credaudit-summary"))

    def test_the_example_of_a_timeline(self) -> None:
        folder = os.path.join(EXAMPLES, "dropped_for_good")
        with mock.patch.object(timeline_command, "Program", Plain):
            _, told, _ = self.told(timeline_command.main, os.path.join(folder, "world.toml"),
                                   os.path.join(folder, "log"), "100")
        self.assertIn("| tail -n 21\n" + "".join(told.splitlines(keepends=True)[-21:]), page("credaudit-timeline"))
