"""The search for borders against audits of each front of the log: on all logs of examples/ both tell the same. Plain
Python stands for the program, and of the rights it is asked about one; where the variable CREDAUDIT_BUILT names a built
program, it is asked about all that the processes had."""
import glob
import json
import os
import shutil
import unittest
from collections.abc import Callable, Sequence
from typing import Any
from unittest import mock

from credaudit_tools.command_line.command import GOOD
from credaudit_tools.formats import worlds
from credaudit_tools.formats.rights import Right
from credaudit_tools.replay import recording
from credaudit_tools.replay.program import Program
from credaudit_tools.summary import summary_command
from credaudit_tools.timeline import timeline, timeline_command

from .. import support
from ..plain_program import Plain

BUILT = os.environ.get("CREDAUDIT_BUILT")
ASKED = [Right("uid", 0)]


def examples() -> list[str]:
    """The folders with a world and a log."""
    return sorted(os.path.dirname(path) for path in glob.glob(os.path.join(support.EXAMPLES, "**", "world.toml"),
                                                              recursive=True))


def log_of(folder: str) -> str:
    """The log of an example."""
    [path] = [path for path in (os.path.join(folder, name) for name in (recording.LOG, "drop_uids.log"))
              if os.path.exists(path)]
    return path


def process_of(folder: str) -> str:
    """The process that an example's query asks about; where it has none, the first one of the world."""
    path = os.path.join(folder, "query")
    if os.path.exists(path):
        with open(path, encoding="ascii") as file:
            return file.read().split()[0]
    with open(os.path.join(folder, recording.WORLD), "rb") as world:
        return str(worlds.read(world.read()).processes[0].pid)


class Same(support.Case):
    def document(self, main: Callable[[Sequence[str]], int], *given: str) -> dict[str, Any]:
        """What a command writes as JSON."""
        status, out, errors = self.told(main, "--json", *given)
        self.assertEqual(status, GOOD, errors)
        made: dict[str, Any] = json.loads(out)
        return made

    def words(self, folder: str) -> list[str]:
        """The words for an example: a recording, or a world and a log beside which nothing stands, and the process."""
        log = log_of(folder)
        if recording.is_folder(folder) and os.path.basename(log) == recording.LOG:
            return [folder]
        return [shutil.copy(path, os.path.join(self.work, name)) for path, name in
                ((os.path.join(folder, recording.WORLD), recording.WORLD), (log, recording.LOG))] + [process_of(folder)]

    def test_all_logs_are_there(self) -> None:
        self.assertGreaterEqual(len(examples()), 53)

    def compare(self, program: Callable[[], Program]) -> None:
        """Both, on all logs."""
        for folder in examples():
            words = self.words(folder)
            with self.subTest(folder), mock.patch.object(timeline_command, "Program", program):
                made = self.document(timeline_command.main, *words)
                self.assertEqual(self.document(timeline_command.main, "--every-line", *words), made)

    def test_by_plain_python(self) -> None:
        with mock.patch.object(timeline, "rights_had", lambda *_: ASKED):
            self.compare(Plain)

    @unittest.skipIf(BUILT is None, "CREDAUDIT_BUILT names no program")
    def test_by_the_program(self) -> None:
        self.compare(lambda: Program(os.path.abspath(BUILT or "")))

    @unittest.skipIf(BUILT is None, "CREDAUDIT_BUILT names no program")
    def test_it_ends_as_a_summary_says(self) -> None:
        """Each right has the class at the end that credaudit-summary gives it."""
        def program() -> Program:
            return Program(os.path.abspath(BUILT or ""))
        for folder in examples():
            words = self.words(folder)
            with self.subTest(folder), mock.patch.object(timeline_command, "Program", program), \
                    mock.patch.object(summary_command, "Program", program):
                made, summed = (self.document(main, *words) for main in (timeline_command.main, summary_command.main))
                self.assertEqual([answer["process"] for answer in made["answers"]],
                                 [answer["process"] for answer in summed["answers"]])
                for answer, whole in zip(made["answers"], summed["answers"]):
                    last = {right: row["spans"][-1] for row in answer["lanes"][0]["rights"] for right in row["rights"]}
                    self.assertEqual({right: span["class"] for right, span in last.items()},
                                     {each["right"]: each["class"] for each in whole["rights"]})


if __name__ == "__main__":
    unittest.main()
