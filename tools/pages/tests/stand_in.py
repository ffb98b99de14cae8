#!/usr/bin/env python3
"""Stands for a command of a recipe (docs/COOKBOOK.md), by its first word: what needs root is read by the command's own
parser, and a stored recording, or a scan with one program, stands for what it makes. Summaries are real, and plain
Python answers in the program's place (plain_program.py).

The variable COOKBOOK_RECORDING names the recording, COOKBOOK_ROOT the folder with the unit, and COOKBOOK_GROUPS is set
by what stands for setpriv.
"""
import os
import shutil
import sys
from collections.abc import Sequence
from unittest import mock

from commands.tests import support
from commands.tests.plain_program import Plain
from credaudit_tools.capture import capture_command
from credaudit_tools.command_line import command
from credaudit_tools.command_line.command import FAILED, FOUND, GOOD
from credaudit_tools.evidence import evidence_text
from credaudit_tools.formats import worlds
from credaudit_tools.formats.worlds import File, World
from credaudit_tools.replay import recording
from credaudit_tools.summary import summary_command
from credaudit_tools.trace import trace_command
from credaudit_tools.unit import unit_command

SCAN = World("script", files=[File("/usr/bin/su", 0, 0, 0o4755)])


def trace(given: Sequence[str]) -> int:
    """A stored recording, which goes with the scan. A program that is recorded began with groups, and something says
    when the recording ends."""
    asked = trace_command.words().parse_args(given)
    if not asked.seconds or bool(asked.pid) == bool(asked.command):
        return FAILED
    if asked.command and ("COOKBOOK_GROUPS" not in os.environ or asked.until_each is None):
        return FAILED
    shutil.copytree(os.environ["COOKBOOK_RECORDING"], asked.output)
    kept = recording.read(asked.output)
    assert kept.made is not None
    support.stand(kept.made.evidence, [status.pid for status in kept.statuses])
    recording.write(asked.output, kept)
    return GOOD


def capture(given: Sequence[str]) -> int:
    """A scan of one set-user-ID program, with a doubt's status."""
    asked, data = capture_command.words_of(given), worlds.written(SCAN)
    for path, text in ((asked.out, data),
                       (evidence_text.beside(asked.out), evidence_text.world_text(support.scanned(), data))):
        with open(path, "wb") as file:
            file.write(text)
    return FOUND


def unit(given: Sequence[str]) -> int:
    """The unit of the folder."""
    return unit_command.main(["--root", os.environ["COOKBOOK_ROOT"], *given])


def main() -> None:
    name, *given = sys.argv[1:]
    jobs = {"credaudit-trace": trace, "credaudit-capture": capture, "credaudit-unit": unit,
            "credaudit-summary": summary_command.main}
    with mock.patch.object(summary_command, "Program", Plain), mock.patch.object(unit_command, "Program", Plain):
        sys.exit(command.carried_out(name, jobs[name], given))


if __name__ == "__main__":
    main()
