"""What the tests of credaudit-timeline share: logs written by hand, and the command with plain Python for the program
(plain_program.py)."""
import json
from typing import Any
from unittest import mock

from credaudit_tools.command_line.command import GOOD
from credaudit_tools.formats import worlds
from credaudit_tools.formats.report import Report
from credaudit_tools.formats.worlds import World
from credaudit_tools.replay.program import Program
from credaudit_tools.timeline import timeline_command

from .. import support
from ..plain_program import Plain
from ..told_program import YES
from ..told_rows import file_row

Spans = list[tuple[str, int]]       # of a right each class with the line from which on it is of that class

# A daemon that root starts, with two capabilities and a group; everybody may run su.
WORLD = f"""log = "script"
{file_row("/usr/bin/su", "4755")}[[process]]
pid = 100
groups = [4]
permitted = "CAP_SETUID,CAP_SETGID"
effective = "CAP_SETUID,CAP_SETGID"
"""
# It takes no group, gives birth to a worker, and stays what it is; the worker becomes the user 33, and takes
# no_new_privs.
LOG = """100 setgroups = 0
; a remark, which is a line too
100 fork = 101
101 setresgid 33 33 33 = 0
101 setresuid 33 33 33 = 0
101 no_new_privs 1 = 0
"""


class Yes(Plain):
    """Replays a log, and says yes to whatever is asked."""

    def tail(self, *words: str) -> tuple[bytes, int]:
        return (b"end 0\n" + YES.encode(), 0) if words[0] == "audit" else (b"holds\n", 0)


class Case(support.Case):
    """A test with a world and a log of its own."""

    program: type[Plain] = Plain

    def names(self, world: str = WORLD, log: str = LOG) -> list[str]:
        """The files of a world and of a log."""
        return [self.put("world.toml", world.encode()), self.put("log", log.encode())]

    def command(self, *given: str) -> tuple[int, str, str]:
        """The command."""
        with mock.patch.object(timeline_command, "Program", self.program):
            return self.told(timeline_command.main, *given)

    def document(self, *given: str) -> dict[str, Any]:
        """What it writes as JSON."""
        status, out, errors = self.command("--json", *given)
        self.assertEqual(status, GOOD, errors)
        made: dict[str, Any] = json.loads(out)
        return made


def replayed(world: str, log: str, program: Program | None = None) -> tuple[World, Report]:
    """An accepted replay."""
    read = (program or Plain()).replay_texts(world.encode(), log.encode())
    assert read.status == 0, read.ending
    return worlds.read(world.encode()), read


def spans_in(lane: dict[str, Any]) -> dict[str, Spans]:
    """By right the spans of a lane."""
    return {right: [(span["class"], span["from"]) for span in row["spans"]]
            for row in lane["rights"] for right in row["rights"]}
