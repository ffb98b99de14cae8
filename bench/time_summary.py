#!/usr/bin/env python3
"""Times credaudit-summary on 41 capabilities and 4 ids or more, with a scan of 500 set-user-ID programs, three times
over: of a daemon that has all of them still, of one that gave them up, and of one that kept its saved user id.

  time_summary.py         asks the program that the commands in tools/ find

Tells how many rights were asked about, of which classes, and the seconds by the clock and of processors: of the command
itself, and of the program. Status 1: there are fewer than 45 rights, or one summary took more than 3 seconds of
processors; 3: there is no program, or it fails.
"""
import contextlib
import io
import os
import resource
import tempfile
import time
from collections.abc import Sequence

import tools_path  # noqa: F401
from credaudit_tools.command_line.command import FOUND, GOOD, Failure, run
from credaudit_tools.evidence import evidence_text, premises
from credaudit_tools.evidence.evidence import Evidence
from credaudit_tools.formats import worlds
from credaudit_tools.formats.credential import Credential, four
from credaudit_tools.formats.kernel_names import ALL
from credaudit_tools.formats.worlds import File, Process, World
from credaudit_tools.replay.program import find
from credaudit_tools.summary import summary_command

MOST, RIGHTS, PROGRAMS = 3.0, 45, 500
ROOT = Credential(four([0]), four([0]), frozenset({4, 27}), 0, ALL, ALL, ALL, 0, 0, False)
WORLD = worlds.written(World("script", processes=[Process(100, ROOT)]))
SCAN = worlds.written(World("script", files=[File(f"/usr/bin/program-{number}", 0, 0, 0o4755)
                                             for number in range(PROGRAMS)]))
DROPS = "100 setgroups 33 = 0\n100 setresgid 33 33 33 = 0\n"
LOGS = {"all kept": "", "given up": DROPS + "100 setresuid 33 33 33 = 0\n100 no_new_privs 1 = 0\n",
        "a saved user id": DROPS + "100 setresuid 33 33 -1 = 0\n"}


def evidence() -> Evidence:
    """That of a scan."""
    found = Evidence()
    for premise in (premises.SCAN, premises.RECORDING):
        found.establish(premise, "made for a time")
    return found


def spent(whose: int) -> float:
    """The seconds of processors so far, of this process or of those that it called."""
    found = resource.getrusage(whose)
    return found.ru_utime + found.ru_stime


def summed_up(folder: str, log: str) -> tuple[list[str], float, float, float]:
    """The classes of a summary, and its seconds: by the clock, and of processors its own and the program's."""
    paths = [os.path.join(folder, name) for name in ("world.toml", "log", "scan.toml", "classes")]
    for path, data in zip(paths, (WORLD, log.encode(), SCAN)):
        with open(path, "wb") as file:
            file.write(data)
    with open(evidence_text.beside(paths[2]), "wb") as file:
        file.write(evidence_text.world_text(evidence(), SCAN))
    whose = resource.RUSAGE_SELF, resource.RUSAGE_CHILDREN
    began, before = time.monotonic(), [spent(each) for each in whose]
    with contextlib.redirect_stdout(io.StringIO()), contextlib.redirect_stderr(io.StringIO()):
        status = summary_command.main(["--files", paths[2], "--classes", paths[3], *paths[:2], "100"])
    own, called = (spent(each) - first for each, first in zip(whose, before))
    if status != GOOD:
        raise Failure(f"credaudit-summary ends with status {status}")
    with open(paths[3], encoding="ascii") as file:
        return [line.split()[1] for line in file], time.monotonic() - began, own, called


def main(_: Sequence[str]) -> int:
    """Times the three; the status."""
    print(f"of {find()}")
    bad = False
    with tempfile.TemporaryDirectory(prefix="credaudit-time-") as folder:
        for name, log in LOGS.items():
            kinds, clock, own, called = summed_up(folder, log)
            counts = ", ".join(f"{kinds.count(kind)} {kind}" for kind in dict.fromkeys(kinds))
            print(f"{name:16} {len(kinds)} rights ({counts}): {clock:.2f} s by the clock; of processors {own:.2f} s of"
                  f" the command, {called:.2f} s of the program")
            bad = bad or len(kinds) < RIGHTS or own + called > MOST
    return FOUND if bad else GOOD


if __name__ == "__main__":
    run("time_summary.py", main)
