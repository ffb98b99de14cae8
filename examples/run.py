#!/usr/bin/env python3
"""Replays each example that has an expected report, and compares.

  run.py [PROGRAM]        PROGRAM is credaudit; left out, the one in the PATH or that was built in this repository

An example is a folder with world.toml, log and report. Where the report is that of an audit, query has its PID and
RIGHT; where the status is to be another than 0, status has it. The reports were written by hand, from docs/RULES.md and
the manual pages that it names, docs/PLANS.md and docs/BOUNDS.md; the lines of bounds in them were worked out by
tools/plain/bounds.py. One line for each example, and where they differ the first line that does. Status 0: all agree;
1: some differ; 2: there is no program.
"""
import glob
import itertools
import os
import sys

HERE = os.path.dirname(os.path.abspath(__file__))
sys.path.insert(0, os.path.join(HERE, "..", "tools"))

import tools_path  # noqa: E402, F401
from credaudit_tools.command_line.command import Failure  # noqa: E402
from credaudit_tools.command_line.files import read_regular  # noqa: E402
from credaudit_tools.replay.program import Program  # noqa: E402


def words_of(folder: str, name: str) -> list[str]:
    """The words of a file of the example; none where it isn't there."""
    path = os.path.join(folder, name)
    return read_regular(path).decode("ascii").split() if os.path.exists(path) else []


def difference(program: Program, folder: str) -> tuple[str, str] | None:
    """The first line in which the answer differs from the report, and that of the report; None where none does."""
    query = words_of(folder, "query")
    files = [os.path.join(folder, name) for name in ("world.toml", "log")]
    text, status = program.answer("audit" if query else "replay", *files, *query)
    report = read_regular(os.path.join(folder, "report")).decode("ascii")
    wanted = int((words_of(folder, "status") or ["0"])[0])
    lines = itertools.zip_longest(text.splitlines(), report.splitlines(), fillvalue="nothing")
    found = next((pair for pair in lines if pair[0] != pair[1]), None)
    return found or (None if status == wanted else (f"status {status}", f"status {wanted}"))


def main() -> int:
    """Compares all examples; the status."""
    if len(sys.argv) > 2 or sys.argv[1:2] in (["-h"], ["--help"]):
        print(__doc__ if len(sys.argv) == 2 else "usage: run.py [PROGRAM]",
              file=sys.stdout if len(sys.argv) == 2 else sys.stderr)
        return 0 if len(sys.argv) == 2 else 2
    try:
        program, bad = Program(os.path.abspath(sys.argv[1]) if len(sys.argv) == 2 else None), 0
        for path in sorted(glob.glob(os.path.join(HERE, "*", "report"))):
            found = difference(program, os.path.dirname(path))
            bad += found is not None
            print(f"{os.path.basename(os.path.dirname(path)):24} " + ("agrees" if found is None else "differs"))
            if found:
                print(f"  told    {found[0]}\n  wanted  {found[1]}")
    except Failure as failure:
        print(f"run.py: {failure}", file=sys.stderr)
        return 2
    return 1 if bad else 0


if __name__ == "__main__":
    sys.exit(main())
