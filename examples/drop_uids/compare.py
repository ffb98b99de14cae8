#!/usr/bin/env python3
"""Compares the replay of the recorded log with what the process saw of itself after each call.

  compare.py [PROGRAM]        PROGRAM is credaudit; left out, the one in the PATH or that was built in this repository
  compare.py --report FILE    a report that was made before, - for standard input

At the start and after each call the credential line must have what /proc/self/status and PR_GET_SECUREBITS showed of
the process, in the initial user namespace: four user and four group ids, the groups as a set, five sets of
capabilities, the securebits and no_new_privs.

One line for each call, and a verdict at the end. Status 0: all agree; 1: a difference, or a replay that isn't accepted;
2: nothing could be compared.
"""
import os
import sys

HERE = os.path.dirname(os.path.abspath(__file__))
sys.path.insert(0, os.path.join(HERE, "..", "..", "tools"))

import tools_path  # noqa: E402, F401
from credaudit_tools.command_line.command import Failure  # noqa: E402
from credaudit_tools.command_line.files import read_regular  # noqa: E402
from credaudit_tools.formats import report  # noqa: E402
from credaudit_tools.formats.credential import Credential, differences, field_text  # noqa: E402
from credaudit_tools.formats.statuses import credential_of, parts_of_line  # noqa: E402
from credaudit_tools.replay.program import Program  # noqa: E402


def read(name: str) -> list[str]:
    """The lines of a file beside this script."""
    return read_regular(os.path.join(HERE, name)).decode("ascii").splitlines()


def seen_in(lines: list[str]) -> list[Credential]:
    """What the process saw of itself, line by line."""
    try:
        return [credential_of(parts_of_line(line)) for line in lines]
    except (KeyError, ValueError) as error:
        raise Failure(f"status.txt has a line that is none of a status: {error}") from error


def report_of(words: list[str]) -> report.Report:
    """The report that the words ask for."""
    if words[:1] == ["--report"] and len(words) == 2:
        with sys.stdin.buffer if words[1] == "-" else open(words[1], "rb") as file:
            return report.read(file.read().decode("ascii"), 0)
    if len(words) > 1:
        raise Failure("usage: compare.py [PROGRAM] | compare.py --report FILE")
    program = Program(os.path.abspath(words[0]) if words else None)
    return program.replay(os.path.join(HERE, "world.toml"), os.path.join(HERE, "drop_uids.log"))


def event_text(event: report.Event) -> str:
    """An event, as a report has it."""
    return " ".join([f"{event.line}: {event.pid} {event.call}", *event.arguments, "=", event.result])


def compared(calls: list[str], seen: list[Credential], told: report.Report) -> int:
    """Tells each line; the status."""
    wanted = ["the start", *(f"{number}: {call}" for number, call in enumerate(calls, 1))]
    events = ["the start", *map(event_text, told.events)]
    standing = [*told.start, *(one for event in told.events for one in event.after)]
    if told.status != 0 or told.ending != [f"end {len(calls)}"] or events != wanted or len(standing) != len(seen):
        print("the replay is no accepted one of this log; its last line: " + "".join(told.ending[-1:]))
        return 1
    bad = 0
    for what, replayed, own in zip(wanted, standing, seen):
        found = [f"{name}={value}" for name, _, value in differences(replayed.credential, own)]
        bad += bool(found)
        print(f"{what:45} uid={field_text('uid', own.uid):31} "
              + ("but the process saw " + " ".join(found) if found else "agrees"))
    print(f"{len(calls)} calls: " + (f"{bad} lines differ" if bad else "no difference"))
    return 1 if bad else 0


def main() -> int:
    """Compares what the words ask for; the status."""
    try:
        calls, seen = read("drop_uids.log"), seen_in(read("status.txt"))
        if not calls or len(seen) != len(calls) + 1:
            raise Failure("status.txt hasn't a line for the start and one for each call")
        return compared(calls, seen, report_of(sys.argv[1:]))
    except Failure as failure:
        print(f"compare.py: {failure}", file=sys.stderr)
        return 2


if __name__ == "__main__":
    sys.exit(main())
