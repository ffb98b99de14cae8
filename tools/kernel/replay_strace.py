#!/usr/bin/env python3
"""Replays the recorded programs of examples/strace/ by plain rules, and compares each with what the kernel showed.

  replay_strace.py [PROGRAM]    PROGRAM is credaudit; left out, the one that was built in this repository
  replay_strace.py --plain      by the plain rules alone
  replay_strace.py --leave-out  how many lines are noticed, by these comparisons, where one is left out

Each log is read by plain/strace.py and its events are run by plain/rules.py (plain/report.py). Without --plain the
program replays the log too. Each replay is held against the recording as credaudit-verify(1) does. One line for each
program. Status 0: all agree; 1: some differ, or a log isn't read to its end; 2: nothing could be compared.
"""
import collections
import glob
import os
import sys
from dataclasses import replace

import tools_path  # noqa: F401
from credaudit_tools.command_line.command import Failure
from credaudit_tools.formats import report, strace_lines
from credaudit_tools.replay import recording
from credaudit_tools.replay.program import Program
from credaudit_tools.replay.recording import Recording
from credaudit_tools.verify.verification import Verdict, verify
from plain.report import report as plain_report

HERE = os.path.dirname(os.path.abspath(__file__))
FOLDERS = os.path.normpath(os.path.join(HERE, "..", "..", "examples", "strace", "*", recording.STATUS))


def by_plain_rules(kept: Recording) -> report.Report:
    """The replay by the plain rules."""
    told = plain_report(kept.world, kept.log)
    return report.read(told.text.decode(), told.status)


def leave_out(folders: list[str]) -> None:
    """Leaves each line out in turn, and counts by call which ones make a difference."""
    count: collections.Counter[str] = collections.Counter()
    noticed: collections.Counter[str] = collections.Counter()
    for folder in folders:
        kept = replace(recording.read(folder), made=None)       # without the sums, which notice everything
        log = kept.log.splitlines(keepends=True)
        for place, line in enumerate(log):
            parts = strace_lines.parted(line)
            body = parts[1].removeprefix(b"<... ") if parts else b""
            name = (strace_lines.name_of(body) or body.split(b" ")[0]).decode("ascii", "replace").replace("+++", "exit")
            fewer = replace(kept, log=b"".join(log[:place] + log[place + 1:]))
            count[name] += 1
            noticed[name] += bool(verify(fewer, by_plain_rules(fewer)).faults())
    for name in sorted(count):
        print(f"{name:12} {count[name]:4} lines, {noticed[name]:4} noticed")
    print(f"{count.total()} lines, {noticed.total()} noticed")


def compared(folder: str, program: Program | None) -> tuple[Verdict, list[str], int]:
    """The verdict on the replay by the plain rules, what differs in either, and how many events there are."""
    kept = recording.read(folder)
    told = by_plain_rules(kept)
    verdict = verify(kept, told)
    wrong = verdict.faults()
    if program is not None:
        own = program.replay(os.path.join(folder, recording.WORLD), os.path.join(folder, recording.LOG))
        wrong = [*wrong, *(f"{os.path.basename(program.path)}: {one}" for one in verify(kept, own).faults())]
    return verdict, wrong, len(told.events)


def main() -> int:
    """Compares the recordings; the status."""
    folders = [os.path.dirname(status) for status in sorted(glob.glob(FOLDERS))]
    words = [word for word in sys.argv[1:] if word != "--plain"]
    if sys.argv[1:] == ["--leave-out"]:
        leave_out(folders)
        return 0
    try:
        if len(words) > 1:
            raise Failure("usage: replay_strace.py [PROGRAM] | --plain | --leave-out")
        program = None if "--plain" in sys.argv else Program(os.path.abspath(words[0]) if words else None)
        bad = processes = answers = 0
        for folder in folders:
            verdict, wrong, events = compared(folder, program)
            print(f"{os.path.basename(folder):20} {events:5} events, {verdict.processes:3} live,"
                  f" {verdict.answers:4} answers: " + ("differs" if wrong else "agrees"))
            print("".join(f"    {one}\n" for one in wrong), end="")
            bad, processes, answers = bad + bool(wrong), processes + verdict.processes, answers + verdict.answers
    except Failure as failure:
        print(f"replay_strace.py: {failure}", file=sys.stderr)
        return 2
    print(f"{len(folders)} logs, {processes} processes at their end, {answers} answers: "
          + (f"{bad} logs differ" if bad else "no difference"))
    return 2 if not folders else 1 if bad else 0


if __name__ == "__main__":
    sys.exit(main())
