#!/usr/bin/env python3
"""Replays recorded runs of processes that change their credentials, and compares with what the kernel showed.

  replay_runs.py [--cases FILE | --record [--seed N] [--first K] [--runs N] [--keep]] [--write DIR] [PROGRAM]

PROGRAM is credaudit; left out, the one that was built in this repository. The runs are those kept beside this script,
data/runs.xz; those of FILE, which record_runs wrote; or with --record new ones: record_runs.c is compiled and run, as
root, with the other options handed on to it. --keep then keeps them in the place of the kept ones.

Each run is a world with one process, whose row declares all that the kernel showed of it at the start, and a log of the
run's events with the results that the kernel gave. --write puts them into DIR for each run, as SEED-NUMBER.toml and
.log, with the report that credaudit must give as .report. Compared are:

  - the credential line before the first event, with what the row declares;
  - after each event its line, with that of the log, and the credential line of the caller, after a fork that of the
    child too, after an exit none, with what the kernel showed then: all four user ids and group ids, the groups as a
    set, the five sets, securebits, no_new_privs.

Where the program prints something else, or says `impossible line K`, that event is a difference. The run goes on in a
new world, which declares the processes that live then as the kernel showed them. Where KNOWN tells what the rules give
instead of what the kernel did, the log has the rules' result and the program must print the rules' credential; the
process then makes no other call but its exit, so the run goes on as it is. Status 0: no other difference; 1: some; 2:
nothing could be compared.
"""
import os
from collections.abc import Iterator, Sequence
from typing import NamedTuple

import tools_path  # noqa: F401
from credaudit_tools.replay.program import Program
from kernel.recordings import (FS_ID_LEFT, HEAD, IMPOSSIBLE, Recordings, Tally, as_printed, difference, fields_of,
                               fs_id_left, give_up, program_of, replay, row, runs_of)
from plain.credential import Fields, credentials

SECUREBITS, EXEC_BITS = 0xff, 0xf00
CALLS = (
    "setuid setreuid setresuid setfsuid setgid setregid setresgid setfsgid setgroups capset bset_drop amb_raise"
    " amb_lower amb_clear securebits keepcaps no_new_privs fork exit").split()
Live = dict[int, Fields]        # the processes that live, each with what the kernel showed of it last


# ---- runs ----------------------------------------------------------------------------------------------------------


class ByRules(NamedTuple):
    """What the rules are known to give otherwise than the kernel: its title, the result, and the caller's fields."""
    title: str
    result: str
    fields: Fields


class Event:
    """One call with its result, and what the kernel showed of the caller before and after it, and of a fork's child."""

    def __init__(self, words: list[str], before: Fields) -> None:
        equals, after = words.index("="), words[words.index("=") + 2:]
        child = after.index("child") if "child" in after else len(after)
        self.pid, self.call, self.result = int(words[0]), words[1:equals], words[equals + 1]
        self.before, self.after = before, {**before, **fields_of(after[:child])}
        self.child = {**self.after, **fields_of(after[child + 1:])} if self.call == ["fork"] else None
        self.by_rules: ByRules | None = None

    def ends(self) -> bool:
        """Whether the caller exits."""
        return self.call == ["exit"]

    def happen(self, live: Live) -> None:
        """Takes the processes that live to after it."""
        live[self.pid] = self.after
        if self.child:
            live[int(self.result)] = self.child
        if self.ends():
            del live[self.pid]

    def told(self) -> tuple[str, Fields]:
        """The result and the caller's fields that the program is to give."""
        return (self.by_rules.result, self.by_rules.fields) if self.by_rules else (self.result, self.after)

    def line(self) -> str:
        """Its line in a log."""
        return f"{self.pid} {' '.join(self.call)} = {self.told()[0]}"

    def printed(self) -> str:
        """The line in the way of a report."""
        return f"{self.pid} {as_printed(self.call)} = {self.told()[0]}"

    def shown(self) -> list[tuple[int, Fields]]:
        """The processes of which the report has a line after the event, with their fields."""
        if self.ends():
            return []
        return [(self.pid, self.told()[1])] + ([(int(self.result), self.child)] if self.child else [])


class Run:
    """A recorded run."""

    def __init__(self, words: list[str]) -> None:
        self.name, self.events = "-".join(words), list[Event]()
        self.start: Live = {}
        self.live: Live = {}

    def begin(self, words: list[str]) -> None:
        """The process at the start: its pid, and all fields."""
        self.start = {int(words[0]): fields_of(words[1:])}
        self.live = dict(self.start)

    def add(self, words: list[str]) -> None:
        """An event."""
        event = Event(words, self.live[int(words[0])])
        event.by_rules = next(filter(None, (rules(event) for rules in KNOWN)), None)
        event.happen(self.live)
        self.events.append(event)


def read_runs(lines: list[str]) -> list[Run]:
    """The runs. Gives up where one can't be replayed as it is."""
    runs = runs_of(lines, Run)
    for run in runs:
        for event, following in zip(run.events, [*run.events[1:], None]):
            if event.by_rules and not (following and following.pid == event.pid and following.ends()):
                give_up(f"run {run.name}: a process goes on after a call that the rules answer otherwise")
    return runs


# ---- differences ---------------------------------------------------------------------------------------------------

EXEC_TAKEN = ("PR_SET_SECUREBITS: the kernel takes the SECBIT_EXEC_ bits; by the rules no bit above 0xff is taken"
              " (EPERM)")


def left_fs_id(event: Event) -> ByRules | None:
    """What the rules give where the kernel leaves the fs id (fs_id_left)."""
    by_rules = fs_id_left(event.call, event.result, event.before, event.after)
    return ByRules(FS_ID_LEFT, event.result, by_rules) if by_rules and by_rules != event.after else None


def taken_exec_bits(event: Event) -> ByRules | None:
    """What the rules give where the kernel takes securebits of which some are SECBIT_EXEC_ bits and none is a bit past
    those, and nothing else changes. Kernels since Linux 6.14 do, in cap_task_prctl of their security/commoncap.c; the
    rules have the securebits of capabilities(7)."""
    if event.call[0] != "securebits" or event.result != "0":
        return None
    bits = int(event.call[1])
    changed = {**event.before, "sec": f"{bits:02x}"}
    if not bits & EXEC_BITS or bits & ~(SECUREBITS | EXEC_BITS) or event.after != changed:
        return None
    return ByRules(EXEC_TAKEN, "EPERM", event.before)


# Where the rules are known to give another result or credential than the kernel: the title and both, or None.
KNOWN = (left_fs_id, taken_exec_bits)


def differs(tally: Tally, run: Run, event: Event, what: str, told: str) -> None:
    """Counts a difference at an event: what it is, and what the program told."""
    tally.differs(f"{event.call[0]}: {what}", run=f"{run.name}, event {run.events.index(event) + 1}",
                  state=credentials(event.before), call=event.line(), kernel=credentials(event.after),
                  **({"child": credentials(event.child)} if event.child else {}), told=told)


def unlike(event: Event, number: int, report: list[str]) -> tuple[str, str] | None:
    """What the program printed otherwise of an event, and that line; None where nothing is."""
    if report[0] != f"{number}: {event.printed()}":
        return "the line of the event", report[0]
    for (pid, fields), line in zip(event.shown(), report[1:]):
        if line != f"> {pid} init {credentials(fields)}":
            whose = "" if pid == event.pid else "the child's "
            return whose + difference(line, credentials(fields)), line
    return None


def world_of(live: Live) -> str:
    """The world of these processes."""
    return HEAD + "".join(row(pid, fields) for pid, fields in live.items())


def log_of(events: Sequence[Event]) -> str:
    """The log of these events."""
    return "".join(event.line() + "\n" for event in events)


def report_of(live: Live, events: Sequence[Event]) -> Iterator[str]:
    """The lines of the report that the program must give."""
    yield from (f"> {pid} init {credentials(live[pid])}" for pid in sorted(live))
    for number, event in enumerate(events, 1):
        yield f"{number}: {event.printed()}"
        yield from (f"> {pid} init {credentials(fields)}" for pid, fields in event.shown())
    yield f"end {len(events)}"


def compare_front(program: Program, run: Run, live: Live, events: Sequence[Event], tally: Tally) -> int:
    """The number of events up to, and with, the first that differs. Gives up where a replay ends otherwise than one
    may."""
    report, status = replay(program, world_of(live), log_of(events))
    last = IMPOSSIBLE.fullmatch(report[-1]) if report and status == 3 else None
    good = int(last[1]) - 1 if last else len(events)
    lines = sum(1 + len(event.shown()) for event in events[:good])
    if not (last or (status == 0 and report[-1] == f"end {good}")) or len(report) != len(live) + lines + 1:
        give_up(f"run {run.name}: a replay ended with status {status}; the last line: {''.join(report[-1:])}")
    if report[:len(live)] != list(report_of(live, []))[:-1]:
        give_up(f"run {run.name}: the lines before the first event aren't those of the world")
    at = len(live)
    for number, event in enumerate(events[:good], 1):
        found = unlike(event, number, report[at:])
        if found:
            differs(tally, run, event, *found)
            return number
        if event.by_rules:
            tally.explained[event.by_rules.title] += 1
        at += 1 + len(event.shown())
    if last:
        differs(tally, run, events[good], last[2], report[-1])
    return min(good + 1, len(events))


def compare_run(program: Program, run: Run, tally: Tally) -> int:
    """The number of worlds that were needed."""
    live, events, worlds = dict(run.start), run.events, 0
    while events:
        seen = compare_front(program, run, live, events, tally)
        # A process with securebits that no world declares does nothing but its exit, which comes next.
        if seen < len(events) and int(events[seen - 1].after["sec"], 16) > SECUREBITS:
            seen += 1
        for event in events[:seen]:
            event.happen(live)
        events, worlds = events[seen:], worlds + 1
    return worlds


def write_run(run: Run, folder: str) -> None:
    """Writes a run's world, log and report."""
    for ending, text in (("toml", world_of(run.start)), ("log", log_of(run.events)),
                         ("report", "".join(line + "\n" for line in report_of(run.start, run.events)))):
        with open(os.path.join(folder, f"{run.name}.{ending}"), "w") as file:
            file.write(text)


def main() -> None:
    """Compares the runs that the words ask for."""
    recordings, tally = Recordings("record_runs", "runs.xz", ("seed", "first", "runs")), Tally([FS_ID_LEFT, EXEC_TAKEN])
    ask = recordings.parser("replay_runs.py [--cases FILE | --record [--seed N] [--first K] [--runs N] [--keep]]"
                            " [--write DIR] [PROGRAM]")
    ask.add_argument("--write")
    asked = ask.parse_args()
    kernel, runs = recordings.read(ask, asked, read_runs)
    if asked.write:
        os.makedirs(asked.write, exist_ok=True)
        for run in runs:
            write_run(run, asked.write)
    program, worlds = program_of(asked), 0
    for run in runs:
        for event in run.events:
            tally.count(event.call, event.result, event.before, event.after)
        worlds += compare_run(program, run, tally)
    events = sum(tally.outcomes.values())
    print(f"{kernel}: {events} events in {len(runs)} runs, replayed in {worlds} worlds\n")
    tally.show(CALLS, "events")
    tally.end()


if __name__ == "__main__":
    main()
