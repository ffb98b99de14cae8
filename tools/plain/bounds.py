#!/usr/bin/env python3
"""The answers that rest on bounds, and on runs, worked out by plain Python: over plain/report.py, plain/closure.py
(docs/BOUNDS.md) and plain/certificate.py (docs/CERTIFICATE.md). What `credaudit` answers can be judged by it without
credaudit.

  bounds.py WORLD LOG PID RIGHT                 `yes` and the certificate, or `undecided RULE ROW` and the bounds
  bounds.py check WORLD LOG PID RIGHT CERT      the report of `credaudit check`
  bounds.py confirm WORLD LOG PID RIGHT RUN     the report of `credaudit confirm`
  bounds.py --cases                             works out all of these that stand in crates/report_cases once more

It tries no plans. So where it says `yes`, an audit does; where it says `undecided`, an audit says `no` if a plan ends
with a holder. It ends with the status of the report; 14 says that the plain reader doesn't judge the world.
"""
import sys
from collections import Counter
from dataclasses import dataclass
from pathlib import Path

import tools_path  # noqa: F401
from plain.cases import Case, all_cases
from plain.certificate import NoBounds, read, text
from plain.closure import Closure, Right
from plain.reader import (CAP_NUMBERS, Event, NotJudged, Refused, World, digits, read_line, read_toml, space_number,
                          space_token)
from plain.report import RIGHT, bad_query, child_of, lines_of, next_state, report, script_events, strace_events
from plain.rules import Member, Rules, State

MOST = {"certificate": 67108864, "run": 67108864, "family": 256}
HOLDS, YES, NO, UNDECIDED, READ_FAULT, LIMIT, REFUSED, BAD_QUERY, NOT_JUDGED = 0, 0, 1, 2, 7, 9, 11, 12, 14


class Ends(Exception):
    """A command ends: its status, and the lines that it writes last."""

    def __init__(self, status: int, *lines: str) -> None:
        super().__init__(status, lines)
        self.status, self.lines = status, lines


def past(name: str) -> Ends:
    """The end for more than that limit allows."""
    return Ends(LIMIT, f"limit {name} {MOST[name]}")


@dataclass
class Asked:
    """A query on the state after a log, and the family that it is about."""
    world: World
    state: State
    excluded: frozenset[str]
    members: set[int]
    right: Right

    def common(self) -> frozenset[str]:
        """What the world's filter excludes, and what the own filters of all members do."""
        return self.excluded | frozenset.intersection(*(self.state.filter_of(pid) for pid in self.members))

    def closure(self) -> Closure:
        """The rules over that state."""
        return Closure(self.state.spaces, self.world.files.values(), self.common())

    def of_members(self) -> list[Member]:
        """The members, each with its space and its credential."""
        return [self.state.processes[pid] for pid in sorted(self.members)]

    def row(self, number: int) -> str:
        """The row of that number, as reports tell it."""
        token = space_token(self.world, number // 2)
        return f"fresh({token})" if number % 2 else token


# ---- the query -----------------------------------------------------------------------------------------------------


Forebears = dict[int, int | None]      # by pid


def forebears_after(of: Forebears, event: Event) -> Forebears:
    """The forebear of each process after a step."""
    child = child_of(event)
    if child is not None:
        return {**of, child: event.pid}
    if event.call.name != "exit":
        return of
    return {pid: of[event.pid] if parent == event.pid else parent for pid, parent in of.items() if pid != event.pid}


def forebears(declared: Forebears, world: World, log: bytes) -> Forebears:
    """The same after an accepted log."""
    of = declared
    for _, event in (script_events if world.script else strace_events)(world, log):
        of = forebears_after(of, event)
    return of


def family(of: Forebears, root: int) -> set[int]:
    """The process and all whose chain of forebears reaches it."""
    members, grown = {root}, True
    while grown:
        more = {pid for pid, parent in of.items() if parent in members} - members
        members, grown = members | more, bool(more)
    return members


def right_of(spelt: bytes, world: World) -> Right:
    """The right of a text that is one."""
    found = RIGHT.fullmatch(spelt)
    assert found
    id_, name, token = found.groups()
    if id_ is not None:
        return Right(spelt[:3].decode(), int(id_))
    space = space_number(token, world)
    assert space is not None
    return Right("cap", 1 << CAP_NUMBERS[name], space)


def asked(world: bytes, log: bytes, pid: bytes, right: bytes) -> Asked:
    """The query after a log. Ends where the log isn't accepted, or the query doesn't stand."""
    seen = report(world, log)
    if seen.world is None or seen.state is None:
        raise Ends(seen.status, seen.text.decode("latin-1").splitlines()[-1])
    bad = bad_query(seen, pid, right)
    if bad:
        raise Ends(BAD_QUERY, f"bad query: {bad}")
    table = read_toml(world) or {}
    declared = {row["pid"]: row.get("parent") for row in table.get("process", [])}
    root = digits(pid)
    assert root is not None
    members = family(forebears(declared, seen.world, log), root)
    if len(members) > MOST["family"]:
        raise past("family")
    excluded = frozenset(table.get("filter", {}).get("exclude", []))
    return Asked(seen.world, seen.state, excluded, members, right_of(right, seen.world))


# ---- the three answers ---------------------------------------------------------------------------------------------


def verdict(query: Asked) -> Ends:
    """What an audit says by bounds."""
    closure = query.closure()
    blamed = closure.blame(query.of_members(), query.right)
    if blamed is None:
        return Ends(YES, "yes", text(closure.least(query.of_members())))
    rule, number, below = blamed
    return Ends(UNDECIDED, f"undecided {rule} {query.row(number)}", text(below))


def checked(query: Asked, certificate: bytes) -> Ends:
    """What `check` says of a certificate."""
    if len(certificate) > MOST["certificate"]:
        return past("certificate")
    try:
        rows = read(certificate, len(query.state.spaces))
    except NoBounds as refused:
        row = "document" if refused.row is None else query.row(refused.row)
        return Ends(REFUSED, "refused json" if refused.kind == "json" else f"refused {refused.kind} {row}")
    closure = query.closure()
    lacks, open_at, met = (closure.covers(query.of_members(), rows), closure.open_at(rows),
                           closure.meets(rows, query.right))
    if lacks is not None:
        return Ends(REFUSED, f"refused not-start {query.row(lacks)}")
    if open_at is not None:
        return Ends(REFUSED, f"refused not-closed {open_at[0]} {query.row(open_at[1])}")
    return Ends(HOLDS, "holds") if met is None else Ends(REFUSED, f"refused meets {query.row(met)}")


def has_right(state: State, pid: int, right: Right) -> bool:
    """Whether the process has the right."""
    number, cred = state.processes[pid]
    if right.kind == "uid":
        return cred.uid[1] == right.of
    if right.kind == "gid":
        return right.of == cred.gid[1] or right.of in cred.groups
    rules = Rules()
    rules.state = state
    return rules.over((number, cred), right.of, right.space)


def confirmed(query: Asked, run: bytes) -> Ends:
    """What `confirm` says of a run."""
    if len(run) > MOST["run"]:
        return past("run")
    rules, state, members = Rules(query.world.files), query.state, set(query.members)
    for number, line in enumerate(lines_of(run), 1):
        refused = Ends(REFUSED, f"refused line {number}")
        try:
            event = read_line(line, query.world)
            if event is None:
                continue
            own = state.filter_of(event.pid)
            state = next_state(rules, state, event)
        except Refused as why:
            return Ends(LIMIT, why.words) if why.status == LIMIT else refused
        if event.pid not in members or event.call.name in query.excluded | own:
            return refused
        child = child_of(event)
        members |= {child} if child is not None else set()
        members &= set(state.processes)
    holder = next((pid for pid in sorted(members) if has_right(state, pid, query.right)), None)
    return Ends(REFUSED, "refused end") if holder is None else Ends(HOLDS, f"confirmed {holder}")


WORDS = {"audit": 4, "check": 5, "confirm": 5}      # behind the command


def answer(command: str, world: bytes, log: bytes, pid: bytes, right: bytes, third: bytes | None = None) -> Ends:
    """The status and the last lines of a command over the files that its words name; the third may not be there."""
    try:
        query = asked(world, log, pid, right)
    except Ends as ends:
        return ends
    if command == "audit":
        return verdict(query)
    if third is None:
        return Ends(READ_FAULT)
    return checked(query, third) if command == "check" else confirmed(query, third)


# ---- the stored cases ----------------------------------------------------------------------------------------------


def difference(case: Case) -> str | None:
    """What a stored report has otherwise than this program, None where they agree, or the program doesn't judge it."""
    command, *named = case.words
    if len(named) != WORDS.get(command):
        return None
    world, log, pid, right, *third = named
    ends = answer(command, case.files[world], case.files[log], pid.encode(), right.encode(),
                  case.files.get("".join(third)))
    if command != "audit":
        same = (case.lines, case.status) == (list(ends.lines), ends.status)
    elif case.status == NO:
        same = ends.status == UNDECIDED     # a plan ends with a holder
    else:
        same = case.lines[-len(ends.lines):] == list(ends.lines) and case.status == ends.status
    return None if same else "\n".join(ends.lines)


def try_cases() -> None:
    """Compares all stored cases. Ends with status 1 where one differs, or isn't answered as it is asked."""
    counts, wrong = Counter[str](), 0
    for case in all_cases():
        try:
            differs = difference(case)
        except NotJudged as reason:
            print(f"not judged: {case.name}: {reason}")
            continue
        if len(case.words) - 1 == WORDS.get(case.words[0]):
            counts[f"{case.words[0]}, status {case.status}"] += 1
        if differs is not None:
            wrong += 1
            print(f"case {case.name}\nrun {' '.join(case.words)}\n{differs}")
    for name, count in sorted(counts.items()):
        print(f"{name:24}{count:>6}")
    print(f"{wrong} differ")
    sys.exit(1 if wrong else 0)


def main() -> None:
    """Answers the words."""
    words = sys.argv[1:]
    if words == ["--cases"]:
        try_cases()
    command = words.pop(0) if words[:1] in (["check"], ["confirm"]) else "audit"
    if len(words) != WORDS[command]:
        sys.exit(__doc__)
    world, log, *third = [Path(name).read_bytes() for name in (*words[:2], *words[4:])]
    try:
        ends = answer(command, world, log, words[2].encode(), words[3].encode(), *third)
    except NotJudged as reason:
        print(f"bounds.py: not judged: {reason}", file=sys.stderr)
        sys.exit(NOT_JUDGED)
    print("\n".join(ends.lines))
    sys.exit(ends.status)


if __name__ == "__main__":
    main()
