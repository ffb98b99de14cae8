#!/usr/bin/env python3
"""Replays recorded cases of the nine calls that set user and group ids, and compares with what the kernel showed.

  replay_set_ids.py [--cases FILE | --record [--keep]] [PROGRAM]

PROGRAM is credaudit; left out, the one that was built in this repository. The cases are those kept beside this script,
data/set_ids.cases.xz; those of FILE, which record_set_ids wrote; or with --record new ones: record_set_ids.c is
compiled and run, as root, which takes some minutes. --keep then keeps them in the place of the kept ones.

The cases are cut into worlds as large as a world may be. Each is a process of its own, whose row declares all that the
kernel showed before the call, and a line of the log with the result that the kernel gave. Compared are, for each case:

  - the credential line before the first event, with what the row declares;
  - the line of the event, with that of the log;
  - the credential line after the event, with what the kernel showed after the call: all four user ids and group ids,
    the groups as a set, the five sets, securebits, no_new_privs.

Where the program says `impossible line K`, the rules answer otherwise than the kernel: a difference too. That case is
taken out, and those after it are replayed again, so one run tells all. Where it is known why the rules leave another
credential than the kernel, the program must print that one, and the case counts as explained. Status 0: no other
difference; 1: some; 2: nothing could be compared.
"""
from collections.abc import Iterator

import tools_path  # noqa: F401
from credaudit_tools.replay.program import Program
from kernel.recordings import (FS_ID_LEFT, HEAD, IMPOSSIBLE, Recordings, Tally, difference, fields_of, fs_id_left,
                               give_up, program_of, replay, row)
from plain.credential import Fields, credentials

PROCESSES, WORLD = 4096, 1 << 20
CALLS = "setuid setreuid setresuid setfsuid setgid setregid setresgid setfsgid setgroups".split()


# ---- cases ---------------------------------------------------------------------------------------------------------


class State:
    """What the kernel showed before each call of its cases: by field, as a credential line has it, and as a row."""

    def __init__(self, words: list[str]) -> None:
        self.fields = fields_of(words)
        self.line, self.row = credentials(self.fields), row(0, self.fields)


class Case:
    """One call in a state, its result, and the fields that were others after it."""

    __slots__ = ("state", "call", "result", "changed")

    def __init__(self, state: State, words: list[str]) -> None:
        equals = words.index("=")
        self.state, self.call, self.result = state, words[:equals], words[equals + 1]
        self.changed = fields_of(words[equals + 2:])

    def after(self) -> Fields:
        """All fields after it."""
        return {**self.state.fields, **self.changed} if self.changed else self.state.fields

    def line(self, pid: int | str) -> str:
        """Its line in a log, by the process of that pid, or of a word that stands for it."""
        return f"{pid} {' '.join(self.call)} = {self.result}"

    def row(self, pid: int) -> str:
        """The row of that process in a world."""
        return self.state.row.replace("pid = 0\n", f"pid = {pid}\n", 1)


def read_cases(lines: list[str]) -> tuple[int, list[Case]] | None:
    """The number of states, and the cases; None where there are no cases. ValueError or IndexError where a line is
    odd."""
    cases: list[Case] = []
    states: list[State] = []
    for line in lines:
        words = line.split()
        if words[0] == "state":
            states.append(State(words[1:]))
        else:
            cases.append(Case(states[-1], words))
    return (len(states), cases) if cases else None


# ---- differences ---------------------------------------------------------------------------------------------------


def differs(tally: Tally, case: Case, what: str, told: str) -> None:
    """Counts a difference of a case: what it is, and what the program told."""
    tally.differs(f"{case.call[0]}: {what}", state=case.state.line, call=case.line("PID"),
                  kernel=credentials(case.after()), told=told)


def compare(tally: Tally, case: Case, pid: int, event: str, shown: str) -> None:
    """One case with what the program printed for it: the line of the event, and the credential line."""
    by_rules = fs_id_left(case.call, case.result, case.state.fields, case.after()) or case.after()
    explained = by_rules != case.after()
    wanted = credentials(by_rules)
    if event != f"{pid}: {case.line(pid)}":
        differs(tally, case, "the line of the event", event)
    elif shown != f"> {pid} init {wanted}":
        differs(tally, case, difference(shown, wanted), shown)
    elif explained:
        tally.explained[FS_ID_LEFT] += 1


def compare_world(program: Program, batch: list[Case], tally: Tally) -> None:
    """Replays the cases in one world, and those after an impossible one in another; gives up where a replay ends
    otherwise."""
    while batch:
        world = HEAD + "".join(case.row(pid) for pid, case in enumerate(batch, 1))
        report, status = replay(program, world, "".join(case.line(pid) + "\n" for pid, case in enumerate(batch, 1)))
        count = len(batch)
        last = IMPOSSIBLE.fullmatch(report[-1]) if report and status == 3 else None
        events = int(last[1]) - 1 if last else count
        if not (last or (status == 0 and report[-1:] == [f"end {count}"])) or len(report) != count + 2 * events + 1:
            give_up(f"a replay ended with status {status}; the last line: {''.join(report[-1:])}")
        for pid, case in enumerate(batch[:events + 1], 1):
            credential = f"> {pid} init "
            if report[pid - 1] != credential + case.state.line:
                differs(tally, case, "the credential line before the call", report[pid - 1])
            elif last and pid > events:
                differs(tally, case, last[2], report[-1])
            else:
                compare(tally, case, pid, *report[count + 2 * pid - 2:count + 2 * pid])
        batch = batch[events + 1:]


def worlds(cases: list[Case]) -> Iterator[list[Case]]:
    """The cases in worlds as large as a world may be."""
    batch: list[Case] = []
    size = len(HEAD)
    for case in cases:
        more = len(case.row(len(batch) + 1))
        if len(batch) == PROCESSES or size + more > WORLD:
            yield batch
            batch, size = [], len(HEAD)
        batch.append(case)
        size += more
    yield batch


def main() -> None:
    """Compares the cases that the words ask for."""
    recordings, tally, count = Recordings("record_set_ids", "set_ids.cases.xz"), Tally([FS_ID_LEFT]), 0
    ask = recordings.parser("replay_set_ids.py [--cases FILE | --record [--keep]] [PROGRAM]")
    asked = ask.parse_args()
    kernel, (states, cases) = recordings.read(ask, asked, read_cases)
    program = program_of(asked)
    for batch in worlds(cases):
        for case in batch:
            tally.count(case.call, case.result, case.state.fields, case.after())
        compare_world(program, batch, tally)
        count += 1
    print(f"{kernel}: {len(cases)} cases in {states} states, replayed in {count} worlds\n")
    tally.show(CALLS, "cases")
    tally.end()


if __name__ == "__main__":
    main()
