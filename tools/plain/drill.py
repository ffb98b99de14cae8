#!/usr/bin/env python3
"""The drill of docs/DRILL.md, worked out by plain Python, over plain/rules.py and plain/closure.py: what
`credaudit drill N` ought to write, without credaudit. Nothing is proved of it.

  drill.py N          the five lines
  drill.py --log N    the N events as lines of a log
  drill.py --world    the world in which they are made
  drill.py --cases    works out all drills that stand in crates/report_cases once more
"""
import sys
from collections.abc import Iterator

import tools_path  # noqa: F401
from plain.bounds import family, forebears_after, has_right
from plain.cases import all_cases
from plain.closure import Closure, Right
from plain.reader import ERRORS, Event, World, read_world, space_token
from plain.report import own_event
from plain.rules import MINUS_ONE, Call, Rules, State, down

WORLD = b"""log = "script"
[[file]]
path = "/drill/su"
uid = 0
gid = 0
mode = "4755"
[[process]]
pid = 1
uid = 0
"""
IDS, MOST = ("-1", "0", "1000", "1001"), 16
SYS_ADMIN = Right("cap", 1 << 21, 0)


def draws(number: int) -> Iterator[int]:
    """The numbers that are drawn."""
    x = number
    while True:
        x = (x * 6364136223846793005 + 1442695040888963407) % (1 << 64)
        yield x >> 32


def call_text(draw: Iterator[int], state: State, pid: int, world: World) -> str:
    """The name and the arguments of the next call."""
    def id_() -> str:
        return IDS[next(draw) % 4]

    kind, (number, cred) = next(draw) % 16, state.processes[pid]
    if kind in (0, 4):
        return f"{'setresuid' if kind == 0 else 'setresgid'} {id_()} {id_()} {id_()}"
    if kind == 1:
        return f"setreuid {id_()} {id_()}"
    if kind in (2, 3):
        return f"{'setuid' if kind == 2 else 'setfsuid'} {id_()}"
    if kind == 5:
        return " ".join(["setgroups", *("10", "11")[:next(draw) % 3]])
    if kind == 6:
        return f"capset {cred.prm:016x} {cred.prm:016x} {cred.inh:016x}"
    if kind in (7, 8, 9, 10):
        name, most = {7: ("bset_drop", 42), 8: ("amb_raise", 42), 9: ("keepcaps", 2), 10: ("securebits", 256)}[kind]
        return f"{name} {next(draw) % most}"
    if kind == 11:
        return "fork" if len(state.processes) < MOST else "exit"
    if kind == 12:
        return "unshare" if len(state.spaces) < MOST else "no_new_privs 1"
    if kind == 13:
        return f"write_uid_map {space_token(world, number)} 0 1000 1"
    if kind == 14:
        return "execve /drill/su"
    return "exit" if len(state.processes) > 1 else "execve -"


# ---- the list of plans (docs/PLANS.md), as far as it has any moves for this right, these files and no filter ---------

SU, NO_FILE = Call("execve", (b"/drill/su",)), Call("execve", (b"-",))


class Plans:
    """What becomes of a state by each plan of members."""

    def __init__(self, rules: Rules, members: set[int]) -> None:
        self.rules, self.members = rules, members

    def holds(self, state: State) -> bool:
        """Whether a member has the right."""
        return any(has_right(state, pid, SYS_ADMIN) for pid in self.members)

    def made(self, state: State, pid: int, *calls: Call) -> State:
        """The state after calls of a process, whatever is answered."""
        for call in calls:
            _, state = self.rules.answer(state, pid, call)
        return state

    def raised(self, state: State, pid: int) -> State:
        """The effective set becomes the permitted one."""
        _, cred = state.processes[pid]
        return self.made(state, pid, Call("capset", (cred.prm, cred.prm, cred.inh)))

    def as_zero(self, state: State, pid: int) -> list[State]:
        """The choices of the first and the last place: nothing, and inside 0 of the space as effective user id."""
        number, cred = state.processes[pid]
        zero = down(state.spaces[number].uids, 0)
        may = zero is not None and zero != cred.uid[1]
        return [state, *([self.made(state, pid, Call("setresuid", (MINUS_ONE, 0, MINUS_ONE)))] if may else [])]

    def middle(self, state: State, pid: int) -> list[State]:
        """The choices of the middle place."""
        own, _ = state.processes[pid]
        joins = [Call("setns", (number,)) for number in range(len(state.spaces)) if number != own]
        runs = [(), (SU,), (NO_FILE,), *((join,) for join in joins), (SU, SU)]
        return [self.made(state, pid, *calls) for calls in runs]

    def ends(self, state: State) -> Iterator[State]:
        """The state at the end of each plan but the empty one."""
        for pid in sorted(self.members):
            for first in self.as_zero(self.raised(state, pid), pid):
                for middle in self.middle(first, pid):
                    for last in self.as_zero(self.raised(middle, pid), pid):
                        yield self.raised(last, pid)


class Drill:
    """The events of a drill one after another, and what they have come to."""

    def __init__(self, number: int) -> None:
        self.world = read_world(WORLD)
        self.draw, self.state, self.rules = draws(number), self.world.state, Rules(self.world.files)
        self.forebears: dict[int, int | None] = {1: None}
        self.events: list[Event] = []

    def event(self) -> None:
        """Makes the next event."""
        live = sorted(self.state.processes)
        pid = live[next(self.draw) % len(live)]
        called = call_text(self.draw, self.state, pid, self.world)
        event, self.state = own_event(self.rules, self.world, self.state, pid, called)
        self.forebears = forebears_after(self.forebears, event)
        self.events.append(event)

    def verdict(self) -> str:
        """What is said of the right at the end."""
        members = family(self.forebears, min(self.state.processes))
        plans = Plans(self.rules, members)
        if plans.holds(self.state) or any(map(plans.holds, plans.ends(self.state))):
            return "no"
        closure = Closure(self.state.spaces, self.world.files.values(), ())
        least = closure.least(self.state.processes[pid] for pid in members)
        return "yes" if closure.meets(least, SYS_ADMIN) is None else "undecided"

    def report(self) -> list[str]:
        """The lines of the report."""
        refused = sum(event.result in ERRORS for event in self.events)
        return [f"events {len(self.events)}", f"refused {refused}", f"live {len(self.state.processes)}",
                f"spaces {len(self.state.spaces)}", f"verdict {self.verdict()}"]

    def log(self) -> bytes:
        """The events as lines of a log."""
        return b"".join(event.written + b"\n" for event in self.events)


def drill(count: int) -> Drill:
    """The drill of so many events."""
    made = Drill(count)
    for _ in range(count):
        made.event()
    return made


def try_cases() -> None:
    """Compares all stored drills. Ends with status 1 where one differs, or a case isn't answered as it is asked."""
    drills = wrong = 0
    for case in all_cases():
        if case.words[0] == "drill" and case.status == 0:
            drills += 1
            ours = drill(int(case.words[1])).report()
            if ours != case.lines:
                wrong += 1
                print("\n".join([f"run {' '.join(case.words)}", *ours]))
    print(f"{drills} drills, {wrong} differ")
    sys.exit(1 if wrong else 0)


def main() -> None:
    """Answers the words."""
    match sys.argv[1:]:
        case ["--cases"]:
            try_cases()
        case ["--world"]:
            sys.stdout.buffer.write(WORLD)
        case ["--log", count] if count.isdigit():
            sys.stdout.buffer.write(drill(int(count)).log())
        case [count] if count.isdigit():
            print("\n".join(drill(int(count)).report()))
        case _:
            sys.exit(__doc__)


if __name__ == "__main__":
    main()
