#!/usr/bin/env python3
"""Replays recorded runs of processes in nested user namespaces (spaces), and compares with what the kernel showed.

  replay_spaces.py [--cases FILE | --record [--seed N] [--first K] [--runs N] [--keep]] [--write DIR]
                   [--plain | PROGRAM]

PROGRAM is credaudit; left out, the one that was built in this repository. The runs are those kept beside this script,
data/spaces.xz; those of FILE, which record_spaces wrote; or with --record new ones: record_spaces.c is compiled and
run, as root, with the other options handed on to it. --keep then keeps them in the place of the kept ones.

First each event is judged by plain/rules.py: its result, the credentials of the caller and of a child, the space of
each, and what is kept of a space (owner, maps, setgroups word) must be what the kernel showed. Where they aren't, the
rules with one sentence changed as KNOWN has it must give exactly what the kernel showed: so the difference is
explained. With --plain that is all.

Then each run is replayed by PROGRAM: a world with one process, and a log with the results that the kernel gave. After
each event its line and the credential lines of the caller and of a child must be those of the kernel. At an explained
difference the log has the rules' result, the program must print the rules' credential, and the run goes on in a new
world, which declares spaces and processes as the kernel has them then. EINVAL of setns is taken from any log, since it
may come from outside: such an event is told once more, as done, and the program must answer that the rules give EINVAL.
--write puts each world, log and report that the program must give into DIR.

Status 0: no other difference; 1: some; 2: nothing could be compared.
"""
import os
from collections.abc import Iterator, Sequence
from dataclasses import replace

import tools_path  # noqa: F401
from credaudit_tools.replay.program import Program
from kernel.recordings import (ERRORS, FS_ID_LEFT, HEAD, OUTCOMES, Recordings, Tally, as_printed, fields_of, program_of,
                               replay, row, runs_of)
from plain.credential import credential_of, credentials, fields_from
from plain.rules import (INITIAL, MINUS_ONE, SETFCAP, SYS_ADMIN, Answer, Call, Credential, Ids, Line, Lines, Member,
                         Refused, Rules, Space, State, unless, up)

CALLS = (
    "setuid setreuid setresuid setfsuid setgid setregid setresgid setfsgid setgroups capset bset_drop amb_raise"
    " amb_lower amb_clear securebits keepcaps no_new_privs fork exit unshare clone_user setns write_uid_map"
    " write_gid_map write_setgroups").split()
MARKS = ("made", "map", "word", "opened", "bytes", "at")
WRITES = ("write_uid_map", "write_gid_map", "write_setgroups")
PAGE = 4096


# ---- runs ----------------------------------------------------------------------------------------------------------


def numbers_of(call: Sequence[str]) -> Call:
    """A call as plain_rules has it. ValueError where a word is odd."""
    name, *arguments = call
    if name == "capset":
        return Call(name, tuple(int(text, 16) for text in arguments))
    if name == "write_setgroups":
        return Call(name, (int(arguments[0][1:]), arguments[1] == "deny"))
    if name in ("setns", *WRITES):
        numbers = list(map(int, arguments[1:]))
        return Call(name, (int(arguments[0][1:]), *zip(numbers[::3], numbers[1::3], numbers[2::3])))
    return Call(name, tuple(MINUS_ONE if text == "-1" else int(text) for text in arguments))


def line_of(text: str) -> Line:
    """A line of a map that the kernel showed, its numbers between colons. ValueError where it is none."""
    inside, outside, length = map(int, text.split(":"))
    return inside, outside, length


class Event:
    """One call with its result and marks, in the state before it; and the state after it, as the kernel showed both.
    `title` is None where the rules give the same, else what explains the difference, or empty; see `judge`."""

    def __init__(self, words: list[str], number: int, before: State) -> None:
        equals = words.index("=")
        after = words[equals + 2:]
        self.marks: dict[str, str] = {}
        while after and after[0].split("=")[0] in MARKS:
            name, text = after.pop(0).split("=", 1)
            self.marks[name] = text
        self.number, self.pid, self.call, self.result = number, int(words[0]), words[1:equals], words[equals + 1]
        self.birth = self.call[0] in ("fork", "clone_user")
        self.child = int(self.result) if self.birth and self.result not in ERRORS else None
        self.before, self.after = before, self.next_state(before, after)
        self.by_rules = self.kernel()
        self.title: str | None = None

    def next_state(self, before: State, words: list[str]) -> State:
        """The state after it, by the fields that changed, then those of a child."""
        split = words.index("child") if "child" in words else len(words)
        space, cred = before.processes[self.pid]
        fields = {**fields_from(cred), **fields_of(words[:split])}
        processes, spaces = dict(before.processes), list(before.spaces)
        processes[self.pid] = space, credential_of(fields)
        if self.child:
            processes[self.child] = space, credential_of({**fields, **fields_of(words[split + 1:])})
        if "made" in self.marks:
            owner, word = self.marks["made"].split(",")
            newcomer = self.child or self.pid
            processes[newcomer] = len(spaces), processes[newcomer][1]
            spaces.append(Space(space, int(owner), None, None, word == "deny", cred.has(SETFCAP)))
        if self.call[0] == "setns" and self.result == "0":
            processes[self.pid] = self.target(), processes[self.pid][1]
        if "map" in self.marks:
            side = "uids" if self.call[0] == "write_uid_map" else "gids"
            lines = tuple(map(line_of, self.marks["map"].split(",")))
            spaces[self.target()] = replace(spaces[self.target()], **{side: lines})
        if "word" in self.marks:
            spaces[self.target()] = replace(spaces[self.target()], deny=self.marks["word"] == "deny")
        if self.call == ["exit"]:
            del processes[self.pid]
        return State(processes, tuple(spaces))

    def target(self) -> int:
        """The number of the space that it goes to."""
        return int(self.call[1][1:])

    def kernel(self) -> tuple[str, State]:
        """The result and the state that the kernel showed."""
        return self.result, self.after

    def answer(self, rules: Rules) -> tuple[str, State]:
        """What these rules give."""
        return rules.answer(self.before, self.pid, numbers_of(self.call), self.child or 0)


class Run:
    """A recorded run: its events, and the states before, between and after them."""

    def __init__(self, words: list[str]) -> None:
        self.name, self.events, self.states = "-".join(words), list[Event](), list[State]()

    def begin(self, words: list[str]) -> None:
        """The process at the start: its pid, and all fields."""
        self.states = [State({int(words[0]): (0, credential_of(fields_of(words[1:])))}, (INITIAL,))]

    def add(self, words: list[str]) -> None:
        """An event."""
        event = Event(words, len(self.events) + 1, self.states[-1])
        self.events.append(event)
        self.states.append(event.after)

    def opener(self, event: Event) -> Member:
        """Who opened the file that a write goes to: a space's number and a credential."""
        if "opened" not in event.marks:
            return event.before.processes[event.pid]
        pid, number = map(int, event.marks["opened"].split("@"))
        return self.states[number].processes[pid]


# ---- differences ---------------------------------------------------------------------------------------------------
# The rules with one sentence as recent kernels have it; each is made for one event.


class FsIdLeft(Rules):
    """__sys_setresuid and __sys_setresgid of kernel/sys.c return at once where nothing new is asked for."""

    def three(self, ids: Ids, lines: Lines | None, power: bool, *given: int) -> Ids:
        """The ids after setresuid."""
        new = super().three(ids, lines, power, *given)
        asks = new[:3] != ids[:3] or (given[1] != MINUS_ONE and new[1] != ids[3])
        return new if asks else ids


class Deeper(Rules):
    """create_user_ns of kernel/user_namespace.c refuses where the parent's level is above 32."""
    DEEPEST = 33


class OfOpener(Rules):
    """Rules that ask of who opened the file that a write goes to."""

    def __init__(self, opener: Member) -> None:
        super().__init__()
        self.opener = opener


class ByOpener(OfOpener):
    """map_write and new_idmap_permitted of kernel/user_namespace.c: CAP_SYS_ADMIN over the target, and all else but the
    capability over the parent, are asked of the opener of the file; that one of both."""

    def may_write(self, writer: Member, capability: int, target: int) -> bool:
        """Whether a map of the space may be written at all."""
        return super().may_write(self.opener, SYS_ADMIN, target)

    def may_map_zero(self, writer: Member, target: int, lines: Lines) -> bool:
        """Whether the parent's user id 0 may be mapped."""
        return super().may_map_zero(self.opener, target, lines)

    def may_map(self, writer: Member, capability: int, target: int) -> bool:
        """Whether any map of the space may be written."""
        return super().may_map(writer, capability, target) and super().may_map(self.opener, capability, target)

    def is_own_map(self, side: str, writer: Member, target: int, stored: Lines) -> bool:
        """Whether the map is of the opener's own id alone."""
        return super().is_own_map(side, self.opener, target, stored)


class WordAtOpening(ByOpener):
    """proc_setgroups_open of kernel/user_namespace.c: CAP_SYS_ADMIN is asked of the opener, by EACCES."""

    def over(self, member: Member, capability: int, target: int) -> bool:
        """Whether the opener has the capability over the space."""
        unless(super().over(self.opener, capability, target), "EACCES")
        return True


class ByForm(ByOpener):
    """map_write and proc_setgroups_write: EINVAL for a text of a page or more, and elsewhere than at the file's
    front."""

    def write_map(self, side: str, capability: int, writer: Member, target: int, lines: Lines) -> Answer:
        """A write of a map."""
        unless(target and self.opener[0] in (target, self.state.spaces[target].parent), "EPERM")
        raise Refused("EINVAL")

    def write_setgroups(self, cred: Credential, target: int, deny: bool) -> Answer:
        """A write of the word."""
        raise Refused("EINVAL")


ADMIN = "maps: the kernel asks CAP_SYS_ADMIN over the target of who writes, the rules CAP_SETUID or CAP_SETGID"
OPENER = "maps and words by a file that was opened before: the kernel asks of the opener, the rules of the writer"
DOES, REFUSES = "; the kernel does what the rules refuse", "; the kernel refuses what the rules do"
AT_OPENING = "words: the kernel refuses the opening of the file (EACCES), the rules the write (EPERM)"
FORM = ("maps and words: the kernel has EINVAL for a text of a page or more and for a write that isn't at the file's"
        " front")
DEEP = "the kernel lets spaces have level 33, the rules 32 at most (ENOSPC)"
TITLES = (FS_ID_LEFT, DEEP, ADMIN + DOES, ADMIN + REFUSES, OPENER + DOES, OPENER + REFUSES, AT_OPENING, FORM)


def known_rules(run: Run, event: Event) -> Iterator[tuple[str, Rules]]:
    """The changed rules that may explain a difference at that event, each with its title."""
    name = event.call[0]
    how = DOES if event.result == "0" else REFUSES
    if name in ("setresuid", "setresgid"):
        yield FS_ID_LEFT, FsIdLeft()
    if name in ("unshare", "clone_user"):
        yield DEEP, Deeper()
    if name not in WRITES:
        return
    opener, is_word = run.opener(event), name == "write_setgroups"
    by_opener = WordAtOpening(opener) if is_word else ByOpener(opener)
    if "at" in event.marks or int(event.marks.get("bytes", 0)) >= PAGE:
        yield FORM, ByForm(opener)
    if opener != event.before.processes[event.pid]:
        yield OPENER + how, by_opener
    else:
        yield AT_OPENING if is_word else ADMIN + how, by_opener


def explain(run: Run, event: Event) -> str | None:
    """None where the rules give what the kernel showed; else the title of what explains the difference, or ''. The
    event keeps what the rules give."""
    event.by_rules = event.answer(Rules())
    if event.by_rules == event.kernel():
        return None
    titles = (title for title, rules in known_rules(run, event) if event.answer(rules) == event.kernel())
    return next(titles, "")


def described(state: State, pids: Sequence[int | None]) -> str:
    """Those processes, and the spaces."""
    processes = [f"{pid} #{state.processes[pid][0]} {credentials(fields_from(state.processes[pid][1]))}"
                 for pid in pids if pid in state.processes]
    return " | ".join(processes + [f"#{number} {space}" for number, space in enumerate(state.spaces) if number])


def judge(run: Run, tally: Tally) -> None:
    """Counts each event, and what explains its difference or doesn't."""
    for event in run.events:
        before, after = event.before.processes[event.pid], event.after.processes.get(event.pid)
        tally.count(event.call, event.result, before[1], after and after[1])
        event.title = explain(run, event)
        if event.title:
            tally.explained[event.title] += 1
        elif event.title == "":
            tally.differs(f"{event.call[0]} = {event.result}: the rules give {event.by_rules[0]}",
                          run=f"{run.name}, event {event.number}",
                          call=f"{event.pid} {' '.join(event.call)} {event.marks}",
                          **{name: described(state, (event.pid, event.child)) for name, state in
                             (("state", event.before), ("kernel", event.after), ("rules", event.by_rules[1]))})


# ---- worlds, logs and reports --------------------------------------------------------------------------------------


class Part:
    """Events of a run that are replayed in one world: up to, and with, the first at which the rules differ."""

    def __init__(self, run: Run, events: list[Event], number: int) -> None:
        self.name, self.events, self.start = f"{run.name}-{number}", events, events[0].before
        self.declared = len(self.start.spaces)

    def token(self, number: int) -> str:
        """The token of a space: its name where the world declares it."""
        return "init" if number == 0 else f"s{number}" if number < self.declared else f"#{number}"

    def space(self, number: int) -> str:
        """The row of a space, which isn't the initial one."""
        space = self.start.spaces[number]
        assert space.parent is not None
        above = self.start.spaces[space.parent]
        text = f'[[space]]\nname="s{number}"\nparent="{self.token(space.parent)}"\nowner={space.owner}\n'
        for key, lines, over in (("uid_map", space.uids, above.uids), ("gid_map", space.gids, above.gids)):
            if lines is not None:
                text += f"{key}={[[inside, up(over, outside), length] for inside, outside, length in lines]}\n"
        return (text + f'setgroups="{"deny" if space.deny else "allow"}"\n'
                f'creator_setfcap={"true" if space.setfcap else "false"}\n')

    def world(self) -> str:
        """The world, as the kernel has spaces and processes at the start."""
        processes = (row(pid, fields_from(cred), self.token(number))
                     for pid, (number, cred) in sorted(self.start.processes.items()))
        return HEAD + "".join(map(self.space, range(1, self.declared))) + "".join(processes)

    def line(self, event: Event, result: str | None = None) -> str:
        """The line of an event, with that result or the one that the program is to give."""
        call = list(event.call)
        if call[0] in ("setns", *WRITES):
            call[1] = self.token(event.target())
        return f"{event.pid} {as_printed(call)} = {result or told(event)[0]}"

    def log(self, events: Sequence[Event]) -> str:
        """The log of these events."""
        return "".join(self.line(event) + "\n" for event in events)

    def shown(self, event: Event) -> list[str]:
        """The credential lines after an event."""
        state = told(event)[1]
        if event.call == ["exit"]:
            return []
        pids = [event.pid] + ([event.child] if event.child in state.processes else [])
        return [self.credential(pid, state) for pid in pids]

    def credential(self, pid: int, state: State) -> str:
        """The credential line of a process."""
        number, cred = state.processes[pid]
        return f"> {pid} {self.token(number)} {credentials(fields_from(cred))}"

    def report(self) -> Iterator[list[str]]:
        """The lines for the start, and for each event."""
        yield [self.credential(pid, self.start) for pid in sorted(self.start.processes)]
        for number, event in enumerate(self.events, 1):
            yield [f"{number}: {self.line(event)}", *self.shown(event)]


def told(event: Event) -> tuple[str, State]:
    """The result and the state that the program is to give."""
    return event.by_rules if event.title else event.kernel()


def parts_of(run: Run) -> Iterator[Part]:
    """A run in parts, after it was judged."""
    start, number = 0, 1
    for at, event in enumerate(run.events, 1):
        if event.title is not None or at == len(run.events):
            yield Part(run, run.events[start:at], number)
            start, number = at, number + 1


def compare(program: Program, part: Part, tally: Tally) -> None:
    """Replays a part, and counts the first difference."""
    report, status = replay(program, part.world(), part.log(part.events))
    at = 0
    for number, lines in enumerate(part.report()):
        seen, at = report[at:at + len(lines)], at + len(lines)
        if seen != lines:
            event = part.events[max(number - 1, 0)]
            pairs: Iterator[tuple[object, str]] = zip(lines, seen)
            other = next((pair for pair in pairs if pair[0] != pair[1]), (lines[len(seen):][:1], "nothing"))
            tally.differs(f"the program, {event.call[0]}", part=part.name, call=part.line(event), wanted=other[0],
                          told=other[1])
            return
    if status != 0 or report[at:] != [f"end {len(part.events)}"]:
        tally.differs("the program: the end", part=part.name, told=f"status {status}, {report[at:]}")


def compare_besides(program: Program, part: Part, tally: Tally) -> int:
    """Events that the kernel refused by an error that any log may have from outside, told as done; how many."""
    besides = [at for at, event in enumerate(part.events)
               if event.call[0] in ("setns", "unshare", "clone_user") and told(event)[0] == "EINVAL"]
    for at in besides:
        event = part.events[at]
        line = part.line(event, str(max(event.before.processes) + 1) if event.birth else "0")
        report, status = replay(program, part.world(), part.log(part.events[:at]) + line + "\n")
        if (status, report[-1:]) != (3, [f"impossible line {at + 1}: the rules give EINVAL"]):
            tally.differs(f"the program, told as done: {event.call[0]}", part=part.name, call=line, told=report[-1:])
    return len(besides)


def write_part(part: Part, folder: str) -> None:
    """Writes a part's world, log and report."""
    report = [line for lines in part.report() for line in lines] + [f"end {len(part.events)}"]
    for ending, text in (("toml", part.world()), ("log", part.log(part.events)), ("report", "\n".join(report) + "\n")):
        with open(os.path.join(folder, f"{part.name}.{ending}"), "w") as file:
            file.write(text)


def main() -> None:
    """Judges the runs that the words ask for, and replays them."""
    recordings = Recordings("record_spaces", "spaces.xz", ("seed", "first", "runs"))
    tally = Tally(TITLES, OUTCOMES + ERRORS[2:])
    ask = recordings.parser("replay_spaces.py [--cases FILE | --record [--seed N] [--first K] [--runs N] [--keep]]"
                            " [--write DIR] [--plain | PROGRAM]")
    ask.add_argument("--write")
    ask.add_argument("--plain", action="store_true")
    asked = ask.parse_args()
    kernel, runs = recordings.read(ask, asked, lambda lines: runs_of(lines, Run))
    for run in runs:
        judge(run, tally)
    parts = [part for run in runs for part in parts_of(run)]
    if asked.write:
        os.makedirs(asked.write, exist_ok=True)
        for part in parts:
            write_part(part, asked.write)
    besides = 0
    if not asked.plain:
        program = program_of(asked)
        for part in parts:
            compare(program, part, tally)
            besides += compare_besides(program, part, tally)
    by = ("judged by the plain rules" if asked.plain else
          f"replayed in {len(parts)} worlds, {besides} told as done besides")
    print(f"{kernel}: {sum(tally.outcomes.values())} events in {len(runs)} runs, {by}\n")
    tally.show(CALLS, "events")
    tally.end()


if __name__ == "__main__":
    main()
