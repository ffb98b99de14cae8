#!/usr/bin/env python3
"""The report of a replay by plain/reader.py, plain/strace.py and plain/rules.py: what `credaudit replay WORLD LOG`
ought to write, worked out without it. For mutate.py, and for whoever wants a second opinion on a report.

  report.py WORLD LOG    writes the report, and ends with its status

Status 14, which the program doesn't have, says that the plain reader doesn't judge this world; nothing is written then.
The log is kept whole, so one past the limit of logs isn't met here.
"""
import re
import sys
from collections.abc import Iterator
from dataclasses import dataclass

import tools_path  # noqa: F401
from plain.credential import credentials, fields_from
from plain.reader import (BIRTHS, CAP_NUMBERS, LAST_ID, LIMITS, MAPS, Event, NotJudged, Refused, World, digits,
                          past_limit, read_line, read_world, space_number, space_token)
from plain.rules import Rules, State
from plain.strace import Start, reading

ANY = ("ENOMEM", "EAGAIN", "EINTR", "EFAULT", "EIO")
# The errors that come from outside: of these calls these, of all others those of ANY.
FROM_OUTSIDE: dict[str, tuple[str, ...]] = {
    "setfsuid": (), "setfsgid": (), "exit": (),
    "unshare": ANY + ("EINVAL",), "clone_user": ANY + ("EINVAL",), "setns": ANY + ("EINVAL",),
    "execve": ANY + ("ENOENT", "EACCES", "ENOTDIR", "ELOOP", "ENAMETOOLONG", "E2BIG", "ENOEXEC", "ETXTBSY", "ELIBBAD"),
}
ON_SPACES = ("setns", "write_setgroups", *(name.decode() for name in MAPS))


def impossible(why: str) -> Refused:
    """The refusal for a line that can't be; where it stands is added by `replay`."""
    return Refused(3, why)


def least_free(state: State) -> int:
    """The least pid that no process has."""
    return next(pid for pid in range(1, len(state.processes) + 2) if pid not in state.processes)


def child_of(event: Event) -> int | None:
    """The child that an event tells of, None where it tells of none."""
    return int(event.result) if event.call.name.encode() in BIRTHS and event.result.isdigit() else None


def target_of(event: Event) -> int | None:
    """The number of the space that a call goes to, None where it goes to none."""
    first = event.call.arguments[0] if event.call.name in ON_SPACES else None
    return first if isinstance(first, int) else None


def next_state(rules: Rules, state: State, event: Event) -> State:
    """The state after an event; Refused tells why there is none."""
    name, child, target = event.call.name, child_of(event), target_of(event)
    if event.pid not in state.processes:
        raise impossible("no process")
    if target is not None and target >= len(state.spaces):
        raise impossible("no space")
    if child in state.processes:
        raise impossible("pid in use")
    if name not in state.filter_of(event.pid) and event.result in FROM_OUTSIDE.get(name, ANY):
        return state
    result, after = rules.answer(state, event.pid, event.call, child or least_free(state))
    if result != event.result:
        own, _ = rules.answer(state, event.pid, event.call, least_free(state))
        raise impossible(f"the rules give {own}")
    for limit, count, before in (("processes", len(after.processes), len(state.processes)),
                                 ("spaces", len(after.spaces), len(state.spaces))):
        if count > LIMITS[limit] and count > before:
            raise past_limit(limit)
    return after


def own_event(rules: Rules, world: World, state: State, pid: int, call: str) -> tuple[Event, State]:
    """The event of a call of a process, written without its result, as the rules answer it; and the state after it."""
    child = least_free(state)
    born = call.encode().split()[0] in BIRTHS
    asked = read_line(f"{pid} {call} = {child if born else 0}".encode(), world)
    assert asked is not None
    result, after = rules.answer(state, pid, asked.call, child)
    event = read_line(f"{pid} {call} = {result}".encode(), world)
    assert event is not None
    return event, after


def credential_line(world: World, state: State, pid: int) -> bytes:
    """The line that a report has for a process."""
    number, cred = state.processes[pid]
    return f"> {pid} {space_token(world, number)} {credentials(fields_from(cred))}".encode()


def lines_of(log: bytes) -> list[bytes]:
    """Its lines without their LF; a last one without LF counts where it isn't empty."""
    lines = log.split(b"\n")
    return lines if lines[-1] else lines[:-1]


def told_at(number: int, refused: Refused) -> Refused:
    """The refusal as a report tells it of that line."""
    front = {3: f"impossible line {number}: ", 5: f"bad log line {number}: "}.get(refused.status, "")
    return Refused(refused.status, front + refused.words)


def script_events(world: World, log: bytes) -> Iterator[tuple[int, Event]]:
    """The events of a script log, each with the number of its line, up to the refusal that is raised, where there is
    one."""
    for number, line in enumerate(lines_of(log), 1):
        try:
            event = read_line(line, world)
        except Refused as refused:
            raise told_at(number, refused)
        if event is not None:
            yield number, event


def strace_events(world: World, log: bytes) -> Iterator[tuple[int, Event]]:
    """The same of a log of strace; plain/strace.py gives events as script lines."""
    start = Start({pid: space_token(world, space) for pid, (space, _) in world.state.processes.items()},
                  tuple(sorted(world.names, key=world.names.__getitem__)),
                  frozenset(path.decode("latin-1") for path in world.files))
    events, ending = reading(start, log)
    for text in events:
        number, line = text.encode("latin-1").split(b": ", 1)
        event = read_line(line, world)
        assert event is not None
        yield int(number), event
    if ending != "end":
        raise Refused(9 if ending.startswith("limit") else 5, ending)


def replay(world: World, log: bytes, out: list[bytes]) -> State:
    """Adds the report's lines to `out`, up to the refusal that it raises, where there is one; else the last state."""
    rules, state, count = Rules(world.files), world.state, 0
    out.extend(credential_line(world, state, pid) for pid in sorted(state.processes))
    for number, event in (script_events if world.script else strace_events)(world, log):
        try:
            state = next_state(rules, state, event)
        except Refused as refused:
            raise told_at(number, refused)
        count += 1
        out.append(b"%d: %s" % (number, event.written))
        out.extend(credential_line(world, state, pid) for pid in (event.pid, child_of(event) or 0)
                   if pid in state.processes)
    out.append(b"end %d" % count)
    return state


@dataclass
class Report:
    """A report: the status and the text of it."""
    status: int
    text: bytes
    world: World | None = None      # what was read, None where the world is refused
    state: State | None = None      # the last state, None where the replay is refused


def report(world: bytes, log: bytes) -> Report:
    """The report of a world and a log. NotJudged where the reader can't say."""
    out: list[bytes] = []
    read: World | None = None
    state: State | None = None
    status = 0
    try:
        read = read_world(world)
        state = replay(read, log, out)
    except Refused as refused:
        out.append(refused.words.encode())
        status = refused.status
    return Report(status, b"".join(line + b"\n" for line in out), read, state)


RIGHT = re.compile(rb"(?:uid|gid):(\d+)|cap:(\w+)@(.*)", re.DOTALL)


def bad_query(seen: Report, pid: bytes, right: bytes) -> str | None:
    """What is bad of an audit's query after an accepted log: `pid`, `right` or `space`, or None."""
    assert seen.world is not None and seen.state is not None
    if digits(pid) not in seen.state.processes:
        return "pid"
    found = RIGHT.fullmatch(right)
    if not found:
        return "right"
    id_, cap, space = found.groups()
    if id_ is not None:
        return None if digits(id_, 0, LAST_ID) is not None else "right"
    target = space_number(space, seen.world)
    if cap not in CAP_NUMBERS or target is None:
        return "right"
    return None if target < len(seen.state.spaces) else "space"


def main() -> None:
    """Writes the report of two files."""
    if len(sys.argv) != 3:
        sys.exit("usage: report.py WORLD LOG")
    texts = []
    for name in sys.argv[1:]:
        with open(name, "rb") as file:
            texts.append(file.read())
    try:
        seen = report(*texts)
    except NotJudged as reason:
        print(f"report.py: not judged: {reason}", file=sys.stderr)
        sys.exit(14)
    sys.stdout.buffer.write(seen.text)
    sys.exit(seen.status)


if __name__ == "__main__":
    main()
