#!/usr/bin/env python3
"""Cuts a log of strace that was recorded by hand down to what a rule of docs/STRACE.md reads, so that it can be kept.

  trim_strace.py WORLD LOG    writes the trimmed log

Kept are the calls that set or show credentials, births, execves, the calls of user namespaces, exits, and of
descriptors the calls that open a map file or a namespace's file, and those on numbers that these answered. Dropped is
all else: what other files are opened and what is written to them, signals, and what a call beside the table does. Of an
execve the words and the environment go, since no rule reads them, and addresses become one and the same. Needs
credaudit: a log that it reads otherwise when it is trimmed is refused, status 1. credaudit-trace(1) needs no trimming.
"""
import re
import sys
from collections.abc import Iterator

import tools_path  # noqa: F401
from credaudit_tools.command_line.command import Failure
from credaudit_tools.command_line.files import read_regular
from credaudit_tools.formats import strace_lines
from credaudit_tools.formats.kernel_names import BIRTHS
from credaudit_tools.formats.report import Report
from credaudit_tools.replay.program import Program
from credaudit_tools.strace_log import line_filter

ALWAYS = {*line_filter.ID_CALLS, *line_filter.ANSWERS, b"setgroups", b"capset", b"unshare", b"setns", b"execve",
          b"execveat", *(name.encode() for name in BIRTHS)}
FOLLOWED = re.compile(rb'(?:[/"])(?:uid_map|gid_map|setgroups|ns/user)"')
NUMBERED = {b"close", b"dup", b"dup2", b"dup3", b"fcntl", b"write", b"pwrite64"}
ADDRESS = re.compile(rb"0x[0-9a-f]{9,16}\b")


class Refused(Exception):
    """The log isn't trimmed, for this reason."""


def joined(log: bytes) -> Iterator[tuple[list[int], bytes]]:
    """Each call or other line: the places of its lines, and its whole body."""
    begun: dict[int, tuple[int, bytes]] = {}
    for place, line in enumerate(log.split(b"\n")):
        parts = strace_lines.parted(line)
        if parts is None:
            if line.strip():
                raise Refused(f"line {place + 1} begins with no pid")
            continue
        pid, body = parts
        found = strace_lines.RESUMED.fullmatch(body)
        if body.endswith(strace_lines.UNFINISHED):
            begun[pid] = place, body.removesuffix(strace_lines.UNFINISHED)
        elif found and pid in begun:
            first, front = begun.pop(pid)
            yield [first, place], front + found.group(2)
        else:
            yield [place], body
    for place, front in begun.values():
        yield [place], front


class Kept:
    """Which calls stay; `numbers` are the descriptors that a followed file ever had."""

    def __init__(self) -> None:
        self.numbers: set[bytes] = set()

    def is_kept(self, body: bytes) -> bool:
        """Whether a line of that body stays."""
        if body.startswith(b"+++"):
            return not body.startswith(b"+++ stopped")
        name = strace_lines.name_of(body)
        if name == b"prctl":
            return any(option in body for option in line_filter.PRCTLS)
        if name in line_filter.OPENS:
            return self.is_opened(body)
        first = re.match(rb"[a-z0-9_]+\(([0-9]+)", body)
        return name in ALWAYS or (name in NUMBERED and first is not None and first.group(1) in self.numbers)

    def is_opened(self, body: bytes) -> bool:
        """An open of a followed file, or one that answers a number which such a file had."""
        answer = re.search(rb"\) += ([0-9]+)$", body)
        number = answer.group(1) if answer else None
        if FOLLOWED.search(body) and number is not None:
            self.numbers.add(number)
        return number in self.numbers


def plain(line: bytes) -> bytes:
    """A line without an execve's words and environment, and without addresses."""
    pid, body = strace_lines.parted(line) or (0, b"")
    name = strace_lines.name_of(body)
    if name in (b"execve", b"execveat"):
        unfinished = body.endswith(strace_lines.UNFINISHED)
        begun = body.removesuffix(strace_lines.UNFINISHED).rstrip(strace_lines.BLANKS)
        inside = begun[len(name) + 1:] if unfinished else None
        call = None if unfinished else strace_lines.call_of(body)
        arguments = strace_lines.pieces(inside) if inside is not None else call.arguments if call else None
        if arguments is not None:
            few = b", ".join([*arguments[:1 if name == b"execve" else 2], b"[]", b"NULL"])
            result = call.result if call else b""
            body = name + b"(" + few + (b" " + strace_lines.UNFINISHED if unfinished else b") = " + result)
    return b"%d  %s" % (pid, ADDRESS.sub(b"0x7f0000000000", body))


def trimmed(log: bytes) -> bytes:
    """The trimmed log."""
    kept, places = Kept(), set()
    for own, body in joined(log):
        if kept.is_kept(body):
            places |= set(own)
    return b"".join(plain(line) + b"\n" for place, line in enumerate(log.split(b"\n")) if place in places)


def events(told: Report) -> list[tuple[object, ...]]:
    """The events without the numbers of their lines, and how the report ends."""
    ending = [re.sub(r"line \d+", "line", line) for line in told.ending]
    return [*((each.pid, each.call, each.arguments, each.result, each.after) for each in told.events), tuple(ending)]


def main() -> int:
    """Writes the trimmed log; the status."""
    if len(sys.argv) != 3:
        print("usage: trim_strace.py WORLD LOG", file=sys.stderr)
        return 2
    try:
        world, log = (read_regular(name, follow=True) for name in sys.argv[1:])
        short, program = trimmed(log), Program()
        if events(program.replay_texts(world, log)) != events(program.replay_texts(world, short)):
            raise Refused("it is read otherwise when it is trimmed")
    except (Failure, Refused) as why:
        print(f"trim_strace.py: {why}", file=sys.stderr)
        return 1
    sys.stdout.buffer.write(short)
    return 0


if __name__ == "__main__":
    sys.exit(main())
