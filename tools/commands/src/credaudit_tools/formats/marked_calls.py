"""Calls of a log that no rule reads: each a mark, by which a moment is known, such as the first connection that a
daemon accepts. A recording has those that were asked for, without their data; every reader passes over them.

In a log of strace a mark is the line of such a call, in a script a remark `; mark PID CALL [DESCRIPTOR] = RESULT`.
"""
import re
from collections.abc import Iterator
from dataclasses import dataclass

from . import strace_lines

# The calls that the readers of a log take (docs/STRACE.md), and those that ask, whose answers credaudit-verify
# compares.
READ = frozenset((
    "setuid setreuid setresuid setfsuid setgid setregid setresgid setfsgid setgroups capset prctl fork vfork clone"
    " clone3 unshare setns execve execveat open openat creat close dup dup2 dup3 fcntl write pwrite64"
    " getuid geteuid getgid getegid getresuid getresgid getgroups capget").split())
# What the word `network` of credaudit-trace stands for: how a process comes to bytes of the network.
NETWORK = ("listen", "accept", "accept4", "connect", "recvfrom", "recvmsg", "read")
ON_SOCKETS = ("read",)      # of these, calls on other files are none of the network
SCRIPT = re.compile(rb";[ \t]+mark[ \t]+(?P<pid>[1-9][0-9]{0,6})[ \t]+(?P<call>[a-z0-9_]+)"
                    rb"(?:[ \t]+(?P<descriptor>[0-9]+))?[ \t]+=[ \t]+(?P<result>\S.*?)[ \t\r]*")
NUMBER = re.compile(rb"[0-9]+")
NAME = re.compile(r"[a-z][a-z0-9_]*")


@dataclass(frozen=True)
class Mark:
    """A call that no rule reads: its line in the log, who made it, on which descriptor, and what it answered."""
    line: int
    pid: int
    call: str
    descriptor: int | None
    result: str


def is_call(name: str) -> bool:
    """Whether a name may be that of a mark: one that no reader takes, also of a program of 32 bits, whose calls may end
    in `32`."""
    return NAME.fullmatch(name) is not None and name.removesuffix("32") not in READ


def of_log(log: bytes, form: str) -> list[Mark]:
    """The marks of a log."""
    one = of_strace if form == "strace" else of_script
    return [mark for number, line in enumerate(log.split(b"\n"), 1) for mark in one(number, line)]


def of_script(number: int, line: bytes) -> Iterator[Mark]:
    """The mark of a script's line."""
    found = SCRIPT.fullmatch(line.strip(b" \t\r")) if b"mark" in line else None
    if found is not None:
        told = found["descriptor"]
        yield Mark(number, int(found["pid"]), text(found["call"]), None if told is None else int(told),
                   text(found["result"]))


def of_strace(number: int, line: bytes) -> Iterator[Mark]:
    """The mark of a line of strace's: of a call in two lines at the second, without its descriptor."""
    parts = strace_lines.parted(line)
    if parts is None:
        return
    pid, body = parts
    resumed = strace_lines.RESUMED.fullmatch(body)
    name = text(resumed.group(1) if resumed else strace_lines.name_of(body))
    if not is_call(name):
        return
    made = strace_lines.call_of(resumed.group(1) + b"(" + resumed.group(2) if resumed else body)
    if made is not None and not made.result.startswith(b"?"):
        first = made.arguments[0] if made.arguments else b""
        told = None if resumed else NUMBER.match(first)
        yield Mark(number, pid, name, None if told is None else int(told.group()), text(made.result))


def text(data: bytes) -> str:
    """Bytes of a log as a text."""
    return data.decode("ascii", "backslashreplace")
