"""The command: the five words, the files they name, and one line.

  credaudit-check-certificate WORLD LOG PID RIGHT CERT
  credaudit-check-certificate --version

Reads a world and its log, a script or a recording, makes the log's events steps, reads the certificate, and prints one
line, with the words and the status of `credaudit check` (docs/CHECKER.md): `holds`, `refused ..`, or why the world, the
log or the query is refused. It shares no text with the crates and none with the other tools.

What it doesn't know exactly it leaves alone, with the line `not judged: WHY` and status 14: logs of strace that are no
recordings of credaudit-trace, and worlds that Python's tomllib refuses and that may be TOML 1.1. Python 3.11, standard
library alone.
"""
import os
import sys
from collections.abc import Callable, Sequence
from dataclasses import dataclass

from . import VERSION
from .bounds.closure import Closure
from .bounds.rows import read_bounds
from .replay import Replay
from .rules.machine import World
from .texts import recording
from .texts.ends import Ended, limit
from .texts.query import Right, family_and_right
from .texts.script import events
from .texts.world import read_world

MOST_OF_CERTIFICATE = 67108864
USAGE = "usage: credaudit-check-certificate WORLD LOG PID RIGHT CERT"
OWN = f"credaudit-check-certificate {VERSION}\nprogram: none is needed, certificates are judged by the documents alone"


def bytes_of(name: str) -> bytes:
    """What a file has."""
    try:
        with open(name, "rb") as file:
            return file.read()
    except OSError:
        raise Ended(None, 7) from None


def row_token(world: World, number: int) -> str:
    """How a row is told."""
    token = world.space_token(number // 2)
    return f"fresh({token})" if number % 2 else token


@dataclass(frozen=True)
class Query:
    """A query that stands: the world, the state after the log, the family with its rules, and the right."""
    world: World
    closure: Closure
    right: Right


def query_of(world_data: bytes, read_log: Callable[[], bytes], pid: bytes, right_text: bytes) -> Query:
    """The query that texts ask, the log being read after a world that stands; what refuses it is raised."""
    world = read_world(world_data)
    replay = Replay(world)
    log = read_log()
    state = replay.run(events(log, world) if world.log == "script" else recording.events(log, replay.state))
    family, right = family_and_right(world, state, pid, right_text)
    return Query(world, Closure(world, state, family), right)


def judge(query: Query, data: bytes) -> Ended:
    """The line and the status of a certificate."""
    world, closure = query.world, query.closure
    if len(data) > MOST_OF_CERTIFICATE:
        return limit("certificate", MOST_OF_CERTIFICATE)
    try:
        bounds = read_bounds(data, len(closure.state.spaces), lambda number: row_token(world, number))
    except Ended as refused:
        return refused
    row = closure.not_start(bounds)
    if row is not None:
        return Ended(f"refused not-start {row_token(world, row)}", 11)
    opened = closure.opened(bounds)
    if opened is not None:
        return Ended(f"refused not-closed {opened[0]} {row_token(world, opened[1])}", 11)
    row = closure.meets(bounds, query.right)
    if row is not None:
        return Ended(f"refused meets {row_token(world, row)}", 11)
    return Ended("holds", 0)


def answer(words: Sequence[str]) -> tuple[str | None, int]:
    """The line, or none, and the status that the words are answered with."""
    try:
        for word in words:
            os.fsencode(word).decode("utf-8")
    except UnicodeDecodeError:
        return USAGE, 6
    if list(words) == ["--version"]:
        return OWN, 0
    if len(words) != 5:
        return USAGE, 6
    try:
        world, log, pid, right, certificate = words
        query = query_of(bytes_of(world), lambda: bytes_of(log), os.fsencode(pid), os.fsencode(right))
        ended = judge(query, bytes_of(certificate))
    except Ended as found:
        ended = found
    return ended.line, ended.status


def script() -> None:
    """The whole of the command."""
    line, status = answer(sys.argv[1:])
    if line is not None:
        print(line)
    sys.exit(status)
