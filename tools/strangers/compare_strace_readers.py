#!/usr/bin/env python3
"""Compares what two plain readers of docs/STRACE.md read in logs of strace: plain/strace.py, and the unproved Rust
program of bench/. Events, their numbers, and how the reading ends must be the same. The logs are those of
odd_strace_logs.py, made by hand, and drawn ones. Then whole reports are compared, plain/report.py's with the Rust
program's, of the recordings in examples/ and of what strangers.py draws; worlds that are refused are passed over.

  compare_strace_readers.py [--logs N] [--seed S] [--kind any|calm|files|reports] [--program PLAIN]

PLAIN is bench/plain_replay.rs as rustc built it; left out, it is built anew (needs rustc). N logs (3000) of each kind,
by draw_strace_logs.py. Status 1: they differ; the first log that differs is shown.
"""
import argparse
import itertools
import os
import random
import subprocess
import sys
import tempfile
from collections.abc import Iterable, Iterator
from typing import NamedTuple

import tools_path  # noqa: F401
from plain.reader import NotJudged
from plain.report import report
from plain.strace import reading
from strangers.draw_strace_logs import WORLD, Draws
from strangers.odd_strace_logs import LOGS
from strangers.strangers import Strangers, recorded

HERE = os.path.dirname(os.path.abspath(__file__))
PIECE = 500
KINDS = ("any", "calm", "files", "reports")
TEXT = ('log = "strace"\n[[file]]\npath = "/bin/su"\nuid = 0\ngid = 0\nmode = "4755"\n'
        '[[process]]\npid = 200\nuid = 0\n')


class Differs(NamedTuple):
    """A log of which two programs tell something else: the lines of the Python one, and those of the Rust one."""
    log: bytes
    wanted: list[bytes]
    told: list[bytes]


def built(work: str) -> str:
    """The Rust program, compiled into that folder."""
    program = os.path.join(work, "plain_replay")
    source = os.path.join(HERE, "..", "..", "bench", "plain_replay.rs")
    subprocess.run(["rustc", "-O", source, "-o", program], check=True)
    return program


def readings(program: str, work: str, logs: list[bytes]) -> list[list[bytes]]:
    """The lines that the Rust program writes of each log."""
    names = [os.path.join(work, f"{k}.log") for k in range(len(logs))]
    for name, log in zip(names, logs):
        with open(name, "wb") as file:
            file.write(log)
    run = subprocess.run([program, "events", os.path.join(work, "world.toml"), *names], stdout=subprocess.PIPE,
                         check=True)
    found: list[list[bytes]] = []
    lines: list[bytes] = []
    for line in run.stdout.split(b"\n")[:-1]:
        lines.append(line)
        if not line[:1].isdigit():
            found.append(lines)
            lines = []
    return found


def drawn(draws: Draws, count: int) -> Iterator[list[str]]:
    """That many drawn logs, some at a time."""
    for at in range(0, count, PIECE):
        yield ["".join(line + "\n" for line in draws.log()) for _ in range(min(PIECE, count - at))]


def compare(program: str, work: str, pieces: Iterable[list[str]]) -> tuple[int, Differs | None]:
    """How many logs were read alike, and the first one that wasn't."""
    done = 0
    for piece in pieces:
        logs = [log.encode("latin-1") for log in piece]
        for log, told in zip(logs, readings(program, work, logs)):
            events, ending = reading(WORLD, log)
            wanted = [line.encode("latin-1") for line in events + [ending]]
            if told != wanted:
                return done, Differs(log, wanted, told)
            done += 1
    return done, None


def written(program: str, work: str, world: bytes, log: bytes) -> tuple[int, bytes]:
    """The status and the report of the Rust program."""
    names = [os.path.join(work, name) for name in ("drawn.toml", "drawn.log")]
    for name, text in zip(names, (world, log)):
        with open(name, "wb") as file:
            file.write(text)
    run = subprocess.run([program, "tuned", *names], stdout=subprocess.PIPE)
    return run.returncode, run.stdout


def compare_reports(program: str, work: str, seed: int, count: int) -> tuple[int, Differs | None]:
    """How many reports are the same, and the first case that differs."""
    strangers, done = Strangers(), 0
    drawn_ones = (strangers.draw_strace(random.Random(f"{seed}:{number}")) for number in range(count))
    for world, log in itertools.chain(recorded(), drawn_ones):
        try:
            seen = report(world, log)
        except NotJudged:
            continue
        if seen.world is None:
            continue
        status, text = written(program, work, world, log)
        if text == b"bad world\n":     # it reads the TOML of the bench alone
            continue
        if (status, text) != (seen.status, seen.text):
            return done, Differs(log, seen.text.split(b"\n"), text.split(b"\n"))
        done += 1
    return done, None


def show(differs: Differs) -> None:
    """Writes the front of a log, and the ends of what the two tell of it."""
    for number, line in enumerate(differs.log.split(b"\n")[:20], 1):
        print(f"  {number}: {line[:200]!r}")
    for name, lines in (("plain/strace.py", differs.wanted), ("plain_replay.rs", differs.told)):
        print(f"{name}:", *lines[-20:], sep="\n  ")


def main() -> None:
    """Compares the kinds that the words ask for."""
    ask = argparse.ArgumentParser(usage="compare_strace_readers.py [--logs N] [--seed S] [--kind KIND]"
                                        " [--program PLAIN]")
    ask.add_argument("--logs", type=int, default=3000)
    ask.add_argument("--seed", type=int, default=1)
    ask.add_argument("--kind", choices=KINDS)
    ask.add_argument("--program")
    asked, good = ask.parse_args(), True
    with tempfile.TemporaryDirectory(dir="/dev/shm" if os.access("/dev/shm", os.W_OK) else None) as work:
        with open(os.path.join(work, "world.toml"), "w") as file:
            file.write(TEXT)
        program = asked.program or built(work)
        for kind in ["made by hand", *([asked.kind] if asked.kind else KINDS)]:
            if kind == "reports":
                done, differs = compare_reports(program, work, asked.seed, asked.logs)
            else:
                pieces = [LOGS] if kind == "made by hand" else drawn(Draws(asked.seed, kind), asked.logs)
                done, differs = compare(program, work, pieces)
            print(f"{kind}: {done} {'are the same' if kind == 'reports' else 'logs are read alike'}", flush=True)
            if differs:
                show(differs)
                good = False
    sys.exit(0 if good else 1)


if __name__ == "__main__":
    main()
