#!/usr/bin/env python3
"""Runs the gate and tells the processor minutes that each crate took of it: for its proof, its tests and its must-fail
edits.

  gate_minutes.py [--write FILE] [COMMAND WORD..]

COMMAND is `rt ci`, or what is given, such as `rt must-fail cm_io`. It is run at the top of the repository, what it
writes passes through unchanged, and its status is this command's. Meanwhile /proc is read some times a second: the
processes that COMMAND starts, and those that they start, tell by their words and their folder which crate they work
for, and on what, and how much user and system time they have had. After COMMAND the table is
written to standard error, and to FILE:

  proof   proves the crate, and of a program compiles it
  tests   proves and compiles the crate's tests, runs them, and makes the stored runs of a program
  edits   tries its must-fail edits
  chain   the crates that are proved one after another, since each needs the one before it, up to the last one's edits:
          the chain that takes longest. So long the run takes at least, however many processors there are

A process's time since it was last looked at, before it ended, is in no crate's row; what COMMAND and all its processes
took together is told by the system, so how much that is stands below the table. Linux only.
"""
import argparse
import os
import re
import subprocess
import sys
import threading
import time
from collections.abc import Iterable
from dataclasses import dataclass

import tools_path  # noqa: F401
from credaudit_tools.system.proc import Proc, stat_words

TOP = os.path.join(os.path.dirname(os.path.abspath(__file__)), "..", "..")
KINDS = ("proof", "tests", "edits")
INTERVAL = 0.2
TICK = os.sysconf("SC_CLK_TCK")
PROC = Proc()
Key = tuple[int, int]           # a process: its pid and its start
Work = tuple[str, str]          # what it works on: a crate, and one of KINDS
Minutes = dict[Work, float]
Chain = tuple[tuple[str, ...], float]       # crates that are proved one after another, and their minutes


# ---- what a process works on


def crate_and_kind(words: list[str], folder: str) -> Work | None:
    """The crate that a process works for, by its words and the folder that it runs in, and on what; None for
    neither."""
    name = os.path.basename(words[0])
    base = os.path.basename(folder)
    if name == "rattle" and "--crate-name" in words:
        crate = words[words.index("--crate-name") + 1]
        if base.startswith("rt-edit-"):
            return crate, "edits"
        return crate, "tests" if "--test" in words else "proof"
    # A program or tests that are run: on copies, bin/NAME or bin/NAME_tests.
    ran = re.search(r"/rt-run-[^/ ]+/bin/(\w+)", " ".join(words))
    if ran:
        return ran[1].removesuffix("_tests"), "tests"
    # What else runs in a crate's folder: the linker, the formatter.
    if os.path.basename(os.path.dirname(folder)) == "crates":
        return base, "tests" if any(word.startswith(f"out/{base}_tests") for word in words) else "proof"
    return None


@dataclass(frozen=True)
class Stat:
    """What /proc/PID/stat tells of a process: user and system time, and the start, in ticks."""
    parent: int
    ticks: int
    start: int


def stats() -> dict[int, Stat]:
    """Those of the processes that live now, by pid."""
    found = {}
    for pid in PROC.pids():
        data = PROC.read(pid, "stat")
        if data:
            words = stat_words(data)
            found[pid] = Stat(int(words[1]), int(words[11]) + int(words[12]), int(words[19]))
    return found


class Seen:
    """The processes of a run, those that ended too: what each works on, and its user and system time in ticks."""

    def __init__(self, root: int) -> None:
        self.root = root
        self.work: dict[Key, Work | None] = {}
        self.ticks: dict[Key, int] = {}

    def look(self) -> None:
        """Looks at the processes that live now."""
        live = stats()
        mine = {self.root}
        # A process that outlives its parent gets another one, and stays one of the run's.
        mine |= {pid for pid, one in live.items() if (pid, one.start) in self.work}
        grows = True
        while grows:
            found = {pid for pid, one in live.items() if one.parent in mine} - mine
            mine |= found
            grows = bool(found)
        for pid in mine & live.keys():
            self.note((pid, live[pid].start), live[pid].ticks)

    def note(self, key: Key, ticks: int) -> None:
        """Notes a process that lives; one that ends meanwhile keeps what was known of it."""
        self.ticks[key] = ticks
        line, folder = PROC.read(key[0], "cmdline"), PROC.link(key[0], "cwd")
        words = [word.decode(errors="replace") for word in (line or b"").split(b"\0")[:-1]]
        self.work[key] = crate_and_kind(words, folder) if words and folder is not None else self.work.get(key)

    def minutes(self) -> Minutes:
        """The minutes of each crate and kind."""
        found: Minutes = {}
        for key, ticks in self.ticks.items():
            work = self.work.get(key)
            if work is not None:
                found[work] = found.get(work, 0) + ticks / TICK / 60
        return found


@dataclass(frozen=True)
class Run:
    """A run of a command: what was seen of it, its status, its processor minutes and those by the clock."""
    seen: Seen
    status: int
    spent: float
    clock: float


def run(command: list[str]) -> Run:
    """Runs the command, at the top of the repository."""
    began = time.monotonic()
    started = subprocess.Popen(command, cwd=TOP)
    seen = Seen(started.pid)
    ended = threading.Event()

    def watch() -> None:
        while not ended.wait(INTERVAL):
            seen.look()

    watcher = threading.Thread(target=watch, daemon=True)
    watcher.start()
    while True:
        try:
            _, status, used = os.wait4(started.pid, 0)
            break
        except KeyboardInterrupt:
            continue            # the command had the same signal, and ends by itself
    ended.set()
    watcher.join()
    started.returncode = os.waitstatus_to_exitcode(status)
    return Run(seen, started.returncode, (used.ru_utime + used.ru_stime) / 60, (time.monotonic() - began) / 60)


# ---- the table


def libraries_of() -> dict[str, list[str]]:
    """The crates of the repository in the order of crates.txt, each with the ones that it is built on."""
    below: dict[str, list[str]] = {}
    with open(os.path.join(TOP, "crates.txt")) as file:
        for line in file:
            name, colon, libraries = line.partition("#")[0].partition(":")
            if colon:
                below[name.split()[0]] = libraries.split()
    return {name: [one for one in libraries if one in below] for name, libraries in below.items()}


def longest(chains: Iterable[Chain]) -> Chain:
    """The one that takes longest; an empty one of none."""
    none: Chain = ((), 0.0)
    return max(chains, default=none, key=lambda found: found[1])


def longest_chain(below: dict[str, list[str]], minutes: Minutes) -> Chain:
    """The chain of crates that takes longest, and its minutes: each crate's proof, and the last one's edits, which wait
    for its tests too."""
    chains: dict[str, Chain] = {}

    def chain(name: str) -> Chain:
        if name not in chains:
            before = longest(chain(one) for one in below[name])
            chains[name] = before[0] + (name,), before[1] + minutes.get((name, "proof"), 0.0)
        return chains[name]

    def whole(name: str) -> Chain:
        names, spent = chain(name)
        proof, tests, edits = (minutes.get((name, kind), 0.0) for kind in KINDS)
        return names, spent + max(tests - proof, 0.0) + edits

    return longest(whole(name) for name in below)


def shown(number: float) -> str:
    """Minutes with one digit after the point; nothing for none."""
    return f"{number:.1f}" if number >= 0.05 else ""


def table(made: Run, command: list[str]) -> str:
    """The table of a run, as lines of Markdown."""
    minutes, below = made.seen.minutes(), libraries_of()
    lines = ["| Crate | Proof | Tests | Edits | All |", "|---|---|---|---|---|"]
    rows = [(f"`{name}`", [minutes.get((name, kind), 0.0) for kind in KINDS]) for name in below]
    rows.append(("all crates", [sum(parts[at] for _, parts in rows) for at in range(len(KINDS))]))
    lines += [f"| {name} | {' | '.join(map(shown, parts))} | {shown(sum(parts))} |"
              for name, parts in rows if sum(parts) >= 0.05]
    told = sum(rows[-1][1])
    chain, length = longest_chain(below, minutes)
    processors = len(os.sched_getaffinity(0))
    dearest = max(((minutes.get((name, "proof"), 0.0), name) for name in below), default=(0.0, "none"))
    lines += [
        "",
        f"`{' '.join(command)}`, {processors} processors: {made.spent:.1f} processor minutes (user and system time),"
        f" {made.clock:.1f} by the clock. In no row: {made.spent - told:.1f} (the command itself, and the ends of"
        " processes).",
        f"The dearest proof: `{dearest[1]}`, {dearest[0]:.1f}. "
        f"The longest chain: {length:.1f} minutes, {', '.join(f'`{name}`' for name in chain)}.",
    ]
    return "\n".join(lines) + "\n"


def main() -> int:
    """Runs the command that the words ask for, and gives its status."""
    parser = argparse.ArgumentParser(description=__doc__, formatter_class=argparse.RawDescriptionHelpFormatter)
    parser.add_argument("--write", metavar="FILE", help="a file for the table, too")
    parser.add_argument("command", nargs=argparse.REMAINDER, metavar="COMMAND WORD..")
    given = parser.parse_args()
    command = given.command or ["rt", "ci"]
    made = run(command)
    text = table(made, command)
    sys.stdout.flush()
    sys.stderr.write("\n" + text)
    if given.write:
        with open(given.write, "w") as file:
            file.write(text)
    return made.status if made.status >= 0 else 128 - made.status


if __name__ == "__main__":
    sys.exit(main())
