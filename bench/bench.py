#!/usr/bin/env python3
"""Measures credaudit beside plain_replay.rs, an unproved Rust program that reads the same worlds and logs and writes
the same report.

  bench.py [--runs N] [--processor] [--only PART] [--kind KIND] [--work FOLDER] [PROGRAM]
  bench.py --bars pieces|replay [--runs N] [--processor] [--work FOLDER] [PROGRAM]

PROGRAM is credaudit; left out, the one that was built in this repository, and `none` measures the plain program alone.
Needs rustc; scan needs grep too. Each time is the least of N runs (5), the programs taking turns; output goes to
/dev/null. Times are the clock's, or with --processor those of processor, user's and system's, which other work on the
machine disturbs less. PART is one of these, all being measured where it is left out:

  ratio    a log of 64 MiB against `tuned` and `replay` of plain_replay.rs, once the reports are the same byte for byte;
           beside the least seconds the most, and the least and the most of the ratios to tuned, turn by turn
  linear   logs of 1, 4, 16 and 64 MiB, of strace 32 and 64 MiB: milliseconds for each MiB. Of strace it is measured for
           all four kinds: what takes a time that isn't linear in the held lines, or in the followed descriptors, shows
           itself between the last two
  scan     a log of strace of 64 MiB: seconds of `grep -c` for one of its words, of `tuned` and of credaudit, and MB a
           second
  recorded the same of a recording of find(1) that is made first, once the reports are the same; only where it is asked
           for (needs strace and find)
  start    the start and end of credaudit with a log of one event, of `tuned` with the same, of capsh(1) and of true(1),
           the least of 500 of each; ends with status 1 where credaudit is no sooner than capsh
  world    the worlds of worlds.py with an empty log, one of 1 MiB for each table, against `tuned`, once the reports are
           the same byte for byte; and how often as long twice the spaces, lines of maps, mounts, files or processes
           take. Ends with status 1 past 0.3 s, past the bars of worlds of maps, or past 2.3 times as long
  bounds   of the least closed bounds of 256 members in 256 spaces with 4,096 files: milliseconds of a pass of `closed`
           and of `check` in the built program of crates/judge_bench, against those of plain_replay.rs, once their
           numbers on the bounds are the same. It is processor time, and needs Linux's /proc/PID/schedstat
  audit    seconds of `credaudit audit` at all limits, milliseconds in a small world, how often as long twice the
           members, the spaces or the files take, and a hostile chain of programs (audits.py); ends with status 1 past
           2 s, 10 ms or 2.3 times. The plain program has no audit

--bars measures each log of one of the tables of bars.py, and the start: what takes longer than its bar is named, and
the status is 1 then. `pieces` has the bars of a log that is read in pieces, `replay` those of a replay at half the time
of tuned.

KIND is what the logs of ratio, linear and scan have (left out: ratio is measured for each, linear for setresuid and
strace; scan takes strace where KIND is none of strace):

  setresuid   one process of root, whose effective id goes to another and back
  setuid      three processes; half of the lines are done, half are refused (EPERM, EINVAL)
  mixed       children of root that drop their user ids, are refused a return to root, and exit
  turns       1,000 live processes: by turns one exits and one is born; turns-many has 4,000
  spaces      births and exits in 200 user namespaces and some 40 more, each with maps; joins, maps and words that ask
              for power along a chain of 32
  execve      children that execute files, of 4,096 on 64 mounts
  comments    comments of 1,023 bytes, no event
  strace      as a recording of strace -f is: 1,000 live processes, most of whose calls aren't listed or aren't
              followed; births, exits, execves and some calls on credentials; up to 4,096 lines at a time stand before
              their birth
  strace-few            the same of 8 live processes, as a daemon and its children are
  strace-held           the same with as many held lines 10 times as often, and up to 65,536 followed descriptors
  strace-held-quarter   the same with a quarter of both

The logs are made in FOLDER (a new one below /tmp where it is left out, removed at the end), 90 MB for a kind. What
memory a log takes is measured by memory.py.
"""
import argparse
import hashlib
import os
import subprocess
import sys
import tempfile
from collections.abc import Sequence

from audits import MOST_GROWTH, audits, past
from bars import BARS, all_within, starts_sooner
from logs import KINDS, MIB, STRACE, Logs, Recorded, commands_for, plain_program, write
from passes import bounds
from times import Commands, Runs, starts
from worlds import BOUNDS_WORLDS, GROWING, HEAD, WORLDS

import tools_path  # noqa: F401
from credaudit_tools.provenance.places import BUILT

HERE = os.path.dirname(os.path.abspath(__file__))
PARTS = ("ratio", "linear", "scan", "start", "world", "bounds", "audit")
DATA = os.path.join(HERE, "..", "crates", "credaudit", "data")
STORED = os.path.join(DATA, "world.toml"), os.path.join(DATA, "setresuid.log")
# How long a world of 1 MiB may take; and how often as long as `tuned` those of maps may take: 0.6 of what they took
# before ids were looked for by halves.
MOST_WORLD_SECONDS = 0.3
MOST_OF_TUNED = {"space": 5.9, "space-flat": 6.1, "mount": 7.1}


def digest(words: list[str]) -> tuple[int, int, str]:
    """A run's status, and the length and the SHA-256 of its report."""
    child = subprocess.Popen(words, stdin=subprocess.DEVNULL, stdout=subprocess.PIPE)
    assert child.stdout is not None
    sum_, length = hashlib.sha256(), 0
    while piece := child.stdout.read(MIB):
        sum_.update(piece)
        length += len(piece)
    return child.wait(), length, sum_.hexdigest()


def same_reports(what: str, commands: Commands) -> int:
    """The reports' length, once they are the same and their status is 0. Ends the measuring where they aren't."""
    reports = {name: digest(words) for name, words in commands.items()}
    if len(set(reports.values())) != 1 or reports["tuned"][0] != 0:
        sys.exit(f"bench.py: the reports of {what} differ (status, length, SHA-256): {reports}")
    return reports["tuned"][1]


def of_tuned(seconds: list[float], tuned: list[float]) -> float:
    """What the least of some seconds is of the least of tuned's."""
    return min(seconds) / min(tuned)


def show(logs: Logs | Recorded, every: dict[str, list[float]]) -> None:
    """Shows the seconds of each program on the log of 64 MiB."""
    print(f"{'program':24}{'seconds':>9}{'to':>9}{'MB of log/s':>13}{'of tuned':>10}{'turn by turn':>18}")
    for name, seconds in every.items():
        shown = f"plain_replay {name}" if name in ("tuned", "replay") else name
        turns = [one / tuned for one, tuned in zip(seconds, every["tuned"])]
        print(f"{shown:24}{min(seconds):9.3f}{max(seconds):9.3f}{logs.length() / 1e6 / min(seconds):13.1f}"
              f"{of_tuned(seconds, every['tuned']):10.2f}{f'{min(turns):.2f} to {max(turns):.2f}':>18}")
    print(flush=True)


def ratio(logs: Logs, runs: Runs, modes: Sequence[str] = ("tuned", "replay")) -> dict[str, list[float]]:
    """Measures and shows the part of that name, beside these modes of the plain program; answers the seconds."""
    length = same_reports(f"{logs.kind} lines", logs.commands(64))
    print(f"log of {logs.length()} bytes of {logs.kind} lines, report of {length} bytes"
          + (": the reports are the same" if logs.program else ""))
    every = runs.seconds_of(logs.commands(64, modes))
    show(logs, every)
    return every


def linear(logs: Logs, runs: Runs) -> None:
    """Measures and shows the part of that name."""
    best = {size: runs.least(logs.commands(size)) for size in logs.sizes}
    print(f"{'log of ' + logs.kind + ' lines':34}" + "".join(f"{size:>8} MiB" for size in logs.sizes))
    for name in best[64]:
        print(f"{name + ', ms for a MiB':34}"
              + "".join(f"{1000 * best[size][name] / size:12.2f}" for size in logs.sizes))
    print()


def scan(logs: Logs | Recorded, runs: Runs, word: str = "setresuid") -> dict[str, list[float]]:
    """Measures and shows the part of that name, beside a search for that word; answers the seconds."""
    # grep counts nothing where its output is /dev/null, so a shell takes it
    grep = ["sh", "-c", 'test "$(grep -c "$0" "$1")" -gt 0', word, logs.files[64]]
    every = runs.seconds_of({f"grep -c {word}": grep, **logs.commands(64)})
    print(f"log of {logs.length()} bytes of {logs.kind} lines")
    show(logs, every)
    return every


def recorded(logs: Recorded, runs: Runs) -> dict[str, list[float]]:
    """Measures and shows the part of that name; answers the seconds."""
    same_reports("a recording of find", logs.commands(64))
    return scan(logs, runs, "openat")


def start(plain: str, program: str | None) -> bool:
    """Measures and shows the part of that name; whether credaudit, where it is measured, starts sooner than capsh."""
    every = {**commands_for(*STORED, plain, program), "capsh": ["capsh", "--print"], "true": ["true"]}
    return starts_sooner(starts(every), "credaudit", "capsh")


def large_worlds(plain: str, program: str | None, runs: Runs, work: str) -> bool:
    """Whether each world of 1 MiB takes no longer than it may; that is shown."""
    log, good = write(os.path.join(work, "empty.log"), ""), True
    print(f"{'world of 1 MiB':24}{'seconds':>9}{'to':>9}{'of tuned':>10}")
    for name, make in WORLDS.items():
        commands = commands_for(write(os.path.join(work, f"{name}-table.toml"), make()), log, plain, program)
        same_reports(f"the world {name}", commands)
        every = runs.seconds_of(commands)
        seconds = every["credaudit" if program else "tuned"]
        times, most = of_tuned(seconds, every["tuned"]), MOST_OF_TUNED.get(name, float("inf"))
        good = good and min(seconds) <= MOST_WORLD_SECONDS and times <= most
        print(f"{name:24}{min(seconds):9.3f}{max(seconds):9.3f}{times:10.2f}{past(most, times)}")
    print()
    return good


def growing_worlds(program: str, runs: Runs, work: str) -> bool:
    """Whether a world with twice as many of one thing takes at most so many times as long; that is shown."""
    log, good = write(os.path.join(work, "empty.log"), ""), True
    print(f"{'times as long with twice the':30}{'half':>9}{'seconds':>9}{'times':>9}")
    for name, (rows, count) in GROWING.items():
        worlds = {size: write(os.path.join(work, f"growing{size}.toml"), HEAD + "".join(rows(size)))
                  for size in (count // 2, count)}
        commands = {str(size): [program, "replay", world, log] for size, world in worlds.items()}
        half, whole = runs.least(commands).values()
        good = good and whole / half <= MOST_GROWTH
        print(f"{name:30}{half:9.3f}{whole:9.3f}{whole / half:9.2f}{past(MOST_GROWTH, whole / half)}")
    print()
    return good


def beside_plain(program: str | None, asked: argparse.Namespace, parts: Sequence[str], work: str) -> bool:
    """Measures those of the parts that need the plain program; whether all is within its bar."""
    plain, runs = plain_program(work), Runs(asked.runs, asked.processor)
    kinds = [asked.kind] if asked.kind else list(KINDS)
    for kind in kinds if "ratio" in parts else ():
        ratio(Logs(kind, plain, program, work), runs)
    few = [asked.kind] if asked.kind else ["setresuid", "strace"]
    for kind in few if "linear" in parts else ():
        for one in STRACE if kind in STRACE else [kind]:
            linear(Logs(one, plain, program, work), runs)
    if "scan" in parts:
        scan(Logs(few[-1] if few[-1] in STRACE else "strace", plain, program, work), runs)
    if "recorded" in parts:
        recorded(Recorded(plain, program, work), runs)
    good = "world" not in parts or large_worlds(plain, program, runs, work)
    if "world" in parts and program:
        good = growing_worlds(program, runs, work) and good
    for name, make in BOUNDS_WORLDS.items() if "bounds" in parts else ():
        bounds(name, write(os.path.join(work, f"{name}.toml"), make()), plain, program is not None, asked.runs)
    return ("start" not in parts or start(plain, program)) and (good or program is None)


def measure(program: str | None, asked: argparse.Namespace, work: str) -> None:
    """Measures the parts that the words ask for."""
    parts = (asked.only,) if asked.only else PARTS
    if parts != ("audit",) and not beside_plain(program, asked, parts, work):
        sys.exit("bench.py: a world or the start takes longer than it may")
    if "audit" in parts and program and not audits(program, asked.runs, work):
        sys.exit("bench.py: an audit takes longer than it may")


def measure_bars(program: str, asked: argparse.Namespace, work: str) -> None:
    """Measures each log of the table that the words name, and the start."""
    plain, runs, measured = plain_program(work), Runs(asked.runs, asked.processor), dict[str, float]()
    bars = BARS[asked.bars]
    for kind in bars:
        every = (recorded(Recorded(plain, program, work), runs) if kind == "recorded"
                 else ratio(Logs(kind, plain, program, work), runs, ("tuned",)))
        measured[kind] = of_tuned(every["credaudit"], every["tuned"])
    within, sooner = all_within(bars, measured), start(plain, program)
    if not (within and sooner):
        sys.exit("bench.py: something takes longer than it may")


def main() -> None:
    """Measures, in the folder that the words name or in a new one."""
    ask = argparse.ArgumentParser(usage="bench.py [--runs N] [--processor] [--bars pieces|replay | --only PART]"
                                        " [--kind KIND] [--work FOLDER] [PROGRAM]")
    ask.add_argument("--runs", type=int, default=5)
    ask.add_argument("--processor", action="store_true")
    ask.add_argument("--bars", choices=BARS)
    ask.add_argument("--only", choices=(*PARTS, "recorded"))
    ask.add_argument("--kind", choices=KINDS)
    ask.add_argument("--work")
    ask.add_argument("program", nargs="?", default=BUILT)
    asked = ask.parse_args()
    program = None if asked.program == "none" else os.path.abspath(asked.program)
    if asked.bars and (asked.only or asked.kind or program is None):
        ask.error("--bars measures all logs of its table, of credaudit")
    if program and asked.only != "bounds" and not os.access(program, os.X_OK):
        sys.exit(f"bench.py: {program} isn't there: build it first, with make at the top of the repository")
    with tempfile.TemporaryDirectory() as new:
        work = asked.work or new
        os.makedirs(work, exist_ok=True)
        if asked.bars and program:
            measure_bars(program, asked, work)
        else:
            measure(program, asked, work)


if __name__ == "__main__":
    main()
