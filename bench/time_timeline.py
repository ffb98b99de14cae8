#!/usr/bin/env python3
"""Times credaudit-timeline: of a daemon's usual log of 100 lines, and of a log of 100,000 lines by 10 processes, 2,000
of which change a credential, about 60 rights.

  time_timeline.py [--small] [--clock] [--times N] [--page]

Asks the program that the commands in tools/ find. Tells how many lines, processes and rights there were, how many
borders were found, and the seconds by the clock and of processors: of the command itself, and of the program; with
--times the medians of N timelines (1). --small leaves out the long log. Status 1: both together took more of
processors, or with --clock by the clock, than the timeline may, 2 seconds for the usual log and 60 for the long one;
3: there is no program, or it fails. --page, on a machine with nothing else to do, measures both logs by the clock,
three times where --times isn't given, and writes the outcome into docs/TESTING-tools.md; it writes nothing where the
program isn't proved, where other work goes on (status 3), or where a timeline took too long.
"""
import argparse
import contextlib
import io
import json
import os
import resource
import statistics
import tempfile
import textwrap
import time
from collections.abc import Iterator, Sequence
from dataclasses import dataclass, replace

import tools_path
from credaudit_tools.command_line.command import FOUND, GOOD, Failure, run
from credaudit_tools.formats import worlds
from credaudit_tools.formats.credential import Credential, four
from credaudit_tools.formats.kernel_names import ALL
from credaudit_tools.formats.worlds import File, Process, World
from credaudit_tools.provenance import programs, trees
from credaudit_tools.replay.program import find
from credaudit_tools.timeline import timeline_command

WORKERS, TURNS, LINES, GROUPS = 9, 221, 100_000, 15
SU = [File("/usr/bin/su", 0, 0, 0o4755)]
PAGE = os.path.join(tools_path.TOP, "docs", "TESTING-tools.md")
BEGINS = "**Speed of a timeline**"
TEXT = BEGINS + """ (`bench/time_timeline.py`; `--small` leaves out the long log, `--page` writes this). A daemon's
usual log of {usual.lines} lines, with two workers and {usual.rights} rights; one of {long.lines:,} lines by ten
processes, {long.rights} rights, {long.spans:,} spans. Status 1: more than 2 and 60 seconds, without `--clock` of
processors. Outcome ({day}, the proved program, medians of {times}): {usual.clock:.2f} and {long.clock:.1f}
s; of processors {usual.own:.2f} s of the command and {usual.called:.2f} s of the program; {long.own:.1f} s and
{long.called:.1f} s."""


@dataclass(frozen=True)
class Job:
    """A log, and how long its timeline may take."""
    name: str
    world: World
    lines: list[str]
    most: float


def root(groups: int) -> World:
    """A daemon that root starts, with so many groups; everybody may run su."""
    own = Credential(four([0]), four([0]), frozenset(range(1, groups + 1)), 0, ALL, ALL, ALL, 0, 0, False)
    return World("script", files=SU, processes=[Process(100, own)])


def drops(pid: int) -> list[str]:
    """A worker gives up all that it has."""
    return [f"{pid} setgroups 33 = 0", f"{pid} setresgid 33 33 33 = 0", f"{pid} setresuid 33 33 33 = 0",
            f"{pid} no_new_privs 1 = 0"]


def usual() -> Job:
    """A master with two workers; most lines ask for what isn't given, or change nothing."""
    lines = ["100 fork = 101", "100 fork = 102", *drops(101), *drops(102)]
    return Job("a usual log", root(2), [*lines, *("101 setuid 33 = 0" for _ in range(100 - len(lines)))], 2.0)


def turns(pid: int) -> Iterator[str]:
    """A worker that becomes another user and root again, over and over, and then drops."""
    for number in range(TURNS - 4):
        yield f"{pid} setresuid -1 {0 if number % 2 else 33} -1 = 0"
    yield from drops(pid)


def long() -> Job:
    """Nine workers side by side, and lines that change nothing between those that do."""
    workers = range(101, 101 + WORKERS)
    changes = [f"100 fork = {pid}" for pid in workers]
    changes += [line for several in zip(*map(turns, workers)) for line in several]
    idle = (LINES - len(changes)) // len(changes) + 1
    lines = [line for change in changes for line in [change, *["100 setuid 0 = 0"] * idle]]
    return Job("a long log", root(GROUPS), lines[:LINES - 1] + [lines[-1]], 60.0)


def spent(whose: int) -> float:
    """The seconds of processors so far, of this process or of those that it called."""
    found = resource.getrusage(whose)
    return found.ru_utime + found.ru_stime


@dataclass(frozen=True)
class Timed:
    """A timeline: what it told of, and its seconds by the clock and of processors, of the command and the program."""
    lines: int
    processes: int
    rights: int
    spans: int
    borders: int
    clock: float
    own: float
    called: float


def timed(folder: str, job: Job) -> Timed:
    """Makes the timeline once."""
    paths = [os.path.join(folder, name) for name in ("world.toml", "log")]
    for path, data in zip(paths, (worlds.written(job.world), "".join(f"{line}\n" for line in job.lines).encode())):
        with open(path, "wb") as file:
            file.write(data)
    whose, out = (resource.RUSAGE_SELF, resource.RUSAGE_CHILDREN), io.StringIO()
    began, before = time.monotonic(), [spent(each) for each in whose]
    with contextlib.redirect_stdout(out):
        status = timeline_command.main(["--json", *paths, "100"])
    clock = time.monotonic() - began
    own, called = (spent(each) - first for each, first in zip(whose, before))
    if status != GOOD:
        raise Failure(f"credaudit-timeline ends with status {status}")
    lanes = json.loads(out.getvalue())["answers"][0]["lanes"]
    rows = [row for lane in lanes for row in lane["rights"]]
    rights = {right for row in rows for right in row["rights"]}
    spans = sum(len(row["spans"]) for row in rows)
    return Timed(len(job.lines), sum(len(lane["processes"]) for lane in lanes), len(rights), spans, spans - len(rows),
                 clock, own, called)


def median(job: Job, times: int) -> Timed:
    """The medians of so many timelines, and tells of them."""
    every = []
    for _ in range(times):
        with tempfile.TemporaryDirectory(prefix="credaudit-time-") as folder:
            every.append(timed(folder, job))
    middle = [statistics.median(getattr(each, name) for each in every) for name in ("clock", "own", "called")]
    found = replace(every[0], clock=middle[0], own=middle[1], called=middle[2])
    print(f"{job.name}: {found.lines} lines, {found.processes} processes, {found.rights} rights, {found.borders}"
          f" borders: {found.clock:.2f} s by the clock; of processors {found.own:.2f} s of the command,"
          f" {found.called:.2f} s of the program", flush=True)
    return found


def check_page() -> None:
    """Fails where what is measured can't stand on the page."""
    program = programs.look(find(), trees.own())
    if program.kind == programs.NOT_PROVED:
        raise Failure(f"{find()}: {program}", "the page tells of the proved program alone")
    if os.getloadavg()[0] > 1:
        raise Failure(f"other work goes on: {os.getloadavg()[0]:.1f} processes ran in the last minute (uptime(1))")


def paragraph(usual: Timed, long: Timed, times: int, day: str) -> str:
    """What the page says."""
    told = TEXT.format(usual=usual, long=long, times=times, day=day).replace("\n", " ")
    return textwrap.fill(told, 120, break_on_hyphens=False, break_long_words=False)


def put(text: str) -> None:
    """Puts a paragraph in the place of the one on the page."""
    with open(PAGE, encoding="utf-8") as file:
        parts = file.read().split("\n\n")
    [at] = [place for place, part in enumerate(parts) if part.startswith(BEGINS)]
    parts[at] = text + "\n" * parts[at].endswith("\n")
    with open(PAGE, "w", encoding="utf-8") as file:
        file.write("\n\n".join(parts))


def words_of(given: Sequence[str]) -> argparse.Namespace:
    """The words of the command."""
    ask = argparse.ArgumentParser(prog="time_timeline.py", description=__doc__,
                                  formatter_class=argparse.RawDescriptionHelpFormatter)
    ask.add_argument("--small", action="store_true")
    ask.add_argument("--clock", action="store_true")
    ask.add_argument("--times", metavar="N", type=int, choices=range(1, 100))
    ask.add_argument("--page", action="store_true")
    return ask.parse_args(given)


def main(given: Sequence[str]) -> int:
    """Times them; the status."""
    asked = words_of(given)
    times = asked.times or (3 if asked.page else 1)
    print(f"of {find()}")
    if asked.page:
        check_page()
    jobs = [usual()] if asked.small and not asked.page else [usual(), long()]
    every = [median(job, times) for job in jobs]
    if any((each.clock if asked.clock or asked.page else each.own + each.called) > job.most
           for job, each in zip(jobs, every)):
        return FOUND
    if asked.page:
        put(paragraph(every[0], every[1], times, time.strftime("%Y-%m-%d")))
    return GOOD


if __name__ == "__main__":
    run("time_timeline.py", main)
