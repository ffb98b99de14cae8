#!/usr/bin/env python3
"""Times credaudit-trace beside `strace -f` of the same calls, on programs with many lines of log.

  time_trace.py [--part N] [--times N] [NAME ..]     with --part a part of the calls, as 10 for a tenth

To be run as root on a machine with nothing else to do. Needs cc, bash, tar and strace. Tells the times alone, under
strace and recorded, and the ratio of the last two, by the clock and by the processors' time, of all their processes.
With --times each of the three is run so often, in turn, and the medians are told. What begins and ends a recording
counts too, with what Python compiled of its modules kept from a run before, as an installed command has it. Status 1: a
ratio by the clock is above 2.
"""
import argparse
import os
import resource
import shutil
import statistics
import subprocess
import sys
import tempfile
import time

import tools_path
from credaudit_tools.command_line.command import Failure
from credaudit_tools.system.proc import needs_root
from credaudit_tools.trace import strace_options

MOST = 2.0
PROGRAM = r"""
#include <fcntl.h>
#include <stdlib.h>
#include <string.h>
#include <sys/wait.h>
#include <unistd.h>
int main(int count, char **words)
{
    long calls = count > 2 ? atol(words[2]) : 0;
    int null = open("/dev/null", O_WRONLY);
    for (long k = 0; k < calls; k++)
        if (!strcmp(words[1], "writes")) {
            if (write(null, "some text that is written", 25) != 25)
                return 1;
        } else if (!strcmp(words[1], "opens")) {
            int file = open("file", O_WRONLY | O_CREAT, 0600);
            if (write(file, "some text", 9) != 9 || close(file))
                return 1;
        } else {
            pid_t child = fork();
            if (!child)
                _exit(0);
            waitpid(child, 0, 0);
        }
    return 0;
}
"""
FORKS = """
import os, sys
for _ in range(int(sys.argv[1])):
    child = os.fork()
    if not child:
        os._exit(0)
    os.waitpid(child, 0)
"""
LOOP = 'for ((k = 0; k < $0; k++)); do {}; done'
# What is timed: of each the words, in which NUMBER stands for how often.
TIMED: dict[str, tuple[int, list[str]]] = {
    "writes": (200000, ["./many", "writes", "NUMBER"]),
    "open, write, close": (20000, ["./many", "opens", "NUMBER"]),
    "redirections": (20000, ["bash", "-c", LOOP.format("echo x > file"), "NUMBER"]),
    "forks": (300, ["./many", "forks", "NUMBER"]),
    "forks of Python": (300, [sys.executable, "-c", FORKS, "NUMBER"]),
    "commands": (300, ["bash", "-c", LOOP.format("/bin/true"), "NUMBER"]),
    "tar": (10000, ["tar", "-cf", "files.tar", "files"]),
    "untar": (10000, ["tar", "-xf", "files.tar", "-C", "out"]),
}


def seconds(words: list[str], work: str, most: int = 0) -> tuple[float, float]:
    """What a command takes by the clock, and of the processors' time with all its children. Its status must be at most
    this one."""
    shutil.rmtree(os.path.join(work, "out"), ignore_errors=True)
    os.mkdir(os.path.join(work, "out"))
    begun, before = time.monotonic(), resource.getrusage(resource.RUSAGE_CHILDREN)
    status = subprocess.run(words, cwd=work, stdout=subprocess.DEVNULL, stderr=subprocess.DEVNULL).returncode
    if not 0 <= status <= most:
        sys.exit(f"{words[0]} ended with status {status}")
    after = resource.getrusage(resource.RUSAGE_CHILDREN)
    return time.monotonic() - begun, after.ru_utime + after.ru_stime - before.ru_utime - before.ru_stime


def prepare(work: str, files: int) -> None:
    """The program, and so many files with their archive."""
    with open(os.path.join(work, "many.c"), "w", encoding="ascii") as file:
        file.write(PROGRAM)
    subprocess.run(["cc", "-O1", "-o", "many", "many.c"], cwd=work, check=True)
    os.mkdir(os.path.join(work, "files"))
    for number in range(files):
        with open(os.path.join(work, "files", f"file{number}"), "w", encoding="ascii") as file:
            file.write("some text\n")
    subprocess.run(["tar", "-cf", "files.tar", "files"], cwd=work, check=True)


def recorded(words: list[str], work: str) -> list[str]:
    """The words that record a command."""
    command = [sys.executable, os.path.join(tools_path.TOOLS, "credaudit-trace")]
    return [*command, "-o", os.path.join(work, "recording"), "--force", "--no-verify", "--for", "0", "--", *words]


def timed(name: str, words: list[str], work: str, strace: str, times: int) -> float:
    """Times one, so often in turn, and tells the medians; the ratio by the clock."""
    ways = (words, [strace, "-f", "-e", strace_options.traced(), "-o", "log", *words], recorded(words, work))
    told = [[seconds(way, work) for way in ways] for _ in range(times)]
    ratios = []
    for place, what in enumerate(("by the clock", "of processors")):
        alone, under, own = (statistics.median(each[way][place] for each in told) for way in range(len(ways)))
        ratios.append(own / under)
        print(f"{name:19} {what:14} alone {alone:6.2f} s, strace -f {under:6.2f} s, credaudit-trace {own:6.2f} s, ratio"
              f" {ratios[-1]:.2f}", flush=True)
    return ratios[0]


def main() -> int:
    """Times all; the status."""
    ask = argparse.ArgumentParser()
    ask.add_argument("--part", type=int, default=1)
    ask.add_argument("--times", type=int, default=1)
    ask.add_argument("names", nargs="*", metavar="NAME")
    asked = ask.parse_args()
    try:
        needs_root()
        strace = strace_options.find()
    except Failure as failure:
        print(f"time_trace.py: {failure}", file=sys.stderr)
        return 2
    ratios = []
    with tempfile.TemporaryDirectory() as work:
        prepare(work, TIMED["tar"][0] // asked.part)
        os.environ["PYTHONPYCACHEPREFIX"] = os.path.join(work, "compiled")
        os.environ.pop("PYTHONDONTWRITEBYTECODE", None)
        seconds(recorded(["true"], work), work)
        for name, (count, words) in TIMED.items():
            if not asked.names or name in asked.names:
                words = [word.replace("NUMBER", str(count // asked.part)) for word in words]
                ratios.append(timed(name, words, work, strace, asked.times))
    return 1 if max(ratios, default=0.0) > MOST else 0


if __name__ == "__main__":
    sys.exit(main())
