#!/usr/bin/env python3
"""Kills recorders at drawn moments by SIGKILL, and looks whether the family that they had attached to goes on.

  kill_recorder.py [--count N] [--seed S] [--without-root]     100 moments of seed 1

The family is a process with threads, a child, and a parent that waits for a child's execve (posix_spawn(3)). Each
recorder attaches to it, records for a moment, and ends; it is killed somewhere between its start and the end of a first
one, which is left alone. Then, within some seconds, none of the family may be stopped or traced, each of them must
live, and those that count must count on; no strace and no second process of the recorder may be left. To be run as
root; `--without-root` tries it as whoever runs it, where processes may be traced so. Needs strace.

One line for each moment at which something is wrong, then the counts by the state in which the recorder was. Status 0:
nothing is wrong; 1: something is; 2: it couldn't be tried.
"""
import argparse
import collections
import os
import random
import signal
import subprocess
import sys
import tempfile
import time

import tools_path  # noqa: F401
from credaudit_tools.command_line.command import Failure, run
from credaudit_tools.system import proc
from credaudit_tools.trace import live_processes, trace_command

NAME = "kill_recorder.py"
PATIENCE = 20.0
FAMILY = """
import os, sys, threading, time
marks = sys.argv[1]
def count(name):
    while True:
        with open(os.path.join(marks, name), "a") as file:
            file.write("x")
        time.sleep(0.05)
if os.fork() == 0:
    count("child")
if os.fork() == 0:
    os.posix_spawn("/bin/true", ["true"], {}, file_actions=[
        (os.POSIX_SPAWN_OPEN, 0, os.path.join(marks, "fifo"), os.O_RDONLY, 0)])
for name in ("one", "two"):
    threading.Thread(target=count, args=(name,)).start()
print(os.getpid(), flush=True)
count("main")
"""


class Family:
    """The processes that recorders attach to, and what they count."""

    def __init__(self, work: str) -> None:
        self.work, self.proc = work, proc.Proc()
        os.mkfifo(os.path.join(work, "fifo"))
        self.running = subprocess.Popen([sys.executable, "-c", FAMILY, work], stdout=subprocess.PIPE)
        assert self.running.stdout is not None
        self.pid = int(self.running.stdout.readline())
        time.sleep(0.3)
        self.lasting = sorted(self.members())

    def members(self) -> dict[int, live_processes.Glance]:
        """Its threads."""
        return live_processes.family(live_processes.all_threads(self.proc), [self.pid])

    def counts(self) -> list[int]:
        """How far each of those that count is."""
        return [os.path.getsize(os.path.join(self.work, name)) for name in ("one", "two", "child", "main")]

    def faults(self) -> list[str]:
        """What is wrong with it now."""
        now = self.members()
        found = [f"{tid} is stopped ({each.state})" for tid, each in now.items()
                 if each.state in live_processes.STOPPED]
        found += [f"{tid} is traced by {each.tracer}" for tid, each in now.items() if each.tracer != 0]
        return found + [f"{tid} has ended" for tid in self.lasting if tid not in now]

    def end(self) -> None:
        """Ends all of it."""
        live_processes.send(live_processes.processes(self.members().values()), signal.SIGKILL)
        self.running.communicate()


def left_over(session: int) -> list[str]:
    """The processes that a recorder left: strace and its second process have its descriptor of a folder open."""
    found = []
    for tid, each in live_processes.all_threads(proc.Proc()).items():
        words = proc.Proc().read(tid, "cmdline") or b""
        if b"kill-recorder-%d" % session in words and each.tid == each.tgid:
            found.append(f"{tid} is left of the recorder")
    return found


def settled(family: Family, session: int) -> list[str]:
    """What is wrong once there was time to let go."""
    ends = time.monotonic() + PATIENCE
    faults = family.faults() + left_over(session)
    while faults and time.monotonic() < ends:
        time.sleep(0.05)
        faults = family.faults() + left_over(session)
    before, ends = family.counts(), time.monotonic() + PATIENCE
    while not all(a < b for a, b in zip(before, family.counts())):
        if time.monotonic() > ends:
            return [*faults, "one of them counts no further"]
        time.sleep(0.05)
    return faults


def state_of(family: Family) -> str:
    """What a recorder does to the family at this moment."""
    now = family.members().values()
    stopped = sum(one.state in live_processes.STOPPED for one in now)
    traced = any(one.tracer != 0 for one in now)
    return ("traced" if traced else "untraced") + (" and stopped" if stopped > len(now) // 2 else "")


def begun(family: Family, folder: str) -> subprocess.Popen[bytes]:
    """A recorder of the family."""
    return subprocess.Popen(
        [sys.executable, os.path.abspath(__file__), "--record", os.path.join(folder, "recording"), str(family.pid)],
        stdout=subprocess.DEVNULL, stderr=subprocess.DEVNULL, start_new_session=True)


def whole(family: Family) -> float:
    """The seconds of a recording that is left alone."""
    start = time.monotonic()
    with tempfile.TemporaryDirectory() as folder:
        status = begun(family, folder).wait()
    if status != 0:
        raise Failure(f"the family can't be recorded: status {status}")
    return time.monotonic() - start


def killed(family: Family, moment: float, session: int) -> tuple[str, list[str]]:
    """Kills a recorder at a moment; what it was at, and what is wrong then."""
    with tempfile.TemporaryDirectory(prefix=f"kill-recorder-{session}-") as folder:
        recorder = begun(family, folder)
        time.sleep(moment)
        state = state_of(family) if recorder.poll() is None else "at its end"
        recorder.kill()
        recorder.wait()
        return state, settled(family, session)


def record(folder: str, pid: str) -> int:
    """Is a recorder: the command's own, without its question for root."""
    setattr(proc, "needs_root", lambda _: None)
    return trace_command.main(["-o", folder, "--force", "--no-verify", "--for", "0.6", "-p", pid])


def tried(count: int, seed: int) -> int:
    """All the moments; the status."""
    draws, session = random.Random(seed), os.getpid()
    states: collections.Counter[str] = collections.Counter()
    wrong = 0
    with tempfile.TemporaryDirectory() as work:
        family = Family(work)
        try:
            length = whole(family)
            for number in range(count):
                moment = draws.uniform(0.0, length)
                state, faults = killed(family, moment, session)
                states[state] += 1
                wrong += bool(faults)
                for each in faults:
                    print(f"{number}, after {moment:.3f} s ({state}): {each}", flush=True)
        finally:
            family.end()
    told = ", ".join(f"{state} {times}" for state, times in sorted(states.items()))
    print(f"{count} moments of seed {seed} ({told}): " + (f"{wrong} are wrong" if wrong else "none is wrong"))
    return 1 if wrong else 0


def main(given: list[str]) -> int:
    """The whole command."""
    ask = argparse.ArgumentParser(prog=NAME, description=__doc__, formatter_class=argparse.RawDescriptionHelpFormatter)
    ask.add_argument("--count", type=int, default=100)
    ask.add_argument("--seed", type=int, default=1)
    ask.add_argument("--without-root", action="store_true")
    ask.add_argument("--record", nargs=2, help=argparse.SUPPRESS)
    asked = ask.parse_args(given)
    if asked.record:
        return record(*asked.record)
    if not asked.without_root:
        try:
            proc.needs_root()
        except Failure as failure:
            print(f"{NAME}: {failure}", file=sys.stderr)
            return 2
    return tried(asked.count, asked.seed)


if __name__ == "__main__":
    run(NAME, lambda words: main(list(words)))
