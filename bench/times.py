"""What commands take: their seconds, by the clock or of processor, turn by turn; and what starting one takes."""
import os
import subprocess
import sys
import time
from collections.abc import Sequence
from dataclasses import dataclass

Commands = dict[str, list[str]]         # by a command's name its words


@dataclass(frozen=True)
class Runs:
    """How often each command runs, and whether its seconds are those of processor; else they are the clock's."""

    count: int
    processor: bool = False

    def timed(self, words: Sequence[str]) -> tuple[float, int]:
        """The seconds of one run, and its status."""
        begin = time.perf_counter()
        child = subprocess.Popen(words, stdin=subprocess.DEVNULL, stdout=subprocess.DEVNULL)
        _, status, used = os.wait4(child.pid, 0)
        seconds = time.perf_counter() - begin
        child.returncode = os.waitstatus_to_exitcode(status)
        return used.ru_utime + used.ru_stime if self.processor else seconds, child.returncode

    def seconds_of(self, commands: Commands) -> dict[str, list[float]]:
        """The seconds of each command's runs; they take turns, after one run each that isn't counted. Ends the
        measuring where one fails."""
        every: dict[str, list[float]] = {name: [] for name in commands}
        for turn in range(self.count + 1):
            for name, words in commands.items():
                seconds, status = self.timed(words)
                if status != 0:
                    sys.exit(f"bench.py: status {status} of {' '.join(words)}")
                if turn > 0:
                    every[name].append(seconds)
        return every

    def least(self, commands: Commands) -> dict[str, float]:
        """The least seconds of each."""
        return {name: min(seconds) for name, seconds in self.seconds_of(commands).items()}


STARTS = 500        # of each command; a start takes less than a millisecond


def started(words: Sequence[str], nothing: int) -> float:
    """The seconds from the start of a command to its end, by the clock. Ends the measuring where it fails."""
    files = [(os.POSIX_SPAWN_DUP2, nothing, 0), (os.POSIX_SPAWN_DUP2, nothing, 1)]
    begin = time.perf_counter()
    pid = os.posix_spawnp(words[0], list(words), os.environ, file_actions=files)
    _, status = os.waitpid(pid, 0)
    seconds = time.perf_counter() - begin
    if status != 0:
        sys.exit(f"bench.py: status {os.waitstatus_to_exitcode(status)} of {' '.join(words)}")
    return seconds


def starts(commands: Commands) -> dict[str, list[float]]:
    """The seconds of each command's starts, which take turns."""
    every: dict[str, list[float]] = {name: [] for name in commands}
    nothing = os.open(os.devnull, os.O_RDWR)
    for _ in range(STARTS):
        for name, words in commands.items():
            every[name].append(started(words, nothing))
    os.close(nothing)
    return every
