"""Proves and builds the libraries that a crate stands on, side by side (turns): each in a room of its own (rooms), by
`rt lib`, which ends with status 0 only where it proved the library, or found it proved of the same text.
"""
import contextlib
import os
import signal
import subprocess
import sys
import tempfile
import threading
import time
from concurrent.futures import FIRST_COMPLETED, Future, ThreadPoolExecutor, wait
from typing import IO, NamedTuple

from . import kit, machine, rooms
from .crate_list import Crates
from .kept import Kept
from .kit import Failed
from .turns import Task, Turns, stopped, tasks

KILLED = (-9, 137, 247)         # by a signal, as a shell tells it, and as rt passes it on

LOOKS_AGAIN = 30                # after so many seconds, at the memory that is free


class Ended(NamedTuple):
    """What came of a library."""

    status: int
    said: str
    clock: float                # in seconds
    processor: float


class Libraries:
    """The libraries of one run."""

    def __init__(self, crates: Crates, kept: Kept, lanes: int) -> None:
        self.crates, self.kept, self.lanes = crates, kept, lanes
        self.children: set[subprocess.Popen[bytes]] = set()
        self.begins, self.ends = threading.Lock(), False

    def waited(self, folder: str, jobs: int, said: IO[bytes]) -> tuple[int, float]:
        """The status of `rt lib` in a folder, and the seconds of processor that it took with all that it started."""
        with self.begins:
            if self.ends:
                raise Failed("interrupted")
            running = kit.library(folder, jobs, said)
            self.children.add(running)
        _, status, used = os.wait4(running.pid, 0)
        running.returncode = os.waitstatus_to_exitcode(status)
        self.children.discard(running)
        return running.returncode, used.ru_utime + used.ru_stime

    def built(self, name: str, jobs: int) -> Ended:
        """Proves and builds a library, over those below it."""
        begun = time.monotonic()
        before = self.kept.sum_of(name)
        with tempfile.TemporaryFile() as said:
            with rooms.room(self.crates, name) as folder:
                status, processor = self.waited(folder, jobs, said)
            if not status:
                self.kept.keep(name, before)
            said.seek(0)
            text = said.read().decode(errors="backslashreplace")
        return Ended(status, text, time.monotonic() - begun, processor)

    def stop(self) -> None:
        """Ends what runs, and begins nothing more."""
        with self.begins:
            self.ends = True
            for running in self.children:
                with contextlib.suppress(ProcessLookupError):
                    os.kill(running.pid, signal.SIGTERM)    # Popen's own would wait for it beside the thread that does

    def all_built(self, wanted: list[Task], done: list[str]) -> dict[str, int]:
        """Builds all; the statuses of those that failed, by their names."""
        turns, failed = Turns(wanted, done, self.lanes, machine.memory()), dict[str, int]()
        running: dict[Future[Ended], tuple[Task, int]] = {}
        with ThreadPoolExecutor(self.lanes) as pool:
            try:
                while True:
                    turns.room = machine.memory()
                    while (begin := turns.following()) is not None:
                        running[pool.submit(self.built, begin[0].name, begin[1])] = begin
                    if not running:
                        return failed
                    for future in wait(running, LOOKS_AGAIN, FIRST_COMPLETED).done:
                        task, jobs = running.pop(future)
                        ended = future.result()
                        tell(task.name, jobs, ended)
                        if ended.status in KILLED and turns.once_more(task):
                            print(f"{task.name} was killed, most likely for memory: once more, alone", file=sys.stderr)
                            continue
                        if ended.status in KILLED:
                            failed[task.name] = ended.status
                            continue
                        turns.ended(task, not ended.status)
                        if ended.status:
                            failed[task.name] = ended.status
            except BaseException:
                self.stop()
                raise


def tell(name: str, jobs: int, ended: Ended) -> None:
    """Passes on what rt told of a library, and what it took."""
    what = f"not proved (status {ended.status})" if ended.status else "proved"
    print(f"== {name}\n{ended.said}{name}: {what}; {ended.clock / 60:.1f} minutes by the clock, "
          f"{ended.processor / 60:.1f} of processor, jobs: {jobs}", file=sys.stderr, flush=True)


def prove_below(top: str, name: str, lanes: int, version: str) -> None:
    """Proves and builds all that a crate stands on, where it isn't kept. Fails where one isn't proved, and names it."""
    crates = Crates(top)
    names = crates.below(name)
    with rooms.alone_in([crates.folder(each) for each in [*names, name]]):
        for each in names:
            rooms.swept(crates, each)
        kept = Kept(crates, version)
        done = [each for each in names if kept.holds(each)]
        wanted = tasks(crates, [each for each in names if each not in done])
        if wanted:
            print(f"libraries: {len(names)}, of which {len(done)} are proved already; at most {lanes} at once",
                  file=sys.stderr, flush=True)
        failed = Libraries(crates, kept, lanes).all_built(wanted, done)
    if failed:
        above = stopped(wanted, failed)
        raise Failed(f"not proved: {', '.join(sorted(failed))}" +
                     (f"; not begun, since they stand on it: {', '.join(above)}" if above else ""))
