"""A second process beside a recorder, which outlives it: where the recorder is gone before it has let go of what it
stopped, this one ends strace, and sends SIGCONT to each process that was about to be stopped.

What else such an end has to undo, as the drop-in of a unit, is undone too.

It is told by a pipe, in lines, before anything is done. The recorder's death, however it comes, is seen by the pipe's
end, and by a descriptor of its process, since other processes may have the pipe too.
"""
import os
import select
import signal
import time
from collections.abc import Callable, Iterable
from dataclasses import dataclass

HEARS_NOT = (signal.SIGINT, signal.SIGTERM, signal.SIGHUP, signal.SIGQUIT, signal.SIGPIPE)
PATIENCE = 2.0                  # seconds between asking a program to end and ending it
CHUNK = 1 << 16


def nothing() -> None:
    """There is nothing more to undo."""


class Watchdog:
    """The recorder's side of it. `undo` is called where the recorder is gone after `changes` and before `undone`."""

    def __init__(self, undo: Callable[[], None] = nothing) -> None:
        recorder = os.getpid()
        reading, self.writing = os.pipe()
        before = signal.pthread_sigmask(signal.SIG_BLOCK, HEARS_NOT)
        self.pid = os.fork()
        if self.pid == 0:
            try:
                go_apart(reading)
                Watching(0, recorder, undo).watch()
            finally:
                os._exit(0)
        signal.pthread_sigmask(signal.SIG_SETMASK, before)
        os.close(reading)

    def tell(self, word: str, pids: Iterable[int] = ()) -> None:
        """A line; nobody hears it where the second process was killed."""
        left = " ".join([word, *map(str, sorted(pids))]).encode() + b"\n"
        try:
            while left:
                left = left[os.write(self.writing, left):]
        except BrokenPipeError:
            pass

    def traces(self, pid: int) -> None:
        """strace is this process."""
        self.tell("strace", [pid])

    def owns(self, pid: int) -> None:
        """This process is the recorder's own, and ends with it."""
        self.tell("own", [pid])

    def keeps(self) -> None:
        """The recorder's own program goes on without it."""
        self.tell("keep")

    def stops(self, pids: Iterable[int]) -> None:
        """These are about to be stopped."""
        self.tell("stop", pids)

    def changes(self) -> None:
        """Something is about to be changed that has to be undone."""
        self.tell("changes")

    def undone(self) -> None:
        """It is undone."""
        self.tell("undone")

    def went_on(self) -> None:
        """All that was stopped goes on."""
        self.tell("on")

    def leave(self) -> None:
        """Nothing is left to do for it. Takes note of its end."""
        self.tell("done")
        os.close(self.writing)
        try:
            os.waitpid(self.pid, 0)
        except ChildProcessError:
            pass


def go_apart(reading: int) -> None:
    """In the second process: in a session of its own, with nothing open but the pipe, at 0."""
    for number in HEARS_NOT:
        signal.signal(number, signal.SIG_IGN)
    signal.pthread_sigmask(signal.SIG_UNBLOCK, HEARS_NOT)
    os.setsid()
    os.chdir("/")
    nothing = os.open(os.devnull, os.O_WRONLY)
    for place, handle in ((0, reading), (1, nothing), (2, nothing)):
        os.dup2(handle, place)
    os.closerange(3, os.sysconf("SC_OPEN_MAX"))


@dataclass(frozen=True)
class Kept:
    """A process by a descriptor, so that a number which comes again is none of it (pidfd_open(2)); by its number
    alone where the kernel gives none."""
    pid: int
    handle: int | None

    def send(self, number: int) -> None:
        """A signal; a process that is gone is passed over."""
        try:
            if self.handle is None:
                os.kill(self.pid, number)
            else:
                signal.pidfd_send_signal(self.handle, number)
        except OSError:
            pass


def kept(pid: int) -> Kept | None:
    """A process, None where it is gone."""
    try:
        return Kept(pid, os.pidfd_open(pid))
    except ProcessLookupError:
        return None
    except OSError:
        return Kept(pid, None)


class Watching:
    """The second process's side."""

    def __init__(self, reading: int, recorder: int, undo: Callable[[], None] = nothing) -> None:
        self.reading, self.recorder, self.undo = reading, kept(recorder), undo
        self.changed = False
        self.stopped: dict[int, Kept] = {}
        self.own: dict[int, Kept] = {}
        self.strace: dict[int, Kept] = {}

    def watch(self) -> None:
        """Hears until the last word, or the recorder's end."""
        rest = b""
        while True:
            data = os.read(self.reading, CHUNK) if self.is_told() else b""
            if not data:
                self.let_go()
                return
            *lines, rest = (rest + data).split(b"\n")
            for line in lines:
                word, *pids = line.decode("ascii").split()
                if word == "done":
                    return
                self.hear(word, [int(pid) for pid in pids])

    def is_told(self) -> bool:
        """Waits: whether something can be read, or the recorder is gone."""
        asked = select.poll()
        asked.register(self.reading, select.POLLIN)
        if self.recorder is not None and self.recorder.handle is not None:
            asked.register(self.recorder.handle, select.POLLIN)
        return self.reading in dict(asked.poll())

    def hear(self, word: str, pids: list[int]) -> None:
        """A line."""
        if word in ("changes", "undone"):
            self.changed = word == "changes"
            return
        if word in ("on", "keep"):
            known = self.stopped if word == "on" else self.own
            for each in known.values():
                if each.handle is not None:
                    os.close(each.handle)
            known.clear()
            return
        known = {"strace": self.strace, "own": self.own, "stop": self.stopped}[word]
        for pid in pids:
            one = None if pid in known else kept(pid)
            if one is not None:
                known[pid] = one

    def let_go(self) -> None:
        """The recorder is gone: strace ends, what was stopped goes on, and the recorder's own program ends."""
        for each in self.strace.values():
            each.send(signal.SIGKILL)
        wait_for(self.strace.values(), PATIENCE)
        for each in self.own.values():
            each.send(signal.SIGTERM)
        for each in (*self.stopped.values(), *self.own.values()):
            each.send(signal.SIGCONT)
        if self.changed:
            self.undo()
        wait_for(self.own.values(), PATIENCE)
        for each in self.own.values():
            each.send(signal.SIGKILL)


def wait_for(ones: Iterable[Kept], seconds: float) -> None:
    """Waits until these processes have ended, but not longer."""
    ends = time.monotonic() + seconds
    for each in ones:
        asked = select.poll()
        if each.handle is not None:
            asked.register(each.handle, select.POLLIN)
        asked.poll(1000 * max(0.0, ends - time.monotonic()))
