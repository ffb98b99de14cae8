"""strace while it traces: begun with the recorder as its parent, asked what it does, and ended."""
import os
import signal
import subprocess
import time
from collections.abc import Callable, Collection, Iterable, Sequence

from ..command_line.command import Failure
from ..command_line.printable import shown
from ..system.proc import Proc
from ..system.program_stub import PR_SET_PDEATHSIG, prctl
from . import live_processes, strace_options
from .exec_stops import ExecStops
from .live_processes import STUCK

ATTACH_PATIENCE, ATTACH_PAUSE, END_PATIENCE = 20.0, 0.001, 5.0


class Tracer:
    """strace, which writes its lines to the descriptor `out`: of marks too, and with times where that is asked for."""

    def __init__(self, proc: Proc, path: str, out: int, pids: Sequence[int], marks: Iterable[str] = (),
                 timed: bool = False) -> None:
        self.proc = proc
        self.errors = open(os.memfd_create("strace"), "w+b")
        self.recorder = os.getpid()
        self.stops = ExecStops()
        self.process = subprocess.Popen(
            strace_options.words(path, out, pids, marks, timed), pass_fds=[out], stdin=subprocess.DEVNULL,
            stderr=self.errors, stdout=subprocess.DEVNULL, start_new_session=True, preexec_fn=self.becomes_ours)
        self.stops.take()
        self.pid = self.process.pid

    def becomes_ours(self) -> None:
        """In the child: the recorder's death, however it comes, is strace's too (PR_SET_PDEATHSIG, prctl(2)); and it
        waits for the recorder at each execve."""
        prctl(PR_SET_PDEATHSIG, signal.SIGKILL)
        if os.getppid() != self.recorder:
            os._exit(1)
        self.stops.install()

    def wait_until_attached(self, tids: Collection[int], is_over: Callable[[], bool]) -> None:
        """Returns once it traces all these threads. Fails where it doesn't, and where `is_over` says so."""
        ends = time.monotonic() + ATTACH_PATIENCE
        while not self.traces(tids):
            if self.has_ended() or time.monotonic() > ends or is_over():
                self.end()
                raise Failure(f"strace can't attach: {shown(self.said())}",
                              "another tracer may be there, or a rule against ptrace (ptrace(2), Yama)")
            time.sleep(ATTACH_PAUSE)

    def traces(self, tids: Collection[int]) -> bool:
        """Whether it traces all these threads."""
        found = (live_processes.glance(self.proc, tid) for tid in tids)
        return all(each is not None and each.tracer == self.pid for each in found)

    def state(self) -> str:
        """Its state by proc(5), empty where it has ended."""
        one = live_processes.glance(self.proc, self.pid)
        return "" if one is None else one.state

    def has_ended(self) -> bool:
        """Whether it has."""
        return self.process.poll() is not None

    def is_waiting(self) -> bool:
        """Whether it waits for what it traces, or has ended: it tells nothing more of what has stopped."""
        return self.state() in ("S", "")

    def is_stuck(self) -> bool:
        """Whether it waits for the kernel, as for a page that a process which it traces is to fill (userfaultfd(2))."""
        return self.state() == STUCK

    def end(self) -> None:
        """Ends it, and takes note of that. The kernel lets go of all that it traces: what has stopped stays so, what
        it holds in a call goes on. To be asked (SIGTERM) it would wait for a parent that waits for its child's execve,
        and for a main thread that has ended, as long as these do."""
        if not self.has_ended():
            self.process.kill()
        try:
            self.process.wait(END_PATIENCE)
        except subprocess.TimeoutExpired:
            pass

    def finish(self) -> None:
        """Its own end, which is near."""
        try:
            self.process.wait(END_PATIENCE)
        except subprocess.TimeoutExpired:
            self.end()

    @property
    def status(self) -> int | None:
        """Its exit status, None while it lives."""
        return self.process.returncode

    def said(self) -> bytes:
        """What it wrote to standard error."""
        self.errors.seek(0)
        return self.errors.read(4096).replace(b"\n", b"; ").strip(b"; ") or b"it says nothing"

    def close(self) -> None:
        """Ends it, and gives back what was kept."""
        self.end()
        self.stops.close()
        self.errors.close()
