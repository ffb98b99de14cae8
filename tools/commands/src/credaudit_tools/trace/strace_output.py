"""What strace tells, read from a pipe while it runs: nothing of it reaches a disk but what the filter takes."""
import fcntl
import os
import select
import struct
import termios
import time
from typing import TYPE_CHECKING

from ..command_line.command import Failure
from ..strace_log.kept_log import Stopped
from .end_lines import Awaited
from .exec_stops import ExecStops

if TYPE_CHECKING:
    from ..strace_log.line_filter import Filtering

CHUNK = 1 << 20
FULL, GATHER = 1 << 18, 0.01        # bytes that are worth a reading at once; else so many seconds are waited for more
SOON = 0.001                        # as many behind a stop: what isn't read yet at the next one, strace waits for
LONGEST_LINE = 1 << 26


class Stream:
    """The lines of strace, as they come, and the stops in which it waits (exec_stops.py)."""

    def __init__(self, handle: int, filter_: "Filtering", awaited: Awaited, stops: ExecStops) -> None:
        self.handle, self.filter, self.awaited, self.stops = handle, filter_, awaited, stops
        self.rest, self.count = b"", 0
        self.ended = False
        self.stopped: str | None = None
        self.pause = GATHER         # less of it behind a stop, and then ever more

    @property
    def reached(self) -> bool:
        """Whether a line came that is waited for."""
        return self.awaited.reached

    def pump(self, seconds: float) -> None:
        """Reads what there is, or waits so long for something."""
        if self.ended:
            time.sleep(seconds)
            return
        ready = [self.handle]
        if self.pause == GATHER:
            ready, _, _ = select.select([self.handle, *self.stops.handles()], [], [], seconds)
        gathers = ready == [self.handle] and (self.pause < GATHER or self.waiting() < FULL)
        if self.gather() if gathers else self.stops.wait(0):
            self.look()
            self.pause = SOON
        elif self.handle in ready:
            self.read()

    def gather(self) -> bool:
        """Lets more lines come, but not beyond a stop: strace writes line by line, and to be woken for each would slow
        it down. Whether there is a stop."""
        if self.stops.handles():
            return self.stops.wait(self.pause)
        time.sleep(self.pause)
        return False

    def read(self) -> None:
        """Reads what there is; where that may be nothing yet, more is waited for from now on."""
        left = self.waiting()
        if left == 0 and self.pause < GATHER:
            self.pause = GATHER
            return
        self.pause = min(2 * self.pause, GATHER)
        # Python asks for memory for all that may come, and to give back what didn't takes longer than to read.
        data = os.read(self.handle, min(left, CHUNK) or 1)
        self.ended = not data
        self.take(data)

    def look(self) -> None:
        """At a stop all that strace wrote before is taken first; then the new program is looked at, and strace goes
        on."""
        pid = self.stops.process()
        if pid is None:
            return
        while (left := self.waiting()) > 0:
            self.take(os.read(self.handle, min(left, CHUNK)))
        if self.stopped is None:
            self.filter.executing.stands(pid)
        self.stops.go_on()

    def take(self, data: bytes) -> None:
        """Feeds whole lines on; what follows the last line feed waits."""
        *whole, self.rest = (self.rest + data).split(b"\n")
        if len(self.rest) > LONGEST_LINE:
            raise Failure("strace wrote a line without end")
        self.count += len(whole)
        if self.stopped is not None:
            return
        try:
            for line in whole:
                self.filter.feed(line)
        except Stopped as stopped:
            self.stopped = str(stopped)
        self.awaited.look(self.filter.taken.lines)

    def waiting(self) -> int:
        """The bytes that strace wrote and that aren't read yet."""
        return int(struct.unpack("i", fcntl.ioctl(self.handle, termios.FIONREAD, b"\0\0\0\0"))[0])

    def drain(self) -> None:
        """Reads what strace left behind, once it has ended, and no more: another process may have the pipe too, so its
        end may never come. Then `ended` says whether nobody has it any more."""
        left = 0 if self.ended else self.waiting()
        while left > 0:
            data = os.read(self.handle, min(left, CHUNK))
            left -= len(data)
            self.take(data)
        asked = select.poll()
        asked.register(self.handle, select.POLLIN)
        self.ended = any(events & select.POLLHUP for _, events in asked.poll(0))

    def is_empty(self) -> bool:
        """Whether all that strace wrote is read, and it waits in no stop."""
        return self.ended or (self.waiting() == 0 and not self.stops.wait(0))
