"""A process that stands in a namespace and waits, so that this one can be looked at from outside (setns(2))."""
import ctypes
import os
import signal

from ..command_line.command import Failure

CLONE_NEWNS, CLONE_NEWUSER = 0x00020000, 0x10000000
LIBC = ctypes.CDLL(None, use_errno=True)


class Standing:
    """A child of this process in a namespace, until `leave`. It ends too where this process ends."""

    def __init__(self, handle: int, kind: int) -> None:
        told, tell = os.pipe()
        wait, self.hold = os.pipe()
        self.pid = os.fork()
        if self.pid == 0:
            stand(handle, kind, tell, wait, self.hold)
        os.close(wait)
        os.close(tell)
        with os.fdopen(told, "rb") as file:
            error = int(file.read(8) or b"1")
        if error:
            self.leave()
            raise Failure(f"a namespace can't be entered: {os.strerror(error)}")

    def leave(self) -> None:
        """Ends it. By a signal, since a later one of these holds the pipe too. It may be gone, and waited for."""
        try:
            os.kill(self.pid, signal.SIGKILL)
            os.waitpid(self.pid, 0)
        except (ProcessLookupError, ChildProcessError):
            pass
        os.close(self.hold)


def stand(handle: int, kind: int, tell: int, wait: int, hold: int) -> None:
    """The child: it tells its error, or 0, and goes when nobody holds the pipe any more."""
    try:
        os.close(hold)
        done = LIBC.setns(handle, kind)
        os.write(tell, b"%d" % (ctypes.get_errno() if done else 0))
        os.close(tell)
        os.read(wait, 1)
    finally:
        os._exit(0)
