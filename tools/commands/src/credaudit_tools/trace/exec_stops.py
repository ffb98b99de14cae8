"""Where strace waits for the recorder: as an execve has succeeded, while the process stands still before the first
instruction of its new program.

strace asks the kernel which thread executed (PTRACE_GETEVENTMSG of ptrace(2)), at each successful execve and nowhere
else. A filter of system calls hands that one call over to the recorder (seccomp_unotify(2)), which lets it go on once
it has looked. The filter is strace's own: what strace attaches to is no child of it, so nothing that is recorded has
the filter, or a flag no_new_privs by it.
"""
import ctypes
import fcntl
import os
import select
import socket
import struct

from ..system.program_stub import PR_SET_NO_NEW_PRIVS, prctl

SECCOMP, SET_MODE_FILTER, SPEC_ALLOW, NEW_LISTENER = 317, 1, 0x4, 0x8       # seccomp(2), on x86-64
X86_64, PTRACE, GETEVENTMSG = 0xc000003e, 101, 0x4201
LOAD, EQUAL, RETURN = 0x20, 0x15, 0x06
ALLOW, NOTIFY = 0x7fff0000, 0x7fc00000
NUMBER, ARCHITECTURE, REQUEST = 0, 4, 16        # offsets in struct seccomp_data
RECEIVE, SEND, CONTINUE = 0xc0502100, 0xc0182101, 1
NOTICE, ANSWER = "QIIiIQ6Q", "QqiI"     # struct seccomp_notif and struct seccomp_notif_resp
PIECE = 1024                            # more than a notice has
# Of an architecture, a call or a request that is another one all goes on.
PROGRAM = ((LOAD, 0, 0, ARCHITECTURE), (EQUAL, 0, 5, X86_64), (LOAD, 0, 0, NUMBER), (EQUAL, 0, 3, PTRACE),
           (LOAD, 0, 0, REQUEST), (EQUAL, 0, 1, GETEVENTMSG), (RETURN, 0, 0, NOTIFY), (RETURN, 0, 0, ALLOW))

LIBC = ctypes.CDLL(None, use_errno=True)


class Filter(ctypes.Structure):
    """struct sock_fprog."""
    _fields_ = [("length", ctypes.c_ushort), ("program", ctypes.c_char_p)]


def installed() -> int:
    """Installs the filter in this process; the descriptor that tells of its calls, or -1."""
    program = b"".join(struct.pack("HBBI", *each) for each in PROGRAM)
    told = Filter(len(PROGRAM), program)
    handle: int = LIBC.syscall(SECCOMP, SET_MODE_FILTER, SPEC_ALLOW | NEW_LISTENER, ctypes.byref(told))
    return handle


class ExecStops:
    """The stops of one strace. `install` is called in its process, `take` in the recorder's once strace is begun.
    Where the kernel has no such filters, or has given this process one that hands calls over already, there are none:
    `listener` is None then."""

    def __init__(self) -> None:
        self.ours, self.theirs = socket.socketpair()
        self.listener: int | None = None
        self.asked: select.poll | None = None
        self.last = 0

    def install(self) -> None:
        """In strace's process, before it is strace. Who hasn't CAP_SYS_ADMIN needs no_new_privs, which strace does
        without."""
        handle = installed()
        if handle < 0:
            prctl(PR_SET_NO_NEW_PRIVS, 1)
            handle = installed()
        if handle >= 0:
            socket.send_fds(self.theirs, [b"."], [handle])

    def take(self) -> None:
        """Takes the descriptor that the other process sent."""
        self.theirs.close()
        _, handles, _, _ = socket.recv_fds(self.ours, 1, 1)
        self.ours.close()
        self.listener = handles[0] if handles else None

    def handles(self) -> list[int]:
        """What becomes readable at a stop."""
        return [] if self.listener is None else [self.listener]

    def wait(self, seconds: float) -> bool:
        """Waits so long for a stop; whether there is one."""
        if self.listener is None:
            return False
        if self.asked is None:
            self.asked = select.poll()
            self.asked.register(self.listener, select.POLLIN)
        return any(events & select.POLLIN for _, events in self.asked.poll(seconds * 1000))

    def process(self) -> int | None:
        """The process that has executed a file and stands still; None where strace ended meanwhile."""
        if self.listener is None:
            return None
        notice = bytearray(PIECE)
        try:
            fcntl.ioctl(self.listener, RECEIVE, notice)
        except OSError:
            return None
        self.last, _, _, _, _, _, _, pid, *_ = struct.unpack_from(NOTICE, notice)
        return int(pid)

    def go_on(self) -> None:
        """strace goes on, and the process with it. Where a signal took strace out of its call, it asks again."""
        if self.listener is not None:
            try:
                fcntl.ioctl(self.listener, SEND, bytearray(struct.pack(ANSWER, self.last, 0, 0, CONTINUE)))
            except OSError:
                pass

    def close(self) -> None:
        """Gives back what was kept."""
        for each in (self.ours, self.theirs):
            each.close()
        if self.listener is not None:
            os.close(self.listener)
            self.listener = None
