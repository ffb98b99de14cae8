"""Filters of system calls as the kernel shows them of processes that have stopped (PTRACE_SECCOMP_GET_FILTER,
ptrace(2)).

A process of its own attaches, asks and lets go; whatever becomes of it, the kernel lets go of all that it holds. What
it attaches to had stopped before and stays stopped: nothing is called in it, and no signal reaches it.
"""
import ctypes
import errno
import os
import select
import signal
import struct
import time
from collections.abc import Callable, Sequence

from ..filters import bpf
from ..filters.bpf import Program
from ..system.program_stub import prctl

PTRACE_DETACH, PTRACE_SEIZE, PTRACE_SECCOMP_GET_FILTER = 17, 0x4206, 0x420c
PR_SET_PDEATHSIG = 1
EACH_PATIENCE, PATIENCE, POLL, PAUSE = 0.5, 10.0, 0.1, 0.01
UNREADABLE = "isn't one of the classic BPF"
REASONS = {
    errno.EACCES: "the recorder has no CAP_SYS_ADMIN, or runs under a filter itself",
    errno.EPERM: "it can't be attached to",
    errno.ESRCH: "it didn't stop",
    errno.EINVAL: "this kernel shows none (CONFIG_CHECKPOINT_RESTORE)",
    errno.EIO: "this kernel shows none (CONFIG_CHECKPOINT_RESTORE)",
    errno.EMEDIUMTYPE: UNREADABLE}

Shown = tuple[Program, ...] | str       # what stands, the first installed first; or why that isn't shown


class Unshown(OSError):
    """The kernel doesn't show it."""


def ptrace() -> Callable[[int, int, int, int], int]:
    """ptrace(2), which raises Unshown with its error."""
    library = ctypes.CDLL(None, use_errno=True)
    library.ptrace.restype = ctypes.c_long
    library.ptrace.argtypes = [ctypes.c_long, ctypes.c_long, ctypes.c_void_p, ctypes.c_void_p]

    def asked(request: int, tid: int, address: int, data: int) -> int:
        answer = int(library.ptrace(request, tid, address, data))
        if answer < 0:
            raise Unshown(ctypes.get_errno(), os.strerror(ctypes.get_errno()))
        return answer

    return asked


# ---- in the process that asks ----------------------------------------------------------------------------------------


def filter_at(tid: int, place: int) -> bytes:
    """The bytes of a filter of a thread that this process traces; the first installed is at 0."""
    call, end = ptrace(), time.monotonic() + EACH_PATIENCE
    while True:
        try:
            length = call(PTRACE_SECCOMP_GET_FILTER, tid, place, 0)
            break
        except Unshown as error:
            if error.errno != errno.ESRCH or time.monotonic() > end:
                raise
            time.sleep(PAUSE)       # it comes from the stop of a signal into that of a tracer
    held = ctypes.create_string_buffer(8 * length)
    call(PTRACE_SECCOMP_GET_FILTER, tid, place, ctypes.addressof(held))
    return held.raw


def filters_of(tid: int) -> list[bytes]:
    """The bytes of all filters of a thread. Unshown where the kernel doesn't show one."""
    call, found = ptrace(), list[bytes]()
    call(PTRACE_SEIZE, tid, 0, 0)
    try:
        while True:
            found.append(filter_at(tid, len(found)))
    except Unshown as error:
        if error.errno != errno.ENOENT or not found:
            raise
    call(PTRACE_DETACH, tid, 0, 0)
    return found


def ask(tids: Sequence[int], writing: int) -> None:
    """Writes of each thread its number, an error or 0, how many filters follow, and each with its length."""
    for tid in tids:
        try:
            found, error = filters_of(tid), 0
        except Unshown as unshown:
            found, error = [], unshown.errno or errno.EIO
        parts = [struct.pack("=III", tid, error, len(found))]
        for each in found:
            parts += [struct.pack("=I", len(each)), each]
        left = memoryview(b"".join(parts))
        while left:
            left = left[os.write(writing, left):]


# ---- outside ---------------------------------------------------------------------------------------------------------


def of_stopped(tids: Sequence[int], is_over: Callable[[], bool] = lambda: False) -> dict[int, Shown]:
    """The filters of threads that have stopped and have some, by their numbers. It takes PATIENCE seconds at most, and
    no longer than until `is_over` says so; then what isn't told isn't shown."""
    if not tids:
        return {}
    reading, writing = os.pipe()
    pid = os.fork()
    if pid == 0:
        try:
            prctl(PR_SET_PDEATHSIG, signal.SIGKILL)
            os.close(reading)
            ask(tids, writing)
        finally:
            os._exit(0)
    os.close(writing)
    try:
        told = read_all(reading, is_over)
    finally:
        os.close(reading)
        os.kill(pid, signal.SIGKILL)
        os.waitpid(pid, 0)
    return read_back(told, tids)


def read_all(handle: int, is_over: Callable[[], bool]) -> bytes:
    """All that is written to a pipe until its end, or as long as it is waited for."""
    found, ends = bytearray(), time.monotonic() + PATIENCE
    while time.monotonic() < ends and not is_over():
        if select.select([handle], [], [], POLL)[0]:
            piece = os.read(handle, 1 << 16)
            if not piece:
                break
            found += piece
    return bytes(found)


def read_back(told: bytes, wanted: Sequence[int]) -> dict[int, Shown]:
    """What `ask` wrote; of a thread of which it wrote nothing whole that it took too long."""
    found: dict[int, Shown] = {tid: "it took too long" for tid in wanted}
    at = 0
    while at + 12 <= len(told):
        tid, error, count = struct.unpack_from("=III", told, at)
        at, pieces = at + 12, []
        for _ in range(count):
            if at + 4 > len(told):
                return found
            length = struct.unpack_from("=I", told, at)[0]
            pieces.append(told[at + 4:at + 4 + length])
            at += 4 + length
        if at > len(told):
            return found
        found[tid] = REASONS.get(error, os.strerror(error)) if error else programs_of(pieces)
    return found


def programs_of(pieces: Sequence[bytes]) -> Shown:
    """The programs of their bytes."""
    programs = [bpf.of_bytes(each) for each in pieces]
    known = tuple(each for each in programs if each is not None)
    return known if len(known) == len(programs) else UNREADABLE
