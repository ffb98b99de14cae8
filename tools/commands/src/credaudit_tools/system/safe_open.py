"""Opening files by paths that others may change meanwhile (openat2(2)): no symbolic link leads out of a root, and a
walk stays on its mount."""
import ctypes
import os

OPENAT2 = 437
NO_XDEV, NO_MAGICLINKS, NO_SYMLINKS, BENEATH, IN_ROOT = 0x01, 0x02, 0x04, 0x08, 0x10
WITHIN = NO_MAGICLINKS | NO_SYMLINKS | BENEATH | NO_XDEV    # of one mount, by no link
ROOTED = NO_MAGICLINKS | IN_ROOT                            # through links as a process with that root follows them
PLAIN = ROOTED | NO_SYMLINKS
PLACE = os.O_PATH | os.O_NOFOLLOW | os.O_CLOEXEC
LISTING = os.O_RDONLY | os.O_DIRECTORY | os.O_NOFOLLOW | os.O_NONBLOCK | os.O_CLOEXEC
AGAIN = 20

LIBC = ctypes.CDLL(None, use_errno=True)


class How(ctypes.Structure):
    """struct open_how."""
    _fields_ = [("flags", ctypes.c_uint64), ("mode", ctypes.c_uint64), ("resolve", ctypes.c_uint64)]


def safe_open(folder: int, path: bytes, flags: int, resolve: int) -> int:
    """A descriptor; `path` starts at the descriptor `folder`. OSError as the kernel has it."""
    how = How(flags, 0, resolve)
    for _ in range(AGAIN):
        handle: int = LIBC.syscall(OPENAT2, folder, path or b".", ctypes.byref(how), ctypes.sizeof(how))
        if handle >= 0:
            return handle
        error = ctypes.get_errno()
        if error != 11:                     # EAGAIN: something was moved meanwhile
            break
    raise OSError(error, os.strerror(error), path)


def mount_number(handle: int) -> int:
    """The number of the mount on which an open file lies (proc(5), fdinfo)."""
    with open(f"/proc/self/fdinfo/{handle}", encoding="ascii") as file:
        return int(next(line for line in file if line.startswith("mnt_id:")).split()[1])
