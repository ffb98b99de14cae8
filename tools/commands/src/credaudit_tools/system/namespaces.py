"""User namespaces of live processes (user_namespaces(7), ioctl_ns(2)).

A namespace is known by the number of its file in /proc/PID/ns. Its maps are read from the initial namespace, so their
outside numbers are ids as that one has them.
"""
import fcntl
import os
import struct
from dataclasses import dataclass

from .proc import Proc

INITIAL_INODE = 0xeffffffd      # PROC_USER_INIT_INO of the kernel
NS_GET_PARENT, NS_GET_OWNER_UID = 0xb702, 0xb704
Extents = tuple[tuple[int, int, int], ...]


@dataclass(frozen=True)
class UserSpace:
    """A user namespace: `key` is its file's number, `parent` that of its parent, None where it can't be seen. A map
    that isn't written is empty."""
    key: int
    parent: int | None
    owner: int
    uid_map: Extents
    gid_map: Extents
    setgroups: str


def key_of(proc: Proc, pid: int) -> int | None:
    """The namespace of a process, None where it is gone."""
    told = proc.link(pid, "ns/user")
    if told is None or not told.startswith("user:["):
        return None
    return int(told.removeprefix("user:[").rstrip("]"))


def map_text(data: bytes | None) -> Extents:
    """The extents of a map file's text."""
    found = []
    for line in (data or b"").decode("ascii").splitlines():
        inside, outside, length = map(int, line.split())
        found.append((inside, outside, length))
    return tuple(found)


def ioctl_parent(handle: int) -> int | None:
    """A descriptor of the parent; None for the initial namespace, and for one whose parent is out of sight."""
    try:
        return fcntl.ioctl(handle, NS_GET_PARENT)
    except OSError:
        return None


def ioctl_owner(handle: int) -> int:
    """The owner's id, as the caller's namespace has it."""
    owner: int = struct.unpack("I", fcntl.ioctl(handle, NS_GET_OWNER_UID, struct.pack("I", 0)))[0]
    return owner


def of_process(proc: Proc, pid: int) -> UserSpace | None:
    """The namespace of a live process of the kernel's own /proc, None where it is gone."""
    key = key_of(proc, pid)
    if key is None:
        return None
    try:
        handle = os.open(proc.path(pid, "ns/user"), os.O_RDONLY | os.O_CLOEXEC)
    except OSError:
        return None
    try:
        above = ioctl_parent(handle)
        parent = None if above is None else os.fstat(above).st_ino
        if above is not None:
            os.close(above)
        owner = ioctl_owner(handle)
    finally:
        os.close(handle)
    maps = [map_text(proc.read(pid, name)) for name in ("uid_map", "gid_map")]
    word = (proc.read(pid, "setgroups") or b"").decode("ascii").strip()
    return UserSpace(key, parent, owner, maps[0], maps[1], word)
