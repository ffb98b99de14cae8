"""What a capture asks of a system beside the plain files of /proc. The running kernel answers it (`live`), and so does
a stored tree, for tests that need no root.

Namespaces are known by the numbers of their files in /proc/PID/ns; who answers keeps each that it once named, so that
no number comes to stand for another one.
"""
from collections.abc import Iterator, Mapping
from dataclasses import dataclass
from typing import Protocol

from .namespaces import UserSpace
from .proc import Proc


@dataclass(frozen=True)
class Program:
    """A regular file that somebody may execute: ids and mode as the reader sees them (inode(7)), the bytes of its
    attribute security.capability, its first bytes, whether it has an access list (acl(5)), and its mount's number."""
    path: bytes
    uid: int
    gid: int
    mode: int
    caps: bytes | None = None
    start: bytes = b""
    listed: bool = False
    mount: int = 0


@dataclass(frozen=True)
class Trouble:
    """A path that couldn't be looked at, and why."""
    path: bytes
    why: str


class Kernel(Protocol):
    """A system, from the initial user namespace."""
    proc: Proc
    reader: int         # the process that asks
    release: str        # the kernel's version

    def space_of(self, pid: int, tid: int, kind: str) -> int | None:
        """The number of a thread's namespace of this kind (`user`, `mnt`), None where it isn't shown."""

    def user_space(self, key: int) -> UserSpace:
        """A user namespace that was named before."""

    def other_spaces(self) -> tuple[set[int], list[Trouble]]:
        """The user namespaces of all processes, of open descriptors and of mounts, and who couldn't be looked into."""

    def owner_of_mounts(self, key: int) -> int:
        """The user namespace that owns a mount namespace."""

    def count_of_mounts(self, key: int) -> int:
        """The number that a mount namespace has for good, 0 where the kernel tells none (ioctl_nsfs(2))."""

    def interpreters(self) -> Mapping[str, str]:
        """The entries of binfmt_misc. OSError where they can't be read."""

    def mount_table(self, key: int) -> bytes:
        """The text of mountinfo (proc(5)) of a mount namespace, from its own root."""

    def walk(self, key: int, start: bytes, mount: int, skip: frozenset[bytes]) -> Iterator[Program | Trouble | int]:
        """All files with set-id bits or the attribute on one mount, from a directory or file on, by their paths from
        the root of the namespace; now and then the count of files that were looked at so far. What lies in a directory
        of `skip` is left out."""

    def inodes(self, key: int, path: bytes) -> int:
        """How many inodes the filesystem of a place has in use, its directories and links too; 0 where it isn't
        known."""

    def is_directory(self, key: int, path: bytes) -> bool:
        """Whether a path leads to a directory, from the root of the namespace and through no symbolic link."""

    def resolve(self, key: int, path: bytes) -> Program | Trouble:
        """The program that a path leads to, through symbolic links, from the root of the namespace."""

    def directory_modes(self, key: int, path: bytes) -> list[tuple[bytes, int, int, int]]:
        """The directories above a file: path, owner, group, mode."""
