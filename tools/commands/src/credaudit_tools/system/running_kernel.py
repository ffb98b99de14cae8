"""The running kernel, as a capture asks it: namespaces by ioctl_ns(2), files by walks that follow no link.

The names and the contents of files may be those of a container that wishes ill: nothing but directories and regular
files is opened, nothing waits, no walk leaves its mount.
"""
import errno
import os
import stat
import sys
from collections.abc import Iterator, Mapping
from contextlib import contextmanager
from dataclasses import replace

from ..command_line.command import Failure
from . import binfmt, mount_namespaces, mounts
from .kernel_questions import Program, Trouble
from .namespace_holder import CLONE_NEWNS, CLONE_NEWUSER, Standing
from .namespaces import UserSpace, ioctl_owner, ioctl_parent, map_text
from .proc import GONE, Proc
from .program_rows import EXECUTE, SET_IDS
from .safe_open import LISTING, PLACE, PLAIN, ROOTED, WITHIN, mount_number, safe_open

NS_GET_USERNS, NS_GET_MNTNS_ID = 0xb701, 0x8008b705
ATTRIBUTE, ACCESS_LIST = "security.capability", "system.posix_acl_access"
FRONT = 256                     # bytes of a script's first line (execve(2))
EVERY = 1024                    # entries between two counts
PASSED_OVER = (errno.ENOENT, errno.EXDEV)


class Live:
    """The running kernel, with the methods of `Kernel`. What it named stays open until `close`, so that numbers of
    namespaces don't come again."""

    def __init__(self) -> None:
        self.proc, self.reader, self.release = Proc(), os.getpid(), os.uname().release
        self.handles: dict[int, int] = {}
        self.standing: dict[int, Standing] = {}

    def close(self) -> None:
        """Gives back what was kept: waiting processes and open namespaces."""
        self.leave()
        for handle in self.handles.values():
            os.close(handle)
        self.handles = {}

    def leave(self) -> None:
        """Ends the waiting processes."""
        for stander in self.standing.values():
            stander.leave()
        self.standing = {}

    # ---- namespaces

    def keep(self, handle: int) -> int:
        """The number of an open namespace, which stays open."""
        key = os.fstat(handle).st_ino
        if key in self.handles:
            os.close(handle)
        else:
            self.handles[key] = handle
        return key

    def space_of(self, pid: int, tid: int, kind: str) -> int | None:
        """The number of a thread's namespace of this kind, None where it isn't shown."""
        try:
            return self.keep(os.open(self.proc.path(pid, "task", tid, "ns", kind), os.O_RDONLY | os.O_CLOEXEC))
        except OSError:
            return None

    def user_space(self, key: int) -> UserSpace:
        """A user namespace that was named before, its maps looked at from within. Fails where it can't be entered."""
        above = ioctl_parent(self.handles[key])
        parent = None if above is None else self.keep(above)
        stander = Standing(self.handles[key], CLONE_NEWUSER)
        try:
            texts = [self.proc.read(stander.pid, name) or b"" for name in ("uid_map", "gid_map", "setgroups")]
        finally:
            stander.leave()
        return UserSpace(key, parent, ioctl_owner(self.handles[key]), map_text(texts[0]), map_text(texts[1]),
                         texts[2].decode("ascii").strip())

    def other_spaces(self) -> tuple[set[int], list[Trouble]]:
        """The user namespaces of all processes, of open descriptors and of mounts, and who couldn't be looked into."""
        found: set[int] = set()
        troubles = []
        tables: set[int] = set()
        for pid in self.proc.pids():
            key, table = self.space_of(pid, pid, "user"), self.space_of(pid, pid, "mnt")
            if key is not None:
                found.add(key)
            elif (why := hidden(self.proc, pid)) is not None:
                troubles.append(Trouble(b"process %d" % pid, why))
            found |= self.held_by(pid)
            if table is not None and table not in tables:
                tables.add(table)
                found |= self.mounted(pid)
        return found, troubles

    def held_by(self, pid: int) -> set[int]:
        """The user namespaces of a process's open descriptors."""
        numbers = [number for number, told in self.proc.descriptors(pid).items() if told.startswith("user:[")]
        return self.opened([self.proc.path(pid, "fd", number) for number in numbers])

    def mounted(self, pid: int) -> set[int]:
        """The user namespaces that are bound to files of a process's mount namespace."""
        text = self.proc.read(pid, "mountinfo") or b""
        points = [mount.point for mount in mounts.table(text) if mount.kind == b"nsfs"
                  and mount.part.startswith(b"user:[")]
        return self.opened([os.fsencode(self.proc.path(pid, "root")) + point for point in points])

    def opened(self, paths: list[str] | list[bytes]) -> set[int]:
        """The user namespaces that these paths lead to; what can't be opened is passed over."""
        found = set()
        for path in paths:
            try:
                handle = os.open(path, os.O_PATH | os.O_CLOEXEC)
            except OSError:
                continue
            try:
                found |= self.kept_space(handle)
            finally:
                os.close(handle)
        return found

    def kept_space(self, handle: int) -> set[int]:
        """The namespace behind a place, where it still is one."""
        if not os.readlink(f"/proc/self/fd/{handle}").startswith("user:["):
            return set()
        try:
            return {self.keep(os.open(f"/proc/self/fd/{handle}", os.O_RDONLY | os.O_CLOEXEC))}
        except OSError:
            return set()

    def owner_of_mounts(self, key: int) -> int:
        """The user namespace that owns a mount namespace."""
        import fcntl
        return self.keep(fcntl.ioctl(self.handles[key], NS_GET_USERNS))

    def count_of_mounts(self, key: int) -> int:
        """The number that a mount namespace has for good, 0 where the kernel tells none."""
        import fcntl
        try:
            told = fcntl.ioctl(self.handles[key], NS_GET_MNTNS_ID, bytes(8))
        except OSError:
            return mount_namespaces.UNKNOWN
        return int.from_bytes(told, sys.byteorder)

    # ---- mounts and files

    def interpreters(self) -> Mapping[str, str]:
        """The entries of binfmt_misc. OSError where they can't be read."""
        return binfmt.entries()

    def root_of(self, key: int) -> str:
        """The root of a mount namespace: that of a process which stands there."""
        if key not in self.standing:
            self.standing[key] = Standing(self.handles[key], CLONE_NEWNS)
        return self.proc.path(self.standing[key].pid, "root")

    def mount_table(self, key: int) -> bytes:
        """The text of mountinfo of a mount namespace, from its own root. Fails where it can't be read."""
        self.root_of(key)
        text = self.proc.read(self.standing[key].pid, "mountinfo")
        if text is None:
            raise Failure("the mounts of a namespace can't be read")
        return text

    def place(self, key: int, path: bytes, resolve: int) -> int:
        """A place below the root of a mount namespace."""
        root = os.open(self.root_of(key), os.O_PATH | os.O_DIRECTORY | os.O_CLOEXEC)
        try:
            flags = PLACE if resolve == PLAIN else os.O_PATH | os.O_CLOEXEC
            return safe_open(root, path.lstrip(b"/"), flags, resolve)
        finally:
            os.close(root)

    def walk(self, key: int, start: bytes, mount: int,
             skip: frozenset[bytes] = frozenset()) -> Iterator[Program | Trouble | int]:
        """All programs on one mount, from a directory or a file on, what can't be looked at, and counts of files."""
        try:
            handle = self.place(key, start, PLAIN)
        except OSError as error:
            yield Trouble(start, error.strerror)
            return
        try:
            if mount_number(handle) != mount:
                yield Trouble(start, "another mount hides it")
            elif stat.S_ISDIR(os.fstat(handle).st_mode):
                yield from walk_tree(handle, start, mount, skip)
            else:
                yield from wanted(handle, start, mount)
        finally:
            os.close(handle)

    @contextmanager
    def at(self, key: int, path: bytes, resolve: int) -> Iterator[int]:
        """A place below the root of a mount namespace, which is open meanwhile. OSError where it can't be opened."""
        handle = self.place(key, path, resolve)
        try:
            yield handle
        finally:
            os.close(handle)

    def inodes(self, key: int, path: bytes) -> int:
        """How many inodes the filesystem of a place has in use; 0 where it isn't known (statvfs(3))."""
        try:
            with self.at(key, path, PLAIN) as handle:
                told = os.statvfs(handle)
        except OSError:
            return 0
        return told.f_files - told.f_ffree

    def is_directory(self, key: int, path: bytes) -> bool:
        """Whether a path leads to a directory, through no symbolic link."""
        try:
            with self.at(key, path, PLAIN) as handle:
                return stat.S_ISDIR(os.fstat(handle).st_mode)
        except OSError:
            return False

    def resolve(self, key: int, path: bytes) -> Program | Trouble:
        """The program that a path leads to, through symbolic links, or why it leads to none."""
        try:
            with self.at(key, path, ROOTED) as handle:
                found = os.readlink(os.fsencode(f"/proc/self/fd/{handle}"))
                if not stat.S_ISREG(os.fstat(handle).st_mode):
                    return Trouble(path, "it is no regular file")
                return program(handle, found, mount_number(handle))
        except OSError as error:
            return Trouble(path, error.strerror)

    def directory_modes(self, key: int, path: bytes) -> list[tuple[bytes, int, int, int]]:
        """The directories above a file: path, owner, group, mode; those that can't be opened are left out."""
        found = []
        parts = path.strip(b"/").split(b"/")[:-1]
        for count in range(len(parts) + 1):
            above = b"/" + b"/".join(parts[:count])
            try:
                with self.at(key, above, PLAIN) as handle:
                    kept = os.fstat(handle)
            except OSError:
                continue
            found.append((above, kept.st_uid, kept.st_gid, stat.S_IMODE(kept.st_mode)))
        return found


def hidden(proc: Proc, pid: int) -> str | None:
    """Why the namespaces of a process aren't shown, None where it has none any more."""
    status = proc.read(pid, "status")
    if status is None or b"\nState:\tZ" in status or b"\nVmSize:" not in status:
        return None
    try:
        os.readlink(proc.path(pid, "ns/user"))
    except GONE as error:
        return error.strerror
    return None


# ---- files -----------------------------------------------------------------------------------------------------------


def attribute(handle: int, name: str) -> bytes | None:
    """An extended attribute of an open place."""
    try:
        return os.getxattr(f"/proc/self/fd/{handle}", name)
    except OSError as error:
        if error.errno in (errno.ENODATA, errno.EOPNOTSUPP):
            return None
        raise


def front(handle: int) -> bytes:
    """The first bytes of a regular file that was opened as a place."""
    again = os.open(f"/proc/self/fd/{handle}", os.O_RDONLY | os.O_NONBLOCK | os.O_NOCTTY | os.O_CLOEXEC)
    try:
        return os.read(again, FRONT)
    finally:
        os.close(again)


def executable(handle: int, path: bytes) -> Program:
    """A regular file, as the kernel reads it where it executes it: without its access list, which has let the process
    do so, and without its mount's number. OSError where it can't be read."""
    kept = os.fstat(handle)
    return Program(path, kept.st_uid, kept.st_gid, kept.st_mode, attribute(handle, ATTRIBUTE), front(handle))


def program(handle: int, path: bytes, mount: int) -> Program:
    """A regular file. OSError where it can't be read."""
    return replace(executable(handle, path), listed=attribute(handle, ACCESS_LIST) is not None, mount=mount)


def wanted(handle: int, path: bytes, mount: int) -> Iterator[Program | Trouble]:
    """An open place, where it is a program with set-id bits or the attribute."""
    try:
        kept = os.fstat(handle)
        if stat.S_ISREG(kept.st_mode) and (kept.st_mode & SET_IDS or attribute(handle, ATTRIBUTE) is not None):
            yield program(handle, path, mount)
    except OSError as error:
        yield Trouble(path, error.strerror)


def walk_tree(top: int, start: bytes, mount: int,
              skip: frozenset[bytes] = frozenset()) -> Iterator[Program | Trouble | int]:
    """All files of a mount below a directory, but for those in the directories of `skip`."""
    waiting, count, entries_read = [b""], 0, 0
    while waiting:
        inner = waiting.pop()
        try:
            folder = safe_open(top, inner, LISTING, WITHIN)
        except OSError as error:
            if error.errno not in PASSED_OVER:
                yield Trouble(join(start, inner), error.strerror)
            continue
        try:
            with os.scandir(folder) as entries:
                for entry in entries:
                    path = join(inner, os.fsencode(entry.name))
                    if entry.is_dir(follow_symlinks=False):
                        waiting += [path] if join(start, path) not in skip else []
                    elif entry.is_file(follow_symlinks=False):
                        count += 1
                        yield from looked_at(folder, entry, join(start, path), mount)
                    entries_read += 1
                    if entries_read % EVERY == 0:
                        yield count
        except OSError as error:
            yield Trouble(join(start, inner), error.strerror)
        finally:
            os.close(folder)
    yield count


def looked_at(folder: int, entry: os.DirEntry[str], path: bytes, mount: int) -> Iterator[Program | Trouble]:
    """An entry that is a regular file: opened only where somebody may execute it, or set-id bits are set."""
    try:
        mode = entry.stat(follow_symlinks=False).st_mode
        if not mode & (SET_IDS | EXECUTE):
            return
        handle = safe_open(folder, os.fsencode(entry.name), PLACE, WITHIN)
    except OSError as error:
        if error.errno not in PASSED_OVER:
            yield Trouble(path, error.strerror)
        return
    try:
        yield from wanted(handle, path, mount)
    finally:
        os.close(handle)


def join(above: bytes, name: bytes) -> bytes:
    """A path below another one; either may be empty."""
    return above.rstrip(b"/") + b"/" + name if above and name else above or name
