"""The files of the mount namespaces in which a family stands: all programs with set-id bits or the attribute
security.capability, and what wasn't looked at."""
import time
from collections.abc import Callable, Iterator
from dataclasses import dataclass, field

from ..command_line.command import Failure, Says
from ..command_line.printable import escaped, few, plural, quoted, shown
from ..system import mount_namespaces, mounts, program_rows
from ..system.kernel_questions import Kernel, Program, Trouble
from ..system.mount_namespaces import MountSpace
from ..system.mounts import Area, Mount
from ..system.namespaces import INITIAL_INODE
from .family import Family, Thread

DAC_SEARCH = 1 << 1 | 1 << 2        # CAP_DAC_OVERRIDE, CAP_DAC_READ_SEARCH


@dataclass
class Scan:
    """Files of the mount namespaces in which the family stands."""
    kernel: Kernel
    family: Family
    skip: tuple[bytes, ...]
    says: Says
    clock: Callable[[], float] = time.monotonic
    notes: list[str] = field(default_factory=list)
    doubts: list[str] = field(default_factory=list)
    looked_at: int = 0
    began: float = 0.0
    by_number: dict[int, Mount] = field(default_factory=dict)
    seen: list[MountSpace] = field(default_factory=list)

    def namespaces(self) -> dict[int, bytes]:
        """The mount namespaces, the asked process's first, and how paths of each begin."""
        threads = self.family.threads
        order = sorted(threads, key=lambda tid: (threads[tid].listed.pid != self.family.root, tid))
        found: dict[int, bytes] = {}
        for tid in order:
            found.setdefault(threads[tid].mounts, b"/proc/%d/root" % tid if found else b"")
        return found

    def tables(self, keys: list[int]) -> dict[int, list[Mount]]:
        """The mounts of these mount namespaces; they are kept by number too."""
        texts = {key: self.kernel.mount_table(key) for key in keys}
        self.seen = [mount_namespaces.of_table(key, self.kernel.count_of_mounts(key), text)
                     for key, text in texts.items()]
        tables = {key: mounts.table(text) for key, text in texts.items()}
        self.by_number = {mount.number: mount for table in tables.values() for mount in table}
        return tables

    def rows(self) -> program_rows.Rows:
        """The rows of all programs that were found, with what isn't known of them."""
        namespaces = self.namespaces()
        tables = self.tables(list(namespaces))
        self.check_skipped(tables)
        areas, self.began = mounts.plan(tables, self.skip).areas, self.clock()
        self.tell_mounts(tables)
        taken: set[str] = set()
        rows = program_rows.Rows(notes=self.notes, lost=self.doubts)
        writers = {key: program_rows.Writer(self.resolver(key), prefix, rows, {}, taken, self.flags)
                   for key, prefix in namespaces.items()}
        for number, area in enumerate(areas, 1):
            for program in self.area(area, namespaces[area.key], f"part {number} of {len(areas)}"):
                writers[area.key].add_found(program)
                self.tell_odd(area, program)
        self.tell_hidden(namespaces, rows)
        rows.files.sort(key=lambda file: (file.interpreter is not None, file.path))
        return rows

    def resolver(self, key: int) -> program_rows.Resolve:
        """What a path of that mount namespace leads to."""
        return lambda path: self.kernel.resolve(key, path)

    def flags(self, number: int) -> frozenset[bytes]:
        """The options of the mount of that number."""
        return self.by_number[number].options if number in self.by_number else frozenset()

    def area(self, area: Area, prefix: bytes, which: str) -> Iterator[Program]:
        """The programs of one part of a mount; what can't be looked at becomes a doubt, under that prefix. Now and then
        it is told how far the scan is."""
        count, inodes = 0, self.kernel.inodes(area.key, area.start)
        where = f"{quoted(prefix + area.start)} ({which}, {shown(area.mount.kind)}" \
                + (f" with {plural(inodes, 'inode')} in use)" if inodes else ")")
        for found in self.kernel.walk(area.key, area.start, area.mount.number, frozenset(self.skip)):
            if isinstance(found, int):
                count = found
                self.says(f"{plural(self.looked_at + count, 'file')} looked at in {self.clock() - self.began:.0f} s,"
                          f" now below {where}")
            elif isinstance(found, Trouble):
                self.doubts.append(f"{escaped(prefix + found.path)} can't be looked at: {found.why}")
            else:
                yield found
        self.looked_at += count

    def check_skipped(self, tables: dict[int, list[Mount]]) -> None:
        """Fails where what is to be skipped is no directory and no mount's point: it would be told as left out. A
        mount's point isn't opened, since a filesystem that doesn't answer may stand there."""
        points = {mount.point for table in tables.values() for mount in table}
        for place in self.skip:
            if place not in points and not any(self.kernel.is_directory(key, place) for key in tables):
                raise Failure(f"there is no directory {quoted(place)}, so it can't be left out",
                              "--skip takes a directory by its path from the root, without symbolic links")

    def tell_mounts(self, tables: dict[int, list[Mount]]) -> None:
        """What isn't looked through."""
        every = [mount for table in tables.values() for mount in table]
        without = {mount.point for mount in every if mount.options & {b"nosuid", b"noexec"}}
        kinds = {mount.point for mount in every if mount.kind in mounts.WITHOUT_PROGRAMS} - without
        if without:
            self.notes.append(f"left out: files on {plural(len(without), 'mount')} with nosuid or noexec, where set-id"
                              " bits and attributes have no effect")
        if kinds:
            self.notes.append(f"left out: files on {plural(len(kinds), 'mount')} of kinds that hold no programs, such"
                              " as proc")
        for place in self.skip:
            self.doubts.append(f"{escaped(place)} isn't looked at, as asked for")
        for key in tables:
            owner = self.kernel.owner_of_mounts(key)
            if owner != INITIAL_INODE:
                self.notes.append("not known: who mounted the filesystems of a mount namespace that a user namespace"
                                  " owns; the initial one is taken, which lets their set-id bits count for everybody")

    def tell_odd(self, area: Area, program: Program) -> None:
        """An owner that the mount doesn't show looks like the overflow id (mount_setattr(2))."""
        if b"idmapped" in area.mount.options and program_rows.OVERFLOW in (program.uid, program.gid):
            self.notes.append(f"{escaped(program.path)} lies on an idmapped mount; its owner or group may be none, and"
                              f" is taken to be {program_rows.OVERFLOW}")

    def tell_hidden(self, namespaces: dict[int, bytes], rows: program_rows.Rows) -> None:
        """Files that the asked process can't reach now by their path, though a row makes them executable for it."""
        key = next(iter(namespaces))
        asked = min(self.family.threads.values(),
                    key=lambda thread: (thread.listed.pid != self.family.root, thread.listed.tid))
        closed: dict[bytes, list[str]] = {}
        for file in rows.files:
            for folder, uid, gid, mode in self.kernel.directory_modes(key, file.path.encode()):
                if not searches(asked, uid, gid, mode):
                    closed.setdefault(folder, []).append(file.path)
                    break
        for folder, paths in closed.items():
            self.notes.append(f"behind {escaped(folder)}, which process {asked.listed.tid} may not search now (a `no`"
                              f" may rest on it): {few(paths)}")


def searches(thread: Thread, uid: int, gid: int, mode: int) -> bool:
    """Whether a thread may search a directory, by its ids and sets (path_resolution(7))."""
    own = thread.status.credential
    if own.eff & DAC_SEARCH and thread.user == INITIAL_INODE:
        return True
    if own.uid[3] == uid:
        return bool(mode & 0o100)
    if own.gid[3] == gid or gid in own.groups:
        return bool(mode & 0o010)
    return bool(mode & 0o001)
