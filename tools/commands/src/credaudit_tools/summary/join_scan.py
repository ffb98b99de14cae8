"""A world and a log with the programs of a scan beside their own.

What the family may run later is the scan's. A path that meant another file in the log gets a name of its own there: the
scan may have seen it in another mount namespace, on another mount, or before it was changed. Both files are declared,
so a `yes` holds for both.
"""
import re
from collections.abc import Callable, Iterable
from dataclasses import dataclass, field, replace

from ..command_line.command import Failure
from ..formats import strace_lines
from ..formats.worlds import INITIAL, File, Mount, World
from ..system.program_rows import name_for

STRACE = re.compile(rb'([0-9]+[ \t]+(?:execve\(|execveat\(AT_FDCWD,[ \t]*))("(?:[^"\\]|\\.)*")(?!\.\.\.)', re.S)
SCRIPT = re.compile(rb"([ \t]*[0-9]+[ \t]+execve[ \t]+)(\S+)(?=[ \t]+=)")


@dataclass(frozen=True)
class Joined:
    """A world with the files of a scan, the log that goes with it, and by its path the new name of each file of the
    log that the path means no more."""
    world: World
    log: bytes
    renamed: dict[str, str] = field(default_factory=dict)

    def notes(self) -> list[str]:
        """A note of each path that means two files."""
        return [f"{path} was another file in the log than in the scan: the log's stands there as {name}"
                for path, name in self.renamed.items()]


def executed(log: bytes, form: str) -> set[str]:
    """The paths that a log executes, as a world spells them; those that a world can't have are left out."""
    found = set[str]()

    def note(path: bytes) -> bytes | None:
        try:
            found.add(path.decode())
        except UnicodeDecodeError:
            pass
        return None

    with_paths(log, form, note)
    return found


def with_paths(log: bytes, form: str, new: Callable[[bytes], bytes | None]) -> bytes:
    """A log of either form in which each execve has the path that `new` gives for its own, where it gives one."""
    pattern = STRACE if form == "strace" else SCRIPT

    def one(line: bytes) -> bytes:
        made = pattern.match(line)
        told = None if made is None else (
            strace_lines.text_of(made.group(2)) if form == "strace" else (made.group(2), True))
        path = None if told is None else new(told[0])
        if made is None or path is None:
            return line
        return made.group(1) + (strace_lines.quoted(path) if form == "strace" else path) + line[made.end():]

    return b"\n".join(one(line) if b"execve" in line else line for line in log.split(b"\n"))


def check_mounts(world: World, scan: World) -> None:
    """Fails where a mount of the scan has the name of another one, or stands in a namespace."""
    own = {mount.name: mount for mount in world.mounts}
    for mount in scan.mounts:
        if mount.space != INITIAL or own.get(mount.name, mount) != mount:
            raise Failure(f"the mount {mount.name} of the scan can't be declared beside the world's own")


def changed(world: World, scan: World, undeclared: Iterable[str]) -> set[str]:
    """The paths of the scan that mean another file in the world: a row that differs, an interpreter that does, or,
    of the `undeclared` ones, no row."""
    own, scanned = ({row.path: row for row in each.files} for each in (world, scan))
    found = {path for path, row in scanned.items() if path in own and own[path] != row}
    found |= scanned.keys() & set(undeclared) - own.keys()
    # A row of either side names its interpreter by a path, which has to mean one file on both.
    found |= {path for path, row in scanned.items() if path in own and row.interpreter in found}
    return found


def renamed(row: File, names: dict[str, str]) -> File:
    """A row with other names of the file and of its interpreter."""
    inner = None if row.interpreter is None else names.get(row.interpreter, row.interpreter)
    return replace(row, path=names.get(row.path, row.path), interpreter=inner)


def joined(world: World, log: bytes, scan: World, recorded: bool) -> Joined:
    """The world with the scan's files too. Of a recording a path without a row was a plain file; what stands without
    one in a world of one's own is the scan's. Fails where the mounts can't stand side by side."""
    check_mounts(world, scan)
    paths = executed(log, world.log)
    taken = {row.path for row in (*world.files, *scan.files)} | paths
    names = dict[str, str]()
    for path in sorted(changed(world, scan, paths if recorded else ())):
        names[path] = name_for(path.encode(), taken)
        taken.add(names[path])
    spelled = {path.encode(): name.encode() for path, name in names.items()}
    log = with_paths(log, world.log, spelled.get) if names else log
    own = [renamed(row, names) for row in world.files]
    kept = {row.path for row in own}
    mounts: list[Mount] = [*world.mounts, *(mount for mount in scan.mounts if mount not in world.mounts)]
    files = [*own, *(row for row in scan.files if row.path not in kept)]
    return Joined(replace(world, mounts=mounts, files=files), log, names)
