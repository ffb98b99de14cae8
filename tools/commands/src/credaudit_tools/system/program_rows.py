"""Programs with set-id bits or the attribute security.capability as rows of a world (execve(2), capabilities(7)).

The reader stands in the initial namespace, so owners, groups and the root ids of attributes are ids as that one has
them, also on idmapped mounts and on filesystems of other namespaces: the rows need no maps. Nothing is left out for its
name: a path that a world can't have stands escaped.
"""
import stat
from collections.abc import Callable
from dataclasses import dataclass, field

from ..command_line.printable import escaped
from ..formats import worlds
from .kernel_questions import Program, Trouble

MOST = 4096
PATH_MOST = 4095
SET_IDS = stat.S_ISUID | stat.S_ISGID
EXECUTE = 0o111
LEVELS = 5                          # scripts that interpret scripts (execve(2))
NO_ID = 0xffffffff
OVERFLOW = 65534
NOSUID = worlds.Mount("nosuid", nosuid=True)
Resolve = Callable[[bytes], Program | Trouble]
Flags = Callable[[int], frozenset[bytes]]       # of a mount by its number


@dataclass
class Rows:
    """Rows of files, interpreters before their scripts; `notes` are remarks, `lost` what a `yes` may have needed."""
    files: list[worlds.File] = field(default_factory=list)
    mounts: list[worlds.Mount] = field(default_factory=list)
    notes: list[str] = field(default_factory=list)
    lost: list[str] = field(default_factory=list)


# ---- names -----------------------------------------------------------------------------------------------------------


def can_stand(path: bytes) -> bool:
    """Whether a world can have a path as it is (docs/FORMATS.md, "World")."""
    try:
        path.decode("utf-8")
    except UnicodeDecodeError:
        return False
    return 1 <= len(path) <= PATH_MOST and path not in (b"-", b"=") and all(0x20 < byte != 0x7f for byte in path)


def name_for(path: bytes, taken: set[str]) -> str:
    """The path as a world has it: as it is, or escaped, and then told apart from others."""
    if can_stand(path) and path.decode() not in taken:
        return path.decode()
    text, number = escaped(path)[:PATH_MOST - 8], 2
    while text in taken:
        text, number = f"{escaped(path)[:PATH_MOST - 8]}#{number}", number + 1
    return text


# ---- attributes ------------------------------------------------------------------------------------------------------


def attribute_fault(caps: bytes) -> str | None:
    """Why a world can't have an attribute (linux/capability.h), None where it can."""
    version = caps[3] if len(caps) >= 4 else 0
    if (len(caps), version) not in ((20, 2), (24, 3)):
        return f"its attribute has version {version} and {len(caps)} bytes"
    if version == 3 and int.from_bytes(caps[20:24], "little") == NO_ID:
        return "its attribute's root id is none"
    return None


# ---- scripts ---------------------------------------------------------------------------------------------------------


def interpreter_path(start: bytes) -> bytes | None:
    """What the first line of a script names, None where the file is none (execve(2), "Interpreter scripts")."""
    if not start.startswith(b"#!"):
        return None
    words = start[2:].split(b"\n")[0].replace(b"\0", b" ").split()
    return words[0] if words else b""


def interpreter_of(program: Program, resolve: Resolve) -> Program | None | str:
    """The program that a script runs in the end; None where it is no script; a reason where there is none."""
    path = interpreter_path(program.start)
    if path is None:
        return None
    for _ in range(LEVELS):
        if not path.startswith(b"/"):
            return "its interpreter has no absolute path"
        found = resolve(path)
        if isinstance(found, Trouble):
            return f"its interpreter can't be read: {found.why}"
        deeper = interpreter_path(found.start)
        if deeper is None:
            return found
        path = deeper
    return "its interpreters are scripts in turn"


# ---- rows ------------------------------------------------------------------------------------------------------------


@dataclass
class Writer:
    """Rows as they come, each path once."""
    resolve: Resolve
    prefix: bytes = b""                 # before the paths of another mount namespace
    rows: Rows = field(default_factory=Rows)
    names: dict[bytes, str] = field(default_factory=dict)
    taken: set[str] = field(default_factory=set)
    flags: Flags = lambda number: frozenset()

    def add(self, program: Program, interpreter: str | None = None) -> str:
        """A row; its name. A program of a path that stands already has that one's."""
        path = self.prefix + program.path
        if path in self.names:
            return self.names[path]
        name = name_for(path, self.taken)
        if name.encode() != path:
            self.rows.notes.append(f"a path that a world can't have stands escaped: {name}")
        mode, caps = stat.S_IMODE(program.mode), program.caps
        if program.listed:
            mode |= EXECUTE
            self.rows.notes.append(f"{name} has an access list: everybody is taken to be allowed to execute it")
        fault = attribute_fault(caps) if caps is not None else None
        if fault is not None:
            self.rows.lost.append(f"{name}: {fault}; it is declared without it")
            caps = None
        self.names[path] = name
        self.taken.add(name)
        self.rows.files.append(worlds.File(path=name, uid=program.uid, gid=program.gid, mode=mode,
                                           interpreter=interpreter,
                                           mount=self.mount(program), caps=caps.hex() if caps is not None else None))
        return name

    def mount(self, program: Program) -> str:
        """The mount of a row. Only interpreters can lie on one with nosuid: other programs aren't looked for there."""
        if b"nosuid" not in self.flags(program.mount):
            return worlds.ROOT_MOUNT
        if NOSUID not in self.rows.mounts:
            self.rows.mounts.append(NOSUID)
        return NOSUID.name

    def add_found(self, program: Program) -> None:
        """A program that was found: a script stands with its interpreter, since its own bits have no effect."""
        inner = interpreter_of(program, self.resolve)
        if inner is None:
            self.add(program)
        elif isinstance(inner, Program) and b"noexec" in self.flags(inner.mount):
            self.rows.notes.append(f"left out: the script {escaped(self.prefix + program.path)}: its interpreter lies"
                                   " on a mount with noexec")
        elif isinstance(inner, Program):
            self.add(program, self.add(inner))
        else:
            self.rows.notes.append(f"left out: the script {escaped(self.prefix + program.path)}: {inner}")


def counts(program: Program) -> bool:
    """Whether a program has what a rule reads: set-id bits or an attribute."""
    return bool(program.mode & SET_IDS) or program.caps is not None


# ---- fewer rows ------------------------------------------------------------------------------------------------------


def merged(files: list[worlds.File]) -> list[worlds.File]:
    """Of programs that differ in their path alone the one with the shortest path; scripts go, since whoever may run one
    may run what a rule reads of its interpreter."""
    kept: dict[tuple[object, ...], worlds.File] = {}
    for file in files:
        if file.interpreter is not None:
            continue
        key = file.uid, file.gid, file.mode, file.caps, file.mount
        if key not in kept or (len(file.path), file.path) < (len(kept[key].path), kept[key].path):
            kept[key] = file
    return list(kept.values())
