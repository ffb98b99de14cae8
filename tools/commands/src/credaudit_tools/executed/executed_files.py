"""The files that a log executes, as rows of a world: those of which a rule reads more than the path.

A file without set-id bits and attribute, which everybody may execute, needs no row (docs/FORMATS.md, "World").
"""
import os
import stat
from dataclasses import dataclass, field

from ..command_line.printable import escaped
from ..formats import worlds
from ..system.kernel_questions import Program, Trouble
from ..system.program_rows import EXECUTE, attribute_fault, counts, interpreter_of, name_for
from .looked_up import Found, look_up
from .new_program import NewProgram

NO_SET_ID, NO_EXECUTE = os.ST_NOSUID, os.ST_NOEXEC
ELF = b"\x7fELF"


@dataclass
class Executed:
    """The rows so far. `doubts` are reasons why an execve may have done something else than the rows tell."""
    files: dict[str, worlds.File] = field(default_factory=dict)
    mounts: dict[str, worlds.Mount] = field(default_factory=dict)
    names: dict[tuple[bytes, bytes], str] = field(default_factory=dict)
    seen: dict[str, worlds.File | None] = field(default_factory=dict)      # None for a file that needs no row
    doubts: list[str] = field(default_factory=list)
    variants: dict[bytes, list[str]] = field(default_factory=dict)         # the names of the files of one path

    def name_of(self, top: bytes, path: bytes) -> str:
        """The name by which the world and the log have a file: the path, escaped where a world can't have it."""
        key = top, path
        if key not in self.names:
            self.names[key] = name_for(path, set() if self.is_same_file(path) else set(self.names.values()))
        return self.names[key]

    def is_same_file(self, path: bytes) -> bool:
        """Whether a path came before, in whichever mount namespace: then it keeps its name, and the rows are
        compared."""
        return any(other == path for _, other in self.names)

    def add(self, top: bytes, path: bytes) -> str:
        """An executed file: its name. What a rule reads of it becomes a row."""
        name = self.name_of(top, path)
        found = look_up(top, path)
        if isinstance(found, Trouble):
            self.doubts.append(f"{escaped(path)} was executed, and what it was can't be looked up: {found.why}")
            return name
        inner = interpreter_of(found.program, lambda other: self.interpreter(top, other))
        if isinstance(inner, str):
            self.doubts.append(f"the script {escaped(path)} was executed: {inner}")
        elif isinstance(inner, Program):
            self.interpreted(top, name, found, inner)
        else:
            self.binary(path, name, found)
        return name

    def add_running(self, found: Found) -> str | None:
        """A file that a process executes and that no path leads to any more: its name. None for a script."""
        if interpreter_of(found.program, lambda other: Trouble(other, "")) is not None:
            return None
        name = self.name_of(b"", found.program.path)
        self.binary(found.program.path, name, found)
        return name

    def refused(self, top: bytes, path: bytes) -> bool:
        """Whether a file has an attribute, or runs by one that has: an execve may fail for it. Then it has a row."""
        found = self.runs(top, path)
        if found is None or found.caps is None or attribute_fault(found.caps) is not None:
            return False
        self.add(top, path)
        return True

    def runs(self, top: bytes, path: bytes) -> Program | None:
        """The program that an execve of a path runs in the end, None where that can't be told."""
        found = self.interpreter(top, path)
        if isinstance(found, Trouble):
            return None
        inner = interpreter_of(found, lambda other: self.interpreter(top, other))
        return None if isinstance(inner, str) else inner or found

    def add_new(self, new: NewProgram) -> str:
        """A file that was looked at as it was executed: its name. What a rule reads of it becomes a row."""
        inner = self.new_name(new.path, new.found)
        if new.script is None or new.script_found is None:
            self.binary(new.path, inner, new.found)
            return inner
        name = self.new_name(new.script, new.script_found, inner)
        self.script(name, new.script_found, inner, new.found)
        return name

    def new_name(self, path: bytes, found: Found, interpreter: str | None = None) -> str:
        """A name for a file that was looked at as it was executed: what stood at its path before, or in another mount
        namespace, and gives other credentials, has another one."""
        names = self.variants.setdefault(path, [self.name_of(b"", path)])
        for name in names:
            told = self.told(name, found, interpreter)
            if self.seen.get(name, told) == told:
                return name
        names.append(name_for(path, {*self.seen, *self.names.values()}))
        return names[-1]

    def interpreter(self, top: bytes, path: bytes) -> Program | Trouble:
        """A file as the same process sees it, such as the interpreter of a script."""
        found = look_up(top, path)
        return found if isinstance(found, Trouble) else found.program

    def binary(self, path: bytes, name: str, found: Found) -> None:
        """A file that the kernel executes itself."""
        if not found.program.start.startswith(ELF):
            self.doubts.append(f"{escaped(path)} was executed and is neither ELF nor a script: what runs it isn't"
                               " known")
        self.put(name, found, None)

    def interpreted(self, top: bytes, name: str, found: Found, inner: Program) -> None:
        """A script and its interpreter, which is looked up."""
        below = look_up(top, inner.path)
        if isinstance(below, Trouble):
            self.doubts.append(f"{escaped(inner.path)} interprets a script, and can't be looked up: {below.why}")
        else:
            self.script(name, found, self.name_of(top, inner.path), below)

    def script(self, name: str, found: Found, interpreter: str, below: Found) -> None:
        """A script: with a row of its own where a rule reads its interpreter or its mode."""
        if is_plain(below) and found.program.mode & EXECUTE == EXECUTE and not found.flags & NO_EXECUTE:
            return
        self.put(interpreter, below, None, always=True)
        self.put(name, found, interpreter, always=True)

    def put(self, name: str, found: Found, interpreter: str | None, always: bool = False) -> None:
        """A row, where a rule reads it. A name that had another row before can't have both."""
        caps = found.program.caps
        fault = attribute_fault(caps) if caps is not None else None
        if fault is not None:
            self.doubts.append(f"{name} was executed: {fault}")
        row, told = self.row(name, found, interpreter), self.told(name, found, interpreter)
        if self.seen.setdefault(name, told) != told:
            self.doubts.append(f"{name} was executed as two files: they differ in owner, mode or attribute")
        elif always or told is not None:
            self.files[name] = row

    def row(self, name: str, found: Found, interpreter: str | None) -> worlds.File:
        """The row of a file. One with an attribute that a world can't have stands without it."""
        own = found.program
        caps = None if own.caps is None or attribute_fault(own.caps) is not None else own.caps.hex()
        return worlds.File(path=name, uid=own.uid, gid=own.gid, mode=stat.S_IMODE(own.mode),
                           mount=self.mount(found.flags), caps=caps, interpreter=interpreter)

    def told(self, name: str, found: Found, interpreter: str | None) -> worlds.File | None:
        """What a rule reads of a file, None where it reads nothing."""
        return None if is_plain(found) else self.row(name, found, interpreter)

    def mount(self, flags: int) -> str:
        """The mount of a file: one for each combination of its flags."""
        words = [word for word, flag in (("nosuid", NO_SET_ID), ("noexec", NO_EXECUTE)) if flags & flag]
        if not words:
            return worlds.ROOT_MOUNT
        name = "-".join(words)
        self.mounts.setdefault(name, worlds.Mount(name, nosuid="nosuid" in words, noexec="noexec" in words))
        return name

    def also(self, spelled: bytes, name: str) -> None:
        """A second row for a file under the spelling that the program used, where it is absolute and still free."""
        text = name_for(spelled, set())
        if spelled.startswith(b"/") and text.encode() == spelled and name in self.files and text not in self.files:
            row = self.files[name]
            self.files[text] = worlds.File(text, row.uid, row.gid, row.mode, row.mount, row.caps, row.interpreter)


def is_plain(found: Found) -> bool:
    """Whether a rule reads nothing of a file but its path."""
    return not counts(found.program) and found.program.mode & EXECUTE == EXECUTE and not found.flags & NO_EXECUTE
