"""Calls of a recording that change which programs have set-id bits or capabilities, or where such programs are found:
modes, owners, attributes and names of files, and mounts (inode(7), capabilities(7), mount(2)).

The rules read none of them, so the log doesn't have them. Each that matters is a doubt of what a scan saw: it tells
after which line of the log it was, and `changed_at` says when the last of them was read, so that a scan made later
takes the doubts away.
"""
import os
import re
import stat
import time
from collections.abc import Callable, Sequence

from ..command_line.printable import escaped
from ..evidence.premises import FILES, MOUNTS
from ..formats import strace_lines
from ..formats.strace_lines import Call
from ..system.mounts import WITHOUT_PROGRAMS
from ..system.program_rows import SET_IDS
from .executions import Executing
from .followed_processes import Followed, Task
from .kept_log import Taken
from .map_writes import System

CAPABILITY, ACCESS_LIST = b"security.capability", b"system.posix_acl_access"
MODES = (b"chmod", b"fchmod", b"fchmodat", b"fchmodat2")
OWNERS = (b"chown", b"lchown", b"fchown", b"fchownat")
ATTRIBUTES = tuple(front + act + b"xattr" for act in (b"set", b"remove") for front in (b"", b"l", b"f"))
ATTRIBUTES_AT = (b"setxattrat", b"removexattrat")
NAMES = (b"link", b"linkat", b"rename", b"renameat", b"renameat2")
NODES = (b"mknod", b"mknodat")
MOUNTING = (b"mount", b"umount", b"umount2", b"move_mount", b"mount_setattr", b"pivot_root")
# How strace of before, which has no names for them, writes the last calls of these kinds (x86-64).
UNNAMED = {b"syscall_0x1c4": b"fchmodat2", b"syscall_0x1cf": b"setxattrat", b"syscall_0x1d2": b"removexattrat"}
PROPAGATION = frozenset((b"MS_PRIVATE", b"MS_SHARED", b"MS_SLAVE", b"MS_UNBINDABLE", b"MS_REC", b"MS_SILENT",
                         b"MS_MGC_VAL"))
UNSEEN, TRIES = b"\0", 3         # what no place is; looks, since who is looked at may end meanwhile
SET_ID_NAMES = re.compile(rb"S_ISUID|S_ISGID")
NUMBER_IN_MODE = re.compile(rb"(?:^|\|)(0x[0-9a-f]+|0[0-7]*)(?:$|\|)")


def sets_ids(mode: bytes) -> bool:
    """Whether a mode as strace writes it has a set-id bit; one that can't be read is taken to have."""
    if SET_ID_NAMES.search(mode):
        return True
    found = NUMBER_IN_MODE.search(mode)
    if found is None:
        return True
    text = found.group(1)
    return bool(int(text, 16 if text.startswith(b"0x") else 8) & SET_IDS)


def shows_programs(made: Call) -> bool:
    """Whether a change of mounts can show programs that a scan didn't see, or let set-id bits count (mount(2))."""
    if made.name == b"mount_setattr":
        told = next((each for each in made.arguments if each.startswith(b"{")), b"{}")
        return strace_lines.member(b"attr_clr", told) != b"0" or b"MOUNT_ATTR_IDMAP" in told
    if made.name != b"mount" or len(made.arguments) < 4:
        return True
    flags, kind = set(strace_lines.words(made.arguments[3])), strace_lines.text_of(made.arguments[2])
    if flags <= PROPAGATION:
        return False
    if b"MS_MOVE" in flags or (b"MS_BIND" in flags and b"MS_REMOUNT" not in flags):
        return True         # the other flags are passed over
    if flags & {b"MS_NOSUID", b"MS_NOEXEC"}:
        return False
    return b"MS_REMOUNT" in flags or kind is None or kind[0] not in WITHOUT_PROGRAMS


def moves_mounts(made: Call) -> bool:
    """Whether a change of mounts can show a file at another place, or no longer (mount(2))."""
    if made.name == b"mount_setattr":
        return False
    flags = set(strace_lines.words(made.arguments[3])) if made.name == b"mount" and len(made.arguments) > 3 else {b"?"}
    return not flags <= PROPAGATION and b"MS_REMOUNT" not in flags


class Changing:
    """The calls, and when the last that matters was read."""

    def __init__(self, followed: Followed, taken: Taken, system: System, executing: Executing,
                 clock: Callable[[], float] = time.time) -> None:
        self.followed, self.taken, self.system, self.executing = followed, taken, system, executing
        self.clock = clock
        self.changed_at: float | None = None

    def handlers(self) -> list[tuple[tuple[bytes, ...], Callable[[Task, Call], None]]]:
        """Who takes which calls."""
        return [(MODES, self.mode), (OWNERS, self.owner), (ATTRIBUTES, self.attribute),
                (ATTRIBUTES_AT, self.attribute_at), (NAMES, self.name), (NODES, self.node), (MOUNTING, self.mount),
                (tuple(UNNAMED), self.unnamed)]

    # ---- what was seen

    def doubt(self, premise: str, task: Task, what: str) -> None:
        """A change that matters."""
        number = len(self.taken.lines)
        self.taken.doubt(premise, f"after line {number} of the log process {task.pid} {what}")
        self.taken.change(f"{task.pid} {what} after line {number}: no rule reads it, so the log doesn't have it")
        self.changed_at = self.clock()

    def left_out(self, what: str = "files without set-id bits and capabilities") -> None:
        """A call that changes nothing that a scan sees."""
        self.taken.left_out[f"changes of {what}"] += 1

    def named(self, task: Task, arguments: Sequence[bytes]) -> tuple[bytes, bytes | None]:
        """The file of a path, of a descriptor, or of a folder's descriptor and a path: as it is spelled, and where it
        can be looked at, None where that isn't known."""
        told = strace_lines.text_of(arguments[0]) if arguments else None
        if told is not None:
            return told[0], self.place(task, told[0], None) if told[1] else None
        folder = strace_lines.descriptor(arguments[0]) if arguments else None
        name = strace_lines.text_of(arguments[1]) if len(arguments) > 1 else None
        if folder is None or folder[1] is None:
            return b"something", None
        if name is None or name[0] == b"":
            return folder[1], self.place_of_descriptor(task, folder[1])
        return name[0], self.place(task, name[0], folder[1]) if name[1] else None

    def place_of_descriptor(self, task: Task, path: bytes) -> bytes | None:
        """Where the file of a descriptor can be looked at. Its path has no links, so that of one's own mount namespace
        is taken as it is."""
        if task.place.view == 0 and task.place.root == b"/" and path.startswith(b"/"):
            place = self.system.top_of(task, self.followed) + path
            return place if os.path.lexists(place) else None
        return self.place(task, path, None)

    def place(self, task: Task, path: bytes, folder: bytes | None) -> bytes | None:
        """Where a file can be looked at, None where that isn't known or nothing stands there any more; UNSEEN where
        none of its files can be: its root isn't known, or its mount namespace is gone."""
        for _ in range(TRIES):
            view = self.executing.view(task)
            if view is None:
                break
            found = self.executing.real_in(view, path, folder)
            if found is not None:
                return view.top + found
            if os.path.exists(view.top + b"/."):
                return None
        return UNSEEN

    def counts(self, place: bytes | None) -> bool:
        """Whether there is a file that has set-id bits or capabilities, or may be one."""
        mode, powers = kind_of(place)
        return place == UNSEEN or (mode is not None and stat.S_ISREG(mode) and (bool(mode & SET_IDS) or powers))

    # ---- files

    def mode(self, task: Task, made: Call) -> None:
        """chmod and its like: set-id bits of what is no folder, and the mode of a file that has capabilities."""
        at = 2 if made.name in (b"fchmodat", b"fchmodat2") else 1
        mode = made.arguments[at] if len(made.arguments) > at else b"?"
        if made.done is not None:
            path, place = self.named(task, made.arguments[:at])
            now, powers = kind_of(place)
            if powers or (sets_ids(mode) and not (now is not None and stat.S_ISDIR(now))):
                self.doubt(FILES, task, f"gave {escaped(path)} the mode {escaped(mode)}")
                return
        self.left_out()

    def owner(self, task: Task, made: Call) -> None:
        """chown and its like. The kernel takes set-id bits and capabilities away then: what has them kept them, or got
        them anew."""
        if made.done is not None:
            path, place = self.named(task, made.arguments[:2 if made.name == b"fchownat" else 1])
            if self.counts(place):
                self.doubt(FILES, task, f"gave {escaped(path)} an owner and a group")
                return
        self.left_out()

    def attribute(self, task: Task, made: Call) -> None:
        """setxattr, removexattr and their like: capabilities, and the access list of a program."""
        told = strace_lines.text_of(made.arguments[1]) if len(made.arguments) > 1 else None
        name = told[0] if told is not None else CAPABILITY
        if made.done is not None and name in (CAPABILITY, ACCESS_LIST):
            path, place = self.named(task, made.arguments[:1])
            if name == CAPABILITY or self.counts(place):
                self.doubt(FILES, task, f"changed {escaped(name)} of {escaped(path)}")
                return
        self.left_out()

    def attribute_at(self, task: Task, made: Call) -> None:
        """setxattrat and removexattrat."""
        told = strace_lines.text_of(made.arguments[3]) if len(made.arguments) > 3 else None
        if made.done is not None and (told is None or told[0] in (CAPABILITY, ACCESS_LIST)):
            self.doubt(FILES, task, f"changed an attribute of a file by {made.name.decode()}")
            return
        self.left_out()

    def name(self, task: Task, made: Call) -> None:
        """link and rename: of a program, under either name, since rename may exchange them."""
        size = 1 if made.name in (b"link", b"rename") else 2
        for at in (0, size) if made.done is not None else ():
            path, place = self.named(task, made.arguments[at:at + size])
            if self.counts(place):
                self.doubt(FILES, task, f"gave a program the name {escaped(path)}")
                return
        self.left_out()

    def node(self, task: Task, made: Call) -> None:
        """mknod: a file with set-id bits."""
        at = 1 if made.name == b"mknod" else 2
        mode = made.arguments[at] if len(made.arguments) > at else b"?"
        if made.done is not None and sets_ids(mode):
            path, _ = self.named(task, made.arguments[:at])
            self.doubt(FILES, task, f"made {escaped(path)} with the mode {escaped(mode)}")
            return
        self.left_out()

    def created(self, task: Task, made: Call) -> None:
        """open and its like, where they may make a file with set-id bits."""
        flags = b"|".join(strace_lines.member(b"flags", each) or each for each in made.arguments)
        makes = made.name == b"creat" or b"O_CREAT" in flags or b"O_TMPFILE" in flags
        if made.done is None or not makes:
            return
        told = next((strace_lines.member(b"mode", each) for each in made.arguments if each.startswith(b"{")), None)
        mode = told or (b"0" if made.name == b"openat2" else made.arguments[-1])
        found = strace_lines.descriptor(made.result)
        path = found[1] if found is not None and found[1] is not None else b"something"
        place = self.place(task, path, None)
        if sets_ids(mode) and (place is None or self.counts(place)):
            self.doubt(FILES, task, f"made {escaped(path)} with the mode {escaped(mode)}")

    def unnamed(self, task: Task, made: Call) -> None:
        """A call that strace writes by its number, with its arguments as numbers."""
        named = Call(UNNAMED[made.name], made.arguments, made.result)
        (self.mode if named.name in MODES else self.attribute_at)(task, named)

    # ---- mounts

    def mount(self, task: Task, made: Call) -> None:
        """mount and its like, in a mount namespace that stood at the start. Of others the end tells: who stands in one
        then, and whether the mounts of the scan are as they were."""
        self.followed.remounted |= made.done is not None and moves_mounts(made)
        if made.done is None or task.place.view > self.followed.first_view or not shows_programs(made):
            self.left_out("mounts")
            return
        told = [escaped(each[0]) for each in map(strace_lines.text_of, made.arguments) if each is not None and each[0]]
        self.doubt(MOUNTS, task, f"changed the mounts by {made.name.decode()} ({', '.join(told[:2])})")


def kind_of(place: bytes | None) -> tuple[int | None, bool]:
    """The mode of what stands at a place, None where it can't be looked at, and whether it has capabilities."""
    try:
        if place is None or place == UNSEEN:
            return None, place == UNSEEN
        mode = os.stat(place).st_mode
        return mode, stat.S_ISREG(mode) and CAPABILITY in [os.fsencode(name) for name in os.listxattr(place)]
    except OSError:
        return None, False
