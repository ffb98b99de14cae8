"""Maps and user namespaces in a recording: which files are opened and written, and which namespaces are joined, as
plain calls (user_namespaces(7), setns(2)).

A write of a map is told as an open under a number of its own, a write and a close, whatever the program did; so is a
namespace that is joined. What isn't certain ends the recording.
"""
import re
from collections.abc import Sequence
from typing import Protocol

from ..command_line.printable import shown
from ..evidence.premises import ANSWERS, MAPS, RINGS
from ..executed.new_program import NewProgram
from ..formats import plain_log, strace_lines
from ..formats.strace_lines import Call
from . import map_texts, mount_views
from .failures import is_unspoken_write
from .followed_processes import UNKNOWN, Followed, Place, Task
from .kept_log import UNSPOKEN, Stopped, Taken
from .map_files import MapFile, Unclear, Unseen, may_be

TRANSFERS = {b"sendfile": 0, b"sendfile64": 0, b"splice": 2, b"copy_file_range": 2}       # which argument is written to
USER_SPACE = re.compile(rb"user:\[([0-9]+)\]")
PIDFD = re.compile(rb"pid:([0-9]+)")
SPACE_PATH = re.compile(rb"/proc/([1-9][0-9]*|self|thread-self)(?:/task/([1-9][0-9]*))?/ns/user")
UNREACHABLE = b"(unreachable)"
WRITING = (b"O_WRONLY", b"O_RDWR")
# How what is written begins where it may be a map or a setgroups word, in strace's spelling: its first line, as the
# kernel takes it (map_texts.py). It takes no line of length 0 (user_namespaces(7)).
BLANK = rb"(?: |\\[trvf]|\\240)"
LENGTH = rb"(?!0+(?![0-9]))[0-9]+"
LIKE_MAP = (rb'(?:\[\{iov_base=)?"(?:' + BLANK + rb"*[0-9]+" + BLANK + rb"+[0-9]+" + BLANK + rb"+" + LENGTH + BLANK
            + rb'*(?:\\n|\\0|")|(?:allow|deny)(?:[ \\][^"]{0,12})?")')
FIRST_DESCRIPTOR = 1000000
PAGE = 4096


class System(Protocol):
    """What a recording asks of the system that it records."""

    def top_of(self, task: Task, followed: Followed) -> bytes:
        """Where the files of a process's mount namespace can be looked up: empty for one's own."""

    def map_file(self, task: Task, path: bytes, followed: Followed) -> MapFile | None:
        """The map file of a descriptor's path, None for another file. Unclear where that can't be said."""

    def bound_map(self, task: Task, path: bytes, followed: Followed) -> MapFile | None:
        """The map file that is mounted at a path of another name, None where none is. Unclear as above, Unseen where
        the mounts can't be read."""

    def exe_of(self, task: Task) -> str:
        """The link to what a process executes."""

    def user_space(self, pid: int) -> int | None:
        """The number of the user namespace in which a process stands now, None where that isn't shown."""

    def last_capability(self) -> int | None:
        """The number of the kernel's last capability, None where that isn't known."""

    def mother_of(self, pid: int, among: Sequence[int]) -> int | None:
        """The thread among these that gave birth to a process, None where none did or that isn't shown any more."""

    def new_program(self, pid: int) -> NewProgram | None:
        """The program of a process that stands still right after its execve, None where it is gone."""

    def hold(self, pid: int) -> None:
        """Holds the mount namespace of a process that stands still."""

    def holds(self, task: Task) -> None:
        """The mount namespace that was held at the last stop of a process is the one in which it stands by the log."""

    def let_go(self, pid: int, followed: Followed) -> None:
        """A process has ended by the log: namespaces in which nobody stands aren't held any more."""


class Maps:
    """The calls on descriptors and on user namespaces."""

    def __init__(self, followed: Followed, taken: Taken, system: System) -> None:
        self.followed, self.taken, self.system = followed, taken, system
        self.next_descriptor = FIRST_DESCRIPTOR
        self.written: set[tuple[int, bytes]] = set()        # of namespaces' standings the files that were written

    # ---- namespaces that are joined

    def setns(self, task: Task, made: Call) -> None:
        """setns(2), by a namespace's file or a process's descriptor."""
        told = strace_lines.descriptor(made.arguments[0]) if made.arguments else None
        flags = strace_lines.words(made.arguments[1]) if len(made.arguments) > 1 else []
        what = told[1] if told else None
        if what is None:
            if not self.taken.fails_unread(made):
                raise Stopped(f"{task.pid}: it joined a namespace that isn't told")
            return
        if what.startswith(b"mnt:[") or b"CLONE_NEWNS" in flags:
            if made.done is not None:
                task.place = Place(b"/", b"/", self.followed.new_view())
        standing = self.joined(task, what, flags)
        if standing is None:
            self.taken.left_out["setns of other namespaces"] += 1
        elif standing < 0:
            if not self.taken.fails_unread(made):
                raise Stopped(f"{task.pid}: it joined a user namespace that isn't known")
        else:
            self.join(task, made, standing)

    def joined(self, task: Task, what: bytes, flags: list[bytes]) -> int | None:
        """The standing that a setns is for: None where it is for none, -1 where it isn't known."""
        space, pid = USER_SPACE.fullmatch(what), PIDFD.fullmatch(what)
        if space:
            number = int(space.group(1))
            return self.followed.spaces.get(number, self.standing_of_space(task, number))
        if pid is None or b"CLONE_NEWUSER" not in flags:
            return None
        other = self.followed.tasks.get(int(pid.group(1)))
        return -1 if other is None else other.standing

    def standing_of_space(self, task: Task, number: int) -> int:
        """The standing of a user namespace that nobody opened by a path (ioctl_ns(2), NS_GET_USERNS), by those who
        stand in it now for the kernel: they all have one by the log, and nobody else has it. UNKNOWN else."""
        numbers = {pid: self.system.user_space(pid) for pid in self.followed.tasks if pid != task.pid}
        within = {self.followed.tasks[pid].standing for pid, found in numbers.items() if found == number}
        without = {self.followed.tasks[pid].standing for pid, found in numbers.items() if found not in (None, number)}
        return within.pop() if len(within) == 1 and not within & without else UNKNOWN

    def join(self, task: Task, made: Call, standing: int) -> None:
        """A user namespace that is joined."""
        owner = self.followed.one_in(standing, task.pid)
        if owner is None:
            raise Stopped(f"{task.pid}: it joined a user namespace in which no process stands")
        number = self.opened(task.pid, owner, b"ns/user", b"O_RDONLY")
        self.taken.put(task.pid, plain_log.call(b"setns", [number, b"CLONE_NEWUSER"], made.result))
        self.taken.put(task.pid, plain_log.call(b"close", [number], b"0"))
        self.taken.change(f"{task.pid} joined a user namespace: told as an open of /proc/{owner}/ns/user, setns and"
                          " close")
        if made.done is not None:
            self.followed.stands(task, standing)

    def opened(self, pid: int, owner: int, name: bytes, flags: bytes) -> bytes:
        """An open of a file of a process under a number of its own."""
        number = b"%d" % self.next_descriptor
        self.next_descriptor += 1
        path = strace_lines.quoted(b"/proc/%d/%s" % (owner, name))
        self.taken.put(pid, plain_log.call(b"open", [path, flags], number))
        return number

    # ---- files that are opened

    def map_of(self, task: Task, path: bytes) -> MapFile | None:
        """The map file that a path is of, whatever the spelling; None for another file."""
        try:
            return self.system.map_file(task, path, self.followed)
        except Unclear as unclear:
            raise unclear_map(task, path) from unclear

    def opened_map(self, task: Task, number: int, path: bytes) -> MapFile | None:
        """The map file of a descriptor that was opened for writing. Of one that isn't, its write needn't be asked: the
        file may be gone by then."""
        try:
            named = self.system.map_file(task, path, self.followed)
        except Unclear:
            return None         # its write is told, or a doubt
        if named is None and may_be(path):
            task.files.plain.add(number)
        return named

    def open(self, task: Task, made: Call) -> None:
        """open, openat, openat2 and creat."""
        self.learn(task, made)
        if made.done is None:
            self.taken.left_out["opens of other files"] += 1
            return
        told = strace_lines.descriptor(made.result)
        if told is None or told[1] is None:
            raise Stopped(f"{task.pid}: a file was opened, and strace doesn't tell which")
        named = self.opened_map(task, made.done, told[1]) if is_for_writing(made) else None
        if named is not None:
            self.followed.opened_map(task, made.done, named.pid)
            self.taken.left_out["opens of map files, which are told where they are written"] += 1
            return
        self.taken.left_out["opens of other files"] += 1
        space = USER_SPACE.fullmatch(told[1])
        if space:
            self.learn_space(task, made, int(space.group(1)))

    def learn_space(self, task: Task, made: Call, number: int) -> None:
        """Which user namespace has this number in the kernel, where the path tells whose it is."""
        texts = [told[0] for told in map(strace_lines.text_of, made.arguments) if told is not None]
        found = SPACE_PATH.fullmatch(texts[0]) if texts else None
        if found is None:
            return
        owner = task.pid if found.group(1).endswith(b"self") else int(found.group(2) or found.group(1))
        if owner in self.followed.tasks:
            self.followed.spaces[number] = self.followed.tasks[owner].standing

    def copy(self, task: Task, made: Call) -> None:
        """dup, dup2, dup3 and fcntl."""
        self.learn(task, made)
        source = strace_lines.descriptor(made.arguments[0]) if made.arguments else None
        if made.done is not None and source is not None and source[0].isdigit():
            task.files.copy_of(made.done, int(source[0]))
        self.taken.left_out["copies of descriptors"] += 1

    def learn(self, task: Task, made: Call) -> None:
        """What descriptors and the working directory are, as strace decorates them."""
        told = strace_lines.descriptor(made.result)
        if told is not None and told[1] is not None and made.done is not None:
            task.files.opened(made.done, told[1], mount_views.opened(task, made))
        for argument in made.arguments[:1]:
            at = strace_lines.descriptor(argument)
            if at is not None and at[0] == b"AT_FDCWD" and at[1] is not None:
                task.place.stands_in(at[1])

    # ---- files that are written

    def write(self, task: Task, made: Call) -> None:
        """write, writev and their like."""
        told = strace_lines.descriptor(made.arguments[0]) if made.arguments else None
        if told is None or told[1] is None:
            if made.done is not None:
                raise Stopped(f"{task.pid}: a file was written to, and strace doesn't tell which")
            self.taken.left_out["writes to other files"] += 1
            return
        try:
            named = self.written_map(task, made, told[0], told[1])
        except Unclear:
            self.doubt_write(task, made, told[1])
            return
        if named is None:
            self.taken.left_out["writes to other files"] += 1
            return
        text = self.text(made)
        if text is None:
            if not self.taken.fails_unread(made):
                raise Stopped(f"{task.pid}: the text that it wrote to {shown(told[1])} isn't whole")
            return
        number = int(told[0]) if told[0].isdigit() else UNKNOWN
        self.map_write(task, made, named, self.followed.standing_of_map(task, number, told[1], named.pid), text)

    def written_map(self, task: Task, made: Call, number: bytes, path: bytes) -> MapFile | None:
        """The map file to which a call wrote; None where that is another file. Unclear where it isn't certain."""
        plain = number.isdigit() and int(number) in task.files.plain and task.files.paths.get(int(number)) == path
        named = None if plain else self.system.map_file(task, path, self.followed)
        if named is not None or not self.is_like_map(made, path):
            return named
        named = self.system.bound_map(task, path, self.followed)
        if named is None and self.followed.mounts_vary():
            raise Unclear           # a mount of a map file may have stood there, and be gone
        return named

    def is_like_map(self, made: Call, path: bytes) -> bool:
        """Whether a map or a setgroups word may have been written to a file of another name. A pipe or a socket has
        no path."""
        return made.done is not None and made.done < PAGE and path.startswith((b"/", UNREACHABLE)) \
            and re.match(LIKE_MAP, b"".join(made.arguments[1:2])) is not None

    def doubt_write(self, task: Task, made: Call, path: bytes) -> None:
        """A write to what may be a map file, and whose isn't certain: one that failed changed nothing."""
        if not self.taken.fails_unread(made):
            self.taken.left_out["writes to what may be a map file"] += 1
            self.taken.doubt(MAPS, f"process {task.pid} wrote what looks like a map to {shown(path)}, and whether that"
                                   " is one, and whose, isn't known")

    def text(self, made: Call) -> bytes | None:
        """The text of a write; of a writev the parts that were taken. The kernel writes these one by one, so what
        failed is the first."""
        argument = made.arguments[1] if len(made.arguments) > 1 else b""
        if made.name not in (b"writev", b"pwritev", b"pwritev2"):
            told = strace_lines.text_of(argument)
            return told[0] if told is not None and told[1] else None
        parts = strace_lines.pieces(argument[1:-1]) if argument.startswith(b"[") and argument.endswith(b"]") else None
        texts = []
        for part in parts or ():
            told = strace_lines.text_of(strace_lines.member(b"iov_base", part) or b"")
            if strace_lines.member(b"iov_len", part) == b"0":
                told = b"", True            # such a piece may have no address, as the last one of musl's stdio
            if told is None or not told[1]:
                return None
            texts.append(told[0])
        if not texts:
            return None
        return texts[0] if made.done is None else b"".join(texts)[:made.done]

    def map_write(self, task: Task, made: Call, of: MapFile, standing: int | None, text: bytes) -> None:
        """A write of a map or of the setgroups word: told as an open, a write and a close."""
        owner, name = of.pid, of.name
        inside = None if standing is None else self.followed.one_in(standing, owner)
        if inside is None:
            if not self.taken.fails_unread(made):
                raise Stopped(f"{task.pid}: it wrote to a {name.decode()} of process {owner}, and of which user"
                              " namespace that is isn't known")
            return
        length, key = len(text), (standing or 0, name)
        if is_unspoken_write(made, length, key in self.written):
            self.taken.left_out[UNSPOKEN] += 1
            return
        if made.done is not None and made.done != length:
            self.taken.left_out["writes to map files whose answer isn't the kernel's"] += 1
            self.taken.doubt(ANSWERS, f"process {task.pid} wrote {length} bytes to a {name.decode()}, and the answer"
                                      f" was {made.done}: the kernel takes all of them or none")
            return
        text = self.read_of(task, made, of, text)
        number = self.opened(task.pid, inside, name, b"O_WRONLY")
        result = made.result
        if made.done is not None:
            self.written.add(key)
            result = b"%d" % len(text)
        written = [number, strace_lines.quoted(text), b"%d" % len(text)]
        self.taken.put(task.pid, plain_log.call(b"write", written, result))
        self.taken.put(task.pid, plain_log.call(b"close", [number], b"0"))
        self.taken.change(f"{task.pid} wrote a {name.decode()} of {owner} by {made.name.decode()}: told as an open of"
                          f" /proc/{inside}/{name.decode()}, a write and a close")

    def read_of(self, task: Task, made: Call, of: MapFile, text: bytes) -> bytes:
        """What the kernel read of a text; of one that it refused what stands before a zero byte."""
        read = text.partition(b"\0")[0]
        if made.done is not None:
            told = map_texts.plain(of.name, text)
            if told is None:
                raise Stopped(f"{task.pid}: it wrote to a {of.name.decode()} of process {of.pid} what can be none")
            read = told
        if read != text:
            self.taken.change(f"{task.pid} wrote a text to a {of.name.decode()} that isn't plain: told as the kernel"
                              " reads it")
        return read

    def transfer(self, task: Task, made: Call) -> None:
        """What the kernel copies into a file has no text in the log."""
        place = TRANSFERS[made.name]
        told = strace_lines.descriptor(made.arguments[place]) if len(made.arguments) > place else None
        if made.done is not None and (told is None or told[1] is None or self.is_map(task, told[1], made.done)):
            raise Stopped(f"{task.pid}: {made.name.decode()} wrote to a map file, and its text isn't told")
        self.taken.left_out["writes to other files"] += 1

    def is_map(self, task: Task, path: bytes, count: int) -> bool:
        """Whether a file to which so many bytes were written is a map file; one takes less than a page."""
        if self.map_of(task, path) is not None:
            return True
        try:
            return 0 < count < PAGE and path.startswith(b"/") \
                and self.system.bound_map(task, path, self.followed) is not None
        except Unseen:
            return False
        except Unclear as unclear:
            raise unclear_map(task, path) from unclear

    def io_uring(self, task: Task, made: Call) -> None:
        """io_uring_setup(2), io_uring_enter(2), io_uring_register(2)."""
        if made.done is not None:
            self.taken.doubt(RINGS, f"process {task.pid} uses io_uring: what it opens and writes by that isn't in the"
                                    " log")


def unclear_map(task: Task, path: bytes) -> Stopped:
    """Why a recording ends at a map file."""
    return Stopped(f"{task.pid}: it uses {shown(path)}, and whose map that is isn't certain")


def is_for_writing(made: Call) -> bool:
    """Whether an open is one for writing."""
    plain = [argument for argument in made.arguments if not argument.startswith(b'"')]
    told = [strace_lines.member(b"flags", argument) or argument for argument in plain]
    return made.name == b"creat" or any(word in WRITING for argument in told for word in strace_lines.words(argument))
