"""strace's lines, while they are recorded, made into the plain lines of a log (docs/STRACE.md).

What a rule reads stays, without decorations and without what else it holds: of an execve its file alone, of a written
text that of maps and setgroups words alone. Other lines are left out and counted. A line that can't be read, and an act
that the log can't tell, ends the recording: nothing of that kind is passed over.
"""
import re
from collections.abc import Callable, Collection
from types import MappingProxyType

from ..command_line.printable import shown
from ..evidence import premises
from ..executed.executed_files import Executed
from ..filters.log_filters import installing, may_refuse, of_argument
from ..formats import plain_log, set_texts, strace_lines
from ..formats.kernel_names import securebits_value
from ..formats.strace_lines import Call
from . import births, failures, mount_views
from .executions import Executing
from .first_sight import FirstSight
from .followed_processes import UNKNOWN, Followed, Task
from .kept_log import UNSPOKEN, Stopped, Taken
from .map_writes import TRANSFERS, Maps, System
from .marks import Marks, mark_of, resumed, without_time
from .program_changes import Changing

ID_CALLS = tuple(b"set" + name for name in
                 (b"uid", b"reuid", b"resuid", b"fsuid", b"gid", b"regid", b"resgid", b"fsgid"))
ANSWERS = (b"getuid", b"geteuid", b"getgid", b"getegid", b"getresuid", b"getresgid", b"getgroups", b"capget")
WRITES = (b"write", b"writev", b"pwrite64", b"pwritev", b"pwritev2")
OPENS = (b"open", b"openat", b"openat2", b"creat")
COPIES = (b"dup", b"dup2", b"dup3", b"fcntl", b"fcntl64")
RINGS = (b"io_uring_setup", b"io_uring_enter", b"io_uring_register")
ANSWER_ZERO = (b"setuid", b"setreuid", b"setresuid", b"setgid", b"setregid", b"setresgid", b"setgroups", b"capset",
               b"prctl", b"unshare", b"setns", b"execve", b"execveat", b"chdir", b"fchdir", b"chroot", b"pivot_root")
PRCTLS = (b"PR_SET_KEEPCAPS", b"PR_SET_NO_NEW_PRIVS", b"PR_SET_SECUREBITS", b"PR_CAPBSET_DROP", b"PR_CAP_AMBIENT",
          b"PR_GET_KEEPCAPS", b"PR_GET_NO_NEW_PRIVS", b"PR_GET_SECUREBITS", b"PR_CAPBSET_READ")
SUPERSEDED = re.compile(rb"\+\+\+ superseded by execve in pid ([0-9]+)")
CHANGED = re.compile(rb"<pid changed to ([0-9]+) \.\.\.>$")


class Filtering:
    """Feeds on strace's lines. `followed` has the processes at the start, `marks` the calls that are kept though no
    rule reads them; `timed` says that strace tells when each line was written."""

    def __init__(self, followed: Followed, executed: Executed, system: System, marks: Marks = MappingProxyType({}),
                 timed: bool = False) -> None:
        self.followed, self.executed, self.taken, self.system = followed, executed, Taken(), system
        self.marks, self.timed = marks, timed
        self.maps = Maps(followed, self.taken, system)
        self.executing = Executing(followed, self.taken, system, executed)
        self.changing = Changing(followed, self.taken, system, self.executing)
        self.begun: dict[int, bytes | None] = {}          # None: a call that is left out
        self.first_sight = FirstSight(followed, self.taken, self.begun)
        self.taking: dict[int, int] = {}                  # by a leader's pid the thread that takes it
        self.held: dict[int, list[bytes]] = {}
        self.early: dict[int, int] = {}                   # by a parent that waits its child, whose birth is told
        self.view_lines: dict[int, int] = {}              # of a mount namespace that was made or joined the log's line
        self.handlers = self.table()

    def table(self) -> dict[bytes, Callable[[Task, Call], None]]:
        """Who takes which calls."""
        maps, executing = self.maps, self.executing
        kinds: list[tuple[tuple[bytes, ...], Callable[[Task, Call], None]]] = [
            (ID_CALLS, self.keep), (ANSWERS, self.keep), ((b"setgroups",), self.setgroups), ((b"capset",), self.capset),
            ((b"prctl",), self.prctl), ((b"seccomp",), self.seccomp), ((b"unshare",), self.unshare),
            ((b"fork", b"vfork", b"clone", b"clone3"), self.birth), ((b"setns",), maps.setns), (OPENS, self.open),
            (COPIES, maps.copy), (WRITES, maps.write), (tuple(TRANSFERS), maps.transfer),
            (RINGS, maps.io_uring), ((b"execve", b"execveat"), executing.execve),
            ((b"chdir", b"fchdir"), executing.chdir), ((b"chroot",), executing.chroot),
            ((b"open_tree", b"fsmount"), self.mount_descriptor), *self.changing.handlers(),
            ((b"pivot_root",), self.pivot_root), ((b"move_mount",), self.move_mount)]
        return {name: handler for names, handler in kinds for name in names}

    # ---- lines

    def feed(self, line: bytes) -> None:
        """One line of strace, without its line feed. Stopped where the recording can't go on."""
        given = line
        if self.timed:
            told = without_time(line)
            if told is None:
                raise Stopped("a line of strace can't be read: it has no time")
            self.taken.now, line = told
        if self.first_sight.leaves_out(line):
            return
        found = strace_lines.parted(line)
        if found is None:
            raise Stopped("a line of strace can't be read: it begins with no pid")
        pid, body = found
        if body.startswith(b"---"):
            return
        if pid not in self.followed.tasks and not self.takes_pid(body) and not self.is_born(pid):
            self.held.setdefault(pid, []).append(given)
            return
        self.body(pid, body)

    def body(self, pid: int, body: bytes) -> None:
        """The body of a line of a process that lives."""
        if body.startswith(b"---") or not body:
            return
        if body.startswith(b"+++"):
            self.mark(pid, body)
            return
        if b"<detached ...>" in body[-20:]:
            self.begun.pop(pid, None)
            self.taken.left_out["calls that were under way at the end"] += 1
            return
        whole = self.whole(pid, body)
        if whole is not None:
            self.call(pid, whole)

    def whole(self, pid: int, body: bytes) -> bytes | None:
        """The whole text of a call: of one in two lines at the second, else None."""
        changed = CHANGED.search(body)
        if changed:
            self.taking[int(changed.group(1))] = pid
        if body.endswith(strace_lines.UNFINISHED) or changed:
            self.begun[pid] = body[:changed.start()] if changed else body[:-len(strace_lines.UNFINISHED)]
            return None
        found = strace_lines.RESUMED.fullmatch(body)
        if found is None:
            return body
        if pid not in self.begun and pid in self.taking:
            self.superseded(pid, self.taking[pid])
        if pid not in self.begun:
            return self.without_begin(pid, found.group(1), found.group(2))
        front = self.begun.pop(pid)
        if front is None:
            return None
        if strace_lines.name_of(front) != found.group(1).removesuffix(b"32"):
            began = shown(strace_lines.name_of(front))
            raise Stopped(f"{pid}: a call begins as {began} and ends as {shown(found.group(1))}")
        return front.rstrip(strace_lines.BLANKS) + found.group(2)

    def is_born(self, pid: int) -> bool:
        """Whether the parent of a process that isn't known waits for it: then its birth is told now."""
        waiting = births.waiting(self.begun, self.early)
        parent = self.system.mother_of(pid, sorted(waiting)) if waiting else None
        if parent is None:
            return False
        made = waiting[parent]
        self.birth(self.followed.tasks[parent], Call(made.name, made.arguments, b"%d" % pid))
        self.early[parent] = pid
        return True

    def tell_births(self, living: Collection[int]) -> None:
        """Tells the births of those whose parents wait for them, also where they did nothing yet."""
        for pid in sorted(living):
            if pid not in self.followed.tasks:
                self.is_born(pid)

    def tell_end(self, pid: int) -> None:
        """The end of a main thread whose other threads live: strace tells it with theirs."""
        self.taken.change(f"the main thread of {pid} had ended before its other threads: its end is told at the log's"
                          " end")
        self.end(pid, b"+++ exited with 0 +++")

    def without_begin(self, pid: int, name: bytes, tail: bytes) -> bytes | None:
        """A call that was under way as the recording began."""
        if name.decode("ascii", "replace").removesuffix("32") in self.marks:
            return resumed(name, tail)
        if name in (*OPENS, *COPIES, *WRITES, *ANSWERS, b"chdir", b"fchdir"):
            self.taken.left_out["calls that were under way at the start"] += 1
            return None
        raise Stopped(f"{pid}: a call of {shown(name)} was under way as the recording began")

    def mark(self, pid: int, body: bytes) -> None:
        """A line `+++ .. +++`."""
        if body.startswith((b"+++ exited with ", b"+++ killed by ")):
            self.end(pid, body)
            return
        found = SUPERSEDED.match(body)
        if found is None:
            raise Stopped(f"{pid}: strace wrote {shown(body)}")
        self.superseded(pid, int(found.group(1)))

    def end(self, pid: int, body: bytes) -> None:
        """An exit."""
        self.taken.put(pid, body)
        self.followed.ends(pid)
        self.system.let_go(pid, self.followed)
        self.begun.pop(pid, None)
        self.early.pop(pid, None)

    def takes_pid(self, body: bytes) -> bool:
        """Whether a thread that is known takes the pid of this line by an execve, whose main thread had ended before
        the recording."""
        found = SUPERSEDED.match(body)
        return found is not None and int(found.group(1)) in self.followed.tasks

    def superseded(self, leader: int, thread: int) -> None:
        """A thread that executes a file takes the leader's pid (execve(2)): the leader ends, where it lived, and the
        thread goes on as a child of its own with that pid."""
        task = self.followed.tasks.get(thread)
        if task is None:
            raise Stopped(f"{leader}: a thread that isn't known, {thread}, took its place")
        if leader in self.followed.tasks:
            self.end(leader, b"+++ exited with 0 +++")
        self.taken.put(thread, b"fork() = %d" % leader)
        self.followed.born(task, leader, [])
        front = self.begun.pop(thread, None)
        self.taking.pop(leader, None)
        self.end(thread, b"+++ exited with 0 +++")
        if front is not None:
            self.begun[leader] = front
        self.taken.change(f"{thread} took the pid of {leader} by an execve: told as an exit of {leader} where it lived,"
                          f" a birth of {leader} by {thread}, and an exit of {thread}")

    def finish(self) -> None:
        """The end of strace's lines: what is held belongs to processes whose birth isn't told."""
        for front in self.begun.values():
            self.taken.left_out["calls that were under way at the end"] += front is not None
        for pid, held in self.held.items():
            kept = [line for line in held if not line.endswith(b"+++") and b"<detached" not in line]
            if kept:
                self.taken.doubt(premises.BIRTHS, f"{len(held)} lines are of process {pid}, whose birth isn't in the"
                                                  " log")

    # ---- calls

    def call(self, pid: int, text: bytes) -> None:
        """A whole call of a process that lives."""
        made = strace_lines.call_of(strace_lines.TRANSLATED.sub(rb"\2", text))
        if made is None:
            raise Stopped(f"{pid}: a line of {shown(strace_lines.name_of(text) or b'no call')} can't be read")
        if made.result.startswith(b"?"):
            self.taken.left_out["calls that never answered"] += 1
            return
        if made.name.endswith(b"32"):
            made = Call(made.name.removesuffix(b"32"), made.arguments, made.result)
        task = self.followed.tasks[pid]
        if is_trapped(made):
            self.taken.left_out["calls that a filter answered by a trap"] += 1
            return
        if pid not in self.early and self.is_unspoken(task, made):
            return
        handler = self.handlers.get(made.name)
        if handler is None:
            self.mark_call(task, made)
            return
        before = self.followed.last_view
        handler(task, made)
        for view in range(before + 1, self.followed.last_view + 1):
            self.view_lines[view] = len(self.taken.lines)

    def mark_call(self, task: Task, made: Call) -> None:
        """A call that no rule reads: it stays where it is a mark."""
        body = mark_of(made, self.marks)
        if body is None:
            self.taken.left_out["calls that no rule reads"] += 1
        else:
            self.taken.counted["marks are told by their descriptors and results alone"] += 1
            self.taken.put(task.pid, body)

    def is_unspoken(self, task: Task, made: Call) -> bool:
        """Leaves out a failed call of which no rule speaks: it changed nothing."""
        if failures.is_unspoken(task.pid, made):
            self.taken.left_out[UNSPOKEN] += 1
            return True
        if task.filters and failures.is_judged(made) and may_refuse(task.filters, made):
            self.taken.left_out["failed calls that a filter of system calls may have refused"] += 1
            return True
        return False

    def keep(self, task: Task, made: Call) -> None:
        """A call that stays as it is."""
        self.taken.put(task.pid, plain_log.call(made.name, list(made.arguments), made.result))

    def setgroups(self, task: Task, made: Call) -> None:
        """setgroups(2)."""
        if len(made.arguments) == 2 and (made.arguments[1] == b"NULL" or made.arguments[1].startswith(b"[")):
            self.keep(task, made)
        elif not self.taken.fails_unread(made):
            raise Stopped(f"{task.pid}: the groups of a setgroups can't be read")

    def capset(self, task: Task, made: Call) -> None:
        """capset(2)."""
        if len(made.arguments) == 2 and all(argument.startswith(b"{") for argument in made.arguments):
            last = self.system.last_capability()
            cut = None if last is None else set_texts.within(made, last)
            if cut is not None:
                self.taken.counted["sets of capset are told without bits past the last capability"] += 1
            self.keep(task, cut or made)
        elif not self.taken.fails_unread(made):
            raise Stopped(f"{task.pid}: the sets of a capset can't be read")

    def prctl(self, task: Task, made: Call) -> None:
        """prctl(2): the options that set or show credentials stay."""
        option = made.arguments[0] if made.arguments else b""
        if option == b"PR_SET_SECCOMP":
            self.seccomp(task, made)
        elif option not in PRCTLS:
            self.taken.left_out["prctl of other options"] += 1
        elif all(re.fullmatch(rb"[0-9]{11,}", argument) is None for argument in made.arguments[1:2]):
            self.keep(task, made)
            note_securebits(task, made)
        elif not self.taken.fails_unread(made):
            raise Stopped(f"{task.pid}: the number of a prctl can't be read")

    def seccomp(self, task: Task, made: Call) -> None:
        """seccomp(2) and prctl(2): filters that are installed are noted."""
        told = installing(made)
        if told is None:
            return
        found = of_argument(task.pid, told.argument, len(self.followed.tasks) == 1)
        self.taken.filters.append(found)
        self.followed.installed(task, found, told.for_all)
        for doubt in found.doubts:
            self.taken.doubt(premises.ANSWERS, f"process {task.pid} installed a filter that {doubt}: what its calls"
                                               " told may not have happened")

    def open(self, task: Task, made: Call) -> None:
        """open and its like: which file it is, and whether it is a program that is made."""
        self.maps.open(task, made)
        self.changing.created(task, made)

    def mount_descriptor(self, task: Task, made: Call) -> None:
        """open_tree(2) and fsmount(2)."""
        mount_views.learn_mount(self.followed, task, made)
        self.taken.left_out["descriptors of mounts"] += 1

    def move_mount(self, task: Task, made: Call) -> None:
        """move_mount(2)."""
        self.changing.mount(task, made)
        mount_views.learn_move(task, made)

    def pivot_root(self, task: Task, made: Call) -> None:
        """pivot_root(2): it changes the mounts, and where paths begin."""
        self.changing.mount(task, made)
        self.executing.pivot_root(task, made)

    def birth(self, task: Task, made: Call) -> None:
        """fork, vfork, clone and clone3; then come the lines that stood before."""
        flags, child, result = strace_lines.flags_of(made), made.done, made.result
        if task.pid in self.early:
            if self.early.pop(task.pid) != child:
                raise Stopped(f"{task.pid}: a birth that was under way answers {shown(result)}, which isn't its child")
            return
        if flags is None:
            if not self.taken.fails_unread(made):
                raise Stopped(f"{task.pid}: the flags of a birth can't be read")
            return
        if b"CLONE_UNTRACED" in flags and child is not None:
            self.taken.doubt(premises.BIRTHS, f"process {task.pid} gave birth to {child} with CLONE_UNTRACED: what that"
                                              " does isn't in the log")
        if b"CLONE_FILES" in flags:
            self.taken.counted["births are told without their flag CLONE_FILES"] += 1
        self.taken.put(task.pid, plain_log.birth(made, flags, result if child is None else b"%d" % child))
        if child is None:
            return
        self.followed.born(task, child, flags)
        for line in self.held.pop(child, []):
            self.taken.counted["lines that stood before the birth of their process stand behind it"] += 1
            self.feed(line)

    def unshare(self, task: Task, made: Call) -> None:
        """unshare(2)."""
        self.keep(task, made)
        if made.done is not None and made.arguments:
            self.followed.unshared(task, strace_lines.words(made.arguments[0]))


def is_trapped(made: Call) -> bool:
    """Whether a filter trapped a call that answers 0 where it is made, or a descriptor that strace shows: strace writes
    the call's own number then (SECCOMP_RET_TRAP of seccomp(2))."""
    if not made.done or not answers_otherwise(made):
        return False
    from ..filters.call_numbers import numbers_of        # hardly a call answers so
    return made.done in [each for _, each in numbers_of(made.name.decode("ascii", "replace"))]


def answers_otherwise(made: Call) -> bool:
    """Whether a call that is made never answers a bare number above 0."""
    if made.name == b"seccomp":
        return not any(b"NEW_LISTENER" in each for each in made.arguments[1:2])
    return made.name in ANSWER_ZERO or (made.name in OPENS and made.result == b"%d" % (made.done or 0))


def note_securebits(task: Task, made: Call) -> None:
    """Takes note of securebits that were set, and of those that a later call showed to be so
    (PR_SET_SECUREBITS(2const), PR_GET_SECUREBITS(2const))."""
    if made.done is None:
        return
    if made.arguments[0] == b"PR_SET_SECUREBITS" and len(made.arguments) > 1:
        bits = securebits_value(made.arguments[1].decode("ascii", "replace"))
        task.securebits = UNKNOWN if bits is None else bits
    elif made.arguments[0] == b"PR_GET_SECUREBITS" and task.securebits == made.done:
        task.securebits = None
