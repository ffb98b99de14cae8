"""Files that are executed in a recording, and the folders by which their paths are found (execve(2), chroot(2))."""
from ..command_line.printable import escaped, shown
from ..evidence import kernel_page_rows
from ..evidence.premises import KERNEL
from ..executed.executed_files import Executed
from ..executed.looked_up import running
from ..executed.new_program import NewProgram
from ..executed.path_resolution import View, resolved
from ..formats import plain_log, strace_lines
from ..formats.log_marks import is_check
from ..formats.strace_lines import Call
from ..system.program_rows import SET_IDS
from . import mount_views
from .failures import error_of
from .followed_processes import Followed, Task
from .kept_log import UNSPOKEN, Stopped, Taken
from .map_writes import System

OWN_PLACES = (b"/proc/", b"/dev/")        # the same path is another file for each process
NO_OWN_MOUNT = "it lies on no mount of its own mount namespace"


class Executing:
    """The calls that execute files or change where paths begin."""

    def __init__(self, followed: Followed, taken: Taken, system: System, executed: Executed) -> None:
        self.followed, self.taken, self.system, self.executed = followed, taken, system, executed
        self.new: dict[int, NewProgram] = {}        # by a process whose execve has succeeded, and isn't told yet

    def stands(self, pid: int) -> None:
        """A process stands still right after an execve, all lines of before are taken, and its own is none of them."""
        new = self.system.new_program(pid)
        if new is not None:
            self.new[pid] = new
        task = self.followed.tasks.get(pid)
        if task is None or task.place.view != 0:
            self.system.hold(pid)

    def view(self, task: Task) -> View | None:
        """Where the paths of a process begin; None where its root isn't known."""
        root = task.place.root
        return None if root is None else View(task.pid, self.system.top_of(task, self.followed), root, task.place.cwd)

    def magic(self, pid: int, name: bytes) -> bytes | None:
        """What a link of /proc leads to, as it was followed."""
        task = self.followed.tasks.get(pid)
        if task is None:
            return None
        if name.startswith(b"fd/"):
            return task.files.paths.get(int(name[3:]))
        return {b"exe": task.exe, b"cwd": task.place.cwd, b"root": task.place.root}[name]

    def path_of(self, made: Call) -> tuple[bytes, bytes | None] | None:
        """The path of an execve as it was spelled, and the folder that it begins in where that isn't the working
        directory."""
        if made.name == b"execve":
            told = strace_lines.text_of(made.arguments[0]) if made.arguments else None
            return (told[0], None) if told is not None and told[1] else None
        if len(made.arguments) < 2:
            return None
        at, told = strace_lines.descriptor(made.arguments[0]), strace_lines.text_of(made.arguments[1])
        if at is None or told is None or not told[1]:
            return None
        if told[0] == b"":
            return (at[1], None) if at[1] is not None else None
        return told[0], at[1]

    def execve(self, task: Task, made: Call) -> None:
        """An execve or execveat: told by the file that the process executed, else by the path that was found."""
        if is_check(made):
            self.taken.left_out["checks of files, which execute nothing (AT_EXECVE_CHECK)"] += 1
            return
        spelled = self.path_of(made)
        new = self.new.pop(task.pid, None) if made.done is not None else None
        if new is not None:
            self.executed_new(task, made, b"" if spelled is None else spelled[0], new)
            return
        if spelled is None:
            if not self.taken.fails_unread(made):
                raise Stopped(f"{task.pid}: it executed a file that strace doesn't name")
            return
        path = self.real(task, *spelled)
        if error_of(made) == b"EPERM" and not self.lacks(task, path):
            self.taken.left_out[UNSPOKEN] += 1
            return
        if path is None:
            if made.done is not None:
                self.executes_unseen(task, made, spelled[0])
                return
            self.taken.put(task.pid, plain_log.execve(escaped(spelled[0]).encode(), made.result))
            return
        self.executes(task, made, spelled[0], path)

    def lacks(self, task: Task, path: bytes | None) -> bool:
        """Whether an execve may have failed for what its file's attribute lacks, which is the one EPERM of a rule
        (capabilities(7), "Safety checking for capability-dumb binaries"). Then the file is declared."""
        return path is not None and self.executed.refused(self.system.top_of(task, self.followed), path)

    def real(self, task: Task, spelled: bytes, folder: bytes | None) -> bytes | None:
        """The path without links, None where it isn't known or leads nowhere."""
        view = self.view(task)
        return None if view is None else self.real_in(view, spelled, folder)

    def real_in(self, view: View, spelled: bytes, folder: bytes | None) -> bytes | None:
        """As `real`, where it is known where paths begin."""
        if folder is not None:
            view = View(view.pid, view.top, view.root, folder)
        try:
            return resolved(spelled, view, self.magic)
        except OSError:
            return None

    def executes(self, task: Task, made: Call, spelled: bytes, path: bytes) -> None:
        """An execve whose file is known: the log's line and the world's row."""
        top = self.system.top_of(task, self.followed)
        name = self.executed.add(top, path) if made.done is not None else self.executed.name_of(top, path)
        self.tell(task, made, spelled, name)
        if made.done is not None:
            view = mount_views.of_call(task, made)
            self.doubt_mount(task, mount_views.foreign(self.followed, task, view), name)
            self.goes_on_as(task, made, path)

    def executed_new(self, task: Task, made: Call, spelled: bytes, new: NewProgram) -> None:
        """An execve whose program was looked at while the process stood still."""
        self.system.holds(task)
        name = self.executed.add_new(new)
        self.tell(task, made, spelled, name)
        self.doubt_mount(task, None if new.own else NO_OWN_MOUNT, self.executed.new_name(new.path, new.found))
        self.goes_on_as(task, made, new.path)

    def tell(self, task: Task, made: Call, spelled: bytes, name: str) -> None:
        """The line of an execve, by the name of its file."""
        if name.encode() != spelled:
            if task.place.root == b"/" and not spelled.startswith(OWN_PLACES):
                self.executed.also(spelled, name)
            self.taken.change(f"execve of {escaped(spelled)}: told as {name}")
        self.taken.put(task.pid, plain_log.execve(name.encode(), made.result))

    def executes_unseen(self, task: Task, made: Call, spelled: bytes) -> None:
        """An execve of a file to which its path leads no more, as one on a mount that went at once: told by what the
        process executes. What it executed since then has another name, or is compared at the end."""
        found = running(self.system.exe_of(task), spelled) if spelled.startswith(b"/") else None
        name = None if found is None else self.executed.add_running(found)
        if name is None:
            raise Stopped(f"{task.pid}: it executed {shown(spelled)}, and which file that is isn't known")
        self.taken.change(f"execve of {escaped(spelled)}: its path leads nowhere any more, so it is declared by what"
                          " the process executed")
        self.taken.put(task.pid, plain_log.execve(name.encode(), made.result))
        self.doubt_mount(task, mount_views.foreign(self.followed, task, mount_views.of_call(task, made)), name)
        self.goes_on_as(task, made, spelled)

    def goes_on_as(self, task: Task, made: Call, path: bytes) -> None:
        """A process has another program."""
        task.exe, task.exe_view = path, other_view(task, mount_views.of_call(task, made))
        task.files = task.files.copied()

    def doubt_mount(self, task: Task, why: str | None, name: str) -> None:
        """A program with set-id bits or capabilities that isn't of the process's own mount namespace, which `why` says:
        the rules read these, and the kernel doesn't."""
        row = self.executed.files.get(name)
        if row is not None and why is not None and (row.mode & SET_IDS or row.caps is not None):
            self.taken.doubt(KERNEL, f"{kernel_page_rows.FOREIGN} (line {len(self.taken.lines)}: process {task.pid}"
                                     f" executed {name}, and {why})")

    # ---- folders

    def chdir(self, task: Task, made: Call) -> None:
        """chdir and fchdir."""
        self.taken.left_out["changes of the working directory"] += 1
        if made.done is None:
            return
        if made.name == b"fchdir":
            at = strace_lines.descriptor(made.arguments[0]) if made.arguments else None
            if at is not None and at[1] is not None:
                task.place.cwd_view = other_view(task, mount_views.of_descriptor(task, *at))
                task.place.stands_in(at[1])
            else:
                task.place.cwd = None
            return
        told = strace_lines.text_of(made.arguments[0]) if made.arguments else None
        task.place.cwd_view = other_view(task, mount_views.of_call(task, made))
        task.place.cwd = self.real(task, told[0], None) if told is not None and told[1] else None

    def chroot(self, task: Task, made: Call) -> None:
        """chroot(2)."""
        if made.done is None:
            return
        told = strace_lines.text_of(made.arguments[0]) if made.arguments else None
        root = self.real(task, told[0], None) if told is not None and told[1] else None
        task.place.root_view = other_view(task, mount_views.of_call(task, made))
        task.place.changes_root(root)
        where = "a folder that isn't known" if root is None else escaped(root)
        self.taken.change(f"{task.pid} changed its root to {where}: files that it executes are told by their paths"
                          " outside")

    def pivot_root(self, task: Task, made: Call) -> None:
        """pivot_root(2): paths begin elsewhere."""
        if made.done is not None:
            task.place.view = task.place.view or self.followed.new_view()
            task.place.changes_root(b"/")


def other_view(task: Task, view: int) -> int | None:
    """The view of a folder where that isn't the process's own."""
    return None if view == task.place.view else view
