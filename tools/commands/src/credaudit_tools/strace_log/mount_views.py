"""In which mount namespace a file lies that a process executes. Of another one than the process's own, and of a
detached mount, the kernel takes neither set-id bits nor capabilities (mount_namespaces(7); open_tree(2)), and the rules
don't know it.

Mount namespaces are told apart by the numbers of `followed`. A descriptor keeps the one in which it was opened.
"""
import re
from collections.abc import Mapping

from ..formats import strace_lines
from ..formats.strace_lines import Call
from ..system.mounts import table
from .followed_processes import DETACHED, UNKNOWN_VIEW, Followed, Task

OWN_EXE = re.compile(rb"/proc/(?:self|thread-self)/exe")
OWN_DESCRIPTOR = re.compile(rb"/(?:proc/(?:self|thread-self)|dev)/fd/([0-9]+)")
OF_PROCESSES = re.compile(rb"/(?:proc/(?:self|thread-self|[0-9]+)/(?:task/[0-9]+/)?(?:fd|root|cwd|exe|map_files)"
                          rb"|dev/fd)(?:/|$)")
COPIES = (b"dup", b"dup2", b"dup3", b"fcntl", b"fcntl64")


def of_descriptor(task: Task, number: bytes, path: bytes | None) -> int:
    """Where the file of a descriptor lies, which strace shows with this path."""
    if not number.isdigit():
        return of_folder(task)
    if path is None or task.files.paths.get(int(number)) != path:
        return UNKNOWN_VIEW
    return task.files.views.get(int(number), 0)


def of_folder(task: Task) -> int:
    """Where the working directory lies."""
    return task.place.view if task.place.cwd_view is None else task.place.cwd_view


def of_path(task: Task, path: bytes, at: tuple[bytes, bytes | None] | None = None) -> int:
    """Where the file of a path lies; `at` is the descriptor of a folder in which it begins."""
    if not path.startswith(b"/"):
        return of_folder(task) if at is None else of_descriptor(task, *at)
    own = OWN_DESCRIPTOR.fullmatch(path)
    if own:
        return of_descriptor(task, own.group(1), task.files.paths.get(int(own.group(1))))
    if OWN_EXE.fullmatch(path):
        return task.place.view if task.exe_view is None else task.exe_view
    if OF_PROCESSES.match(path):
        return UNKNOWN_VIEW
    return task.place.view if task.place.root_view is None else task.place.root_view


def of_call(task: Task, made: Call) -> int:
    """Where the file of a call lies that names one by a path, by a descriptor, or by a folder's and a path."""
    if not made.arguments:
        return UNKNOWN_VIEW
    told, at = strace_lines.text_of(made.arguments[0]), strace_lines.descriptor(made.arguments[0])
    if told is not None:
        return of_path(task, told[0])
    if at is None:
        return UNKNOWN_VIEW
    name = strace_lines.text_of(made.arguments[1]) if len(made.arguments) > 1 else None
    if made.name in COPIES or name is None or name[0] == b"":
        return of_descriptor(task, *at)
    return of_path(task, name[0], at)


def opened(task: Task, made: Call) -> int:
    """Where the file lies that a call's new descriptor is of."""
    if made.name == b"fsmount" or any(b"OPEN_TREE_CLONE" in each for each in made.arguments):
        return DETACHED
    return of_call(task, made)


def learn_mount(followed: Followed, task: Task, made: Call) -> None:
    """open_tree and fsmount: a descriptor of a mount, perhaps a detached one."""
    told = strace_lines.descriptor(made.result)
    if made.done is not None and told is not None:
        view = opened(task, made)
        followed.detached |= view == DETACHED
        task.files.opened(made.done, told[1] or b"/", view)


def learn_move(task: Task, made: Call) -> None:
    """move_mount: a detached mount stands in the namespace of its new place."""
    at = strace_lines.descriptor(made.arguments[0]) if made.arguments else None
    if made.done is not None and at is not None and at[0].isdigit() and int(at[0]) in task.files.paths:
        task.files.opened(int(at[0]), task.files.paths[int(at[0])], task.place.view)


def foreign(followed: Followed, task: Task, view: int) -> str | None:
    """Why a file that lies there isn't one of the process's own mount namespace; None where it is. Where no other mount
    namespace and no detached mount came up, what isn't known is taken to be the process's own."""
    if view == task.place.view:
        return None
    if view == UNKNOWN_VIEW:
        others = followed.last_view > 0 or followed.detached
        return "it may lie in another mount namespace" if others else None
    return "it lies on a detached mount" if view == DETACHED else "it lies in another mount namespace"


def at_start(paths: Mapping[int, bytes], mounts: bytes, told: Mapping[int, bytes | None]) -> dict[int, int]:
    """Which descriptors of a process at the start are of files on none of its mounts, by the text of mountinfo and by
    what `told` has of each (proc_pid_fdinfo(5)): they are taken to be detached."""
    own, found = {mount.number for mount in table(mounts)}, dict[int, int]()
    for number, path in paths.items():
        number_of = re.search(rb"^mnt_id:\s*([0-9]+)", told.get(number) or b"", re.M)
        if path.startswith(b"/") and (number_of is None or int(number_of.group(1)) not in own):
            found[number] = DETACHED
    return found
