"""strace, as a recording runs it: found, asked for its version, and given its words (strace(1))."""
import os
import re
import shutil
import subprocess
from collections.abc import Iterable, Sequence

from ..command_line.command import Failure

OLDEST = (5, 10)
# Names by pattern, so that those of 32-bit programs (setresuid32) belong to them, and those that a processor lacks
# don't matter. Calls that show credentials are there too: what they answered is held against the replay.
CALLS = ("(set(re|res)?[ug]id|setfs[ug]id|get(e|res)?[ug]id|[gs]etgroups|cap[gs]et|prctl|seccomp|v?fork|clone3?"
         "|unshare|setns|execve(at)?|f?chdir|chroot|pivot_root|open(at2?)?|creat|dup[23]?|fcntl|p?writev?2?|sendfile"
         "|splice|copy_file_range|io_uring_(setup|enter|register))")
# Calls that change programs or mounts. No rule reads them: one that seems to succeed is a doubt and no more.
CHANGING = ("(f?chmod(at2?)?|[lf]?chown|fchownat|[lf]?(set|remove)xattr(at)?|link(at)?|rename(at2?)?|mknod(at)?"
            "|u?mount2?|move_mount|mount_setattr|fsmount|open_tree)")
TRACED = f"{CALLS}|{CHANGING}"
# Of a written text as much as a map file takes, which is less than a page; of a descriptor the file or the process that
# it is of. Other bytes, and what devices and sockets are, cost time and tell nothing.
LONGEST = 4096
DESCRIPTORS = "decode-fds=path,pidfd"
# Signals that end no process (signal(7)); with another one strace would leave out the end that it brings.
SIGNALS = "signal=!SIGCHLD,SIGCONT,SIGURG,SIGWINCH"
OPTIONS = ("-f", "-v", "-e", DESCRIPTORS, "--pidns-translation", "-s", str(LONGEST), "-e", "abbrev=execve,execveat",
           "--quiet=attach,personality,path-resolution", "-e", SIGNALS)
TIMES = "-ttt"              # when each call ended, in seconds with six digits behind the point


def find(asked: str | None = None) -> str:
    """The path of strace: what is asked for, what the variable STRACE names, else that of the PATH."""
    name = asked or os.environ.get("STRACE") or "strace"
    path = shutil.which(name)
    if path is None:
        raise Failure(f"{name} isn't there", "install strace (apt-get install strace), or name it by --strace")
    return path


def version(path: str) -> str:
    """The version. Fails where it is older than what --pidns-translation needs."""
    done = subprocess.run([path, "-V"], stdout=subprocess.PIPE, stderr=subprocess.DEVNULL, check=False)
    found = re.search(rb"version ([0-9]+)\.([0-9]+)", done.stdout)
    if found is None:
        raise Failure(f"{path} isn't strace: it tells no version")
    if (int(found.group(1)), int(found.group(2))) < OLDEST:
        raise Failure(f"{path} is too old: version {'.'.join(map(str, OLDEST))} or later is needed")
    return found.group(0).decode().removeprefix("version ")


def is_traced(name: str) -> bool:
    """Whether a call is recorded anyway."""
    return re.fullmatch(f"({TRACED})(32|64)?", name) is not None


def traced(marks: Iterable[str] = ()) -> str:
    """The expression that names the calls which are told, those that are marks too."""
    return f"trace=/^({'|'.join([TRACED, *marks])})(32|64)?$"


def words(path: str, out: int, pids: Sequence[int], marks: Iterable[str] = (), timed: bool = False) -> list[str]:
    """The words that attach strace to processes; it writes to the descriptor `out`, also of calls that are marks, and
    with the time of each line where that is asked for."""
    attached = [word for pid in pids for word in ("-p", str(pid))]
    return [path, *OPTIONS, "-e", traced(marks), *([TIMES] if timed else []), "-o", f"/dev/fd/{out}", *attached]
