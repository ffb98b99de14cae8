"""The program's other refusals in words: files that can't be read, limits, lines that the rules don't allow."""
import difflib
import os
import re
import stat

from ..command_line.command import Failure
from ..command_line.files import kind, read_regular
from ..command_line.printable import quoted
from ..doubts.findings import LOG, WORLD, Finding
from ..formats.strace_lines import parted

LOG_MOST = 67108864     # of a world, and of a log that is looked into; the program takes longer ones
LIMIT = re.compile(r"limit (\w+) (\d+)")
IMPOSSIBLE = re.compile(r"impossible line (\d+): (.*)")
LIMITS = {
    "world": (WORLD, "the world's text is too long",
              "declare equal files and equal processes once (credaudit-capture --merge)"),
    "spaces": (WORLD, "too many user namespaces", "declare those alone in which a process stands"),
    "mounts": (WORLD, "too many mounts", "one for each combination of nosuid, noexec and maps serves all files"),
    "files": (WORLD, "too many files", "declare equal ones once (credaudit-capture --merge)"),
    "processes": (WORLD, "too many processes", "declare equal ones once (credaudit-capture --merge)"),
    "groups": (WORLD, "a list of groups is too long", "each group needs to stand once only"),
    "log": (LOG, "the log is too long", "credaudit-trace leaves out what no rule reads"),
    "line": (LOG, "a line is too long", "record with -e abbrev=execve,execveat, or with credaudit-trace"),
    "held": (LOG, "too many lines of processes that aren't born yet",
             "the world has another pid than the log's first line, or `close` lines are to be left out"),
    "descriptors": (LOG, "too many open descriptors of maps and namespaces", "record with credaudit-trace"),
}


def unreadable(path: str, file: str) -> Finding | None:
    """Why a file can't be read, None where it can."""
    try:
        read_regular(path, LOG_MOST, follow=True)
    except Failure as failure:
        return Finding(file, None, str(failure), failure.advice or reading_hint(path))
    return None


def reading_hint(path: str) -> str:
    """What to do about a file that can't be opened."""
    folder, name = os.path.split(path)
    if path != path.strip():
        return "a blank stands before or behind the name"
    try:
        mode = os.stat(path).st_mode
    except FileNotFoundError:
        return missing_hint(path, folder or ".", name)
    except OSError as error:
        return f"the way to it: {error.strerror}"
    if stat.S_ISDIR(mode):
        return directory_hint(path)
    if not stat.S_ISREG(mode):
        return f"the program reads files alone, and this is {kind(mode)}: save what it gives to a file"
    return f"its mode is {stat.S_IMODE(mode):04o}: `ls -l` tells whose it is, and chmod(1) or sudo opens it"


def directory_hint(path: str) -> str:
    """What to name in the place of a directory."""
    kept = [name for name in ("world.toml", "log") if os.path.exists(os.path.join(path, name))]
    if kept:
        return f"it has {' and '.join(kept)} in it: name these, or the folder alone for a recording"
    return "name a file in it"


def missing_hint(path: str, folder: str, name: str) -> str:
    """What may be meant by a path that isn't there: the file `name` of that folder."""
    if os.path.islink(path):
        return f"it is a symbolic link to {quoted(os.readlink(path))}, which isn't there"
    if not os.path.isdir(folder):
        return f"the folder {quoted(folder)} isn't there"
    near = difflib.get_close_matches(name, os.listdir(folder), 1, 0.7)
    return f"there is {quoted(near[0])} beside it" if near else f"the folder {quoted(folder)} has no such file"


def limits(told: str) -> list[Finding]:
    """The limit that a report's last line tells of, none where it is no such line."""
    found = LIMIT.fullmatch(told)
    if found is None:
        return []
    file, why, hint = LIMITS.get(found.group(1), (LOG, f"the limit {found.group(1)} is exceeded", ""))
    return [Finding(file, None, f"{why}: at most {found.group(2)}", hint)]


def impossible(told: str, log: bytes, pids: list[int]) -> list[Finding]:
    """A line that the rules don't allow after the lines before it."""
    found = IMPOSSIBLE.fullmatch(told)
    if found is None:
        return []
    number, why = int(found.group(1)), found.group(2)
    return [Finding(LOG, number, f"the rules don't allow this line: {why}", impossible_hint(why, log, number, pids))]


def impossible_hint(why: str, log: bytes, number: int, pids: list[int]) -> str:
    """Why a line may be impossible, by the program's words for it."""
    if why == "no process":
        return no_process_hint(log, number, pids)
    if why == "no space":
        return "the namespace was never made: a line is missing, or the world lacks a [[space]]"
    if why == "pid in use":
        return "the exit of the process that had this pid is missing (-qq and --quiet=exit leave it out)"
    return ("the world's row isn't the process before the log, a file that was executed isn't declared, a line is"
            " missing, or the kernel answers otherwise (docs/KERNEL.md)")


def no_process_hint(log: bytes, number: int, pids: list[int]) -> str:
    """Why a line's process may not be there."""
    line = log.split(b"\n")[number - 1] if number <= log.count(b"\n") + 1 else b""
    split = parted(line.lstrip())
    first = next((one for one in map(parted, log.split(b"\n")) if one is not None), None)
    if first is not None and first[0] not in pids:
        have = ", ".join(map(str, pids[:5])) or "none"
        return f"the log begins with process {first[0]}, and the world declares {have}"
    pid = f"process {split[0]}" if split else "its process"
    return f"{pid} is neither declared nor born before, or it has ended: its birth may be missing"
