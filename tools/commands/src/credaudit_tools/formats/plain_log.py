"""How the lines of a recording's log are written: plain calls without decorations, one line each (docs/STRACE.md)."""
import re

from .strace_lines import Call, quoted

# Which errors a line may have that is to be an event (RULES.md, "Errors from outside"): of each call, of an execve, and
# those that rules give.
OUTSIDE = (b"ENOMEM", b"EAGAIN", b"EINTR", b"EFAULT", b"EIO")
FOLDER_ERRORS = (b"ENOENT", b"EACCES", b"ENOTDIR", b"ELOOP", b"ENAMETOOLONG", b"E2BIG", b"ENOEXEC", b"ETXTBSY",
                 b"ELIBBAD")
RULED = (b"EPERM", b"EINVAL")
BIRTH_RESULT = re.compile(rb"((?:v?fork|clone3?)\(.*\) = )([0-9]+)", re.S)


def line(pid: int, body: bytes) -> bytes:
    """A line of a log."""
    return b"%d %s" % (pid, body)


def call(name: bytes, arguments: list[bytes], result: bytes) -> bytes:
    """The text of a call."""
    return name + b"(" + b", ".join(arguments) + b") = " + result


def execve(path: bytes, result: bytes) -> bytes:
    """An execve without its words and its environment."""
    return call(b"execve", [quoted(path), b"[]", b"NULL"], result)


def birth(made: Call, flags: list[bytes], result: bytes) -> bytes:
    """A birth with the flags that matter. Descriptors aren't followed by the program's reader here, so they aren't
    shared."""
    if made.name in (b"fork", b"vfork"):
        return call(made.name, [], result)
    kept = b"|".join(flag for flag in flags if flag != b"CLONE_FILES") or b"0"
    return call(made.name, [b"flags=" + kept] if made.name == b"clone" else [b"{flags=" + kept + b"}", b"88"], result)


def numbers_of(lines: list[bytes], pids: list[int], first: int) -> dict[int, int]:
    """The new number of each pid: those that lived before the log first, then by birth. A pid that comes again after
    its end keeps its number."""
    order = list(pids)
    for each in lines:
        pid, _, body = each.partition(b" ")
        born = BIRTH_RESULT.fullmatch(body)
        order += [int(pid), *([int(born.group(2))] if born else [])]
    return {pid: first + place for place, pid in enumerate(dict.fromkeys(order))}


def renumbered(lines: list[bytes], numbers: dict[int, int]) -> list[bytes]:
    """The same log with other pids, wherever one stands as a pid."""
    def new(text: bytes) -> bytes:
        return b"%d" % numbers.get(int(text), int(text))

    made = []
    for each in lines:
        pid, _, body = each.partition(b" ")
        born = BIRTH_RESULT.fullmatch(body)
        if born:
            body = born.group(1) + new(born.group(2))
        body = re.sub(rb'(?<=^open\("/proc/)[0-9]+(?=/)', lambda found: new(found.group()), body)
        body = re.sub(rb"^(cap[gs]et\(\{version=[^,]*, pid=)([0-9]+)",
                      lambda found: found.group(1) + new(found.group(2)), body)
        made.append(new(pid) + b" " + body)
    return made
