"""What /proc/PID/status shows of a thread (proc(5)), and the line of a recording that keeps it.

The line is `NAME: VALUE` between `; `, the names those of proc(5); a name that the program chose is escaped, so that
it adds no part.
"""
from dataclasses import dataclass

from ..command_line.printable import escaped, unescaped
from .credential import Credential, four

KEPT = ("Name", "Uid", "Gid", "Groups", "CapInh", "CapPrm", "CapEff", "CapBnd", "CapAmb", "NoNewPrivs", "Seccomp",
        "Seccomp_filters")


@dataclass(frozen=True)
class Status:
    """A thread as the kernel shows it. `space` numbers the user namespaces of a recording, 0 is the initial one;
    `state`, `tgid`, `parent` and `tracer` are those of /proc alone and aren't kept."""
    pid: int
    name: bytes
    credential: Credential
    seccomp: int | None = None
    filters: int | None = None
    space: int = 0
    state: str = "?"
    tgid: int = 0
    parent: int = 0
    tracer: int = 0


def parts_of_file(data: bytes) -> dict[str, str]:
    """The lines of a status file. A name holds no line feed: the kernel writes it escaped."""
    lines = (line.partition(":") for line in data.decode("latin-1").split("\n"))
    return {name: told.strip(" \t") for name, _, told in lines if name}


def word_of_file(data: bytes, name: bytes) -> bytes | None:
    """What one line of a status file tells, which isn't its first; None where there is none. For who wants few of many
    files: it reads no other line."""
    place = data.find(b"\n" + name + b":")
    return None if place < 0 else data[place + len(name) + 2:].partition(b"\n")[0].strip(b" \t")


def number(parts: dict[str, str], name: str) -> int | None:
    """A number that may be missing."""
    return int(parts[name]) if name in parts else None


def credential_of(parts: dict[str, str]) -> Credential:
    """The credential of the parts; KeyError or ValueError where one is missing or odd."""
    ids = {key: four([int(word) for word in parts[name].split()]) for key, name in (("uid", "Uid"), ("gid", "Gid"))}
    sets = {key: int(parts["Cap" + name], 16) for key, name in
            (("inh", "Inh"), ("prm", "Prm"), ("eff", "Eff"), ("bnd", "Bnd"), ("amb", "Amb"))}
    groups = frozenset(int(word) for word in parts["Groups"].split())
    secure = number(parts, "Securebits")
    return Credential(uid=ids["uid"], gid=ids["gid"], groups=groups, sec=secure, nnp=parts["NoNewPrivs"] == "1", **sets)


def from_file(data: bytes) -> Status:
    """The status of a file of /proc. ValueError or KeyError where it is none."""
    parts = parts_of_file(data)
    return Status(pid=int(parts["Pid"]), name=kernel_name(parts["Name"]), credential=credential_of(parts),
                  seccomp=number(parts, "Seccomp"), filters=number(parts, "Seccomp_filters"), state=parts["State"][:1],
                  tgid=int(parts["Tgid"]), parent=int(parts["PPid"]), tracer=int(parts["TracerPid"]))


def kernel_name(told: str) -> bytes:
    """The kernel writes a line feed of a name as `\\n` and a backslash as two."""
    return told.encode("latin-1").replace(b"\\\\", b"\0").replace(b"\\n", b"\n").replace(b"\0", b"\\")


def line_of(status: Status) -> str:
    """The line of a recording."""
    own = status.credential
    parts = {"Pid": str(status.pid), "Name": escaped(status.name, b";:"),
             "Uid": " ".join(map(str, own.uid)), "Gid": " ".join(map(str, own.gid)),
             "Groups": " ".join(map(str, sorted(own.groups))),
             "CapInh": f"{own.inh:016x}", "CapPrm": f"{own.prm:016x}", "CapEff": f"{own.eff:016x}",
             "CapBnd": f"{own.bnd:016x}", "CapAmb": f"{own.amb:016x}", "NoNewPrivs": str(int(bool(own.nnp)))}
    optional = (("Seccomp", status.seccomp), ("Seccomp_filters", status.filters), ("Securebits", own.sec))
    parts |= {name: str(told) for name, told in optional if told is not None}
    return "; ".join(f"{name}: {told}".rstrip() for name, told in [*parts.items(), ("Space", str(status.space))])


def parts_of_line(line: str) -> dict[str, str]:
    """The parts of a recording's line. ValueError where a name stands twice."""
    pairs = [part.partition(":") for part in line.split("; ")]
    parts = {name: told.strip(" ") for name, _, told in pairs}
    if len(parts) != len(pairs):
        raise ValueError("a name stands twice")
    return parts


def from_line(line: str) -> Status:
    """The status of a recording's line. ValueError or KeyError where it is none."""
    parts = parts_of_line(line)
    return Status(pid=int(parts["Pid"]), name=unescaped(parts["Name"]), credential=credential_of(parts),
                  seccomp=number(parts, "Seccomp"), filters=number(parts, "Seccomp_filters"), space=int(parts["Space"]))
