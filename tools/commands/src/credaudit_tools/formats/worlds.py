"""The one reader of worlds and the one writer, as docs/FORMATS.md, "World", has them.

The reader takes what the program accepts; of what it refuses it tells the place as far as Python's TOML reader knows
it. Whether a world is good is for the program to say.
"""
from collections.abc import Iterable
from dataclasses import dataclass, field
from typing import Any

from ..command_line.command import Failure
from .credential import Credential, four
from .kernel_names import ALL, capability_text

Map = tuple[tuple[int, int, int], ...]     # inside, outside, length
INITIAL = "init"
ROOT_MOUNT = "root"


@dataclass(frozen=True)
class Space:
    """A user namespace."""
    name: str
    parent: str
    owner: int
    uid_map: Map | None = None
    gid_map: Map | None = None
    setgroups: str = "allow"
    creator_setfcap: bool = False


@dataclass(frozen=True)
class Mount:
    """A mount."""
    name: str
    space: str = INITIAL
    nosuid: bool = False
    noexec: bool = False
    fs_uid_map: Map | None = None
    fs_gid_map: Map | None = None
    uid_map: Map | None = None
    gid_map: Map | None = None


@dataclass(frozen=True)
class File:
    """A file."""
    path: str
    uid: int
    gid: int
    mode: int
    mount: str = ROOT_MOUNT
    caps: str | None = None
    interpreter: str | None = None


@dataclass(frozen=True)
class Process:
    """A process."""
    pid: int
    credential: Credential
    parent: int | None = None
    space: str = INITIAL


@dataclass
class World:
    """A world; `remarks` become comments at its front."""
    log: str = "strace"
    spaces: list[Space] = field(default_factory=list)
    mounts: list[Mount] = field(default_factory=list)
    files: list[File] = field(default_factory=list)
    processes: list[Process] = field(default_factory=list)
    exclude: list[str] | None = None
    remarks: list[str] = field(default_factory=list)


# ---- reading ---------------------------------------------------------------------------------------------------------


def table_of(data: bytes) -> dict[str, Any]:
    """The TOML table of a world's text. Fails where it is none."""
    import tomllib          # a recording reads none
    try:
        return tomllib.loads(data.removeprefix(b"\xef\xbb\xbf").decode())
    except (tomllib.TOMLDecodeError, UnicodeDecodeError, RecursionError) as error:
        raise Failure(f"the world can't be read: {error}") from error


def read(data: bytes) -> World:
    """The world of a text that the program accepts. Fails at any other."""
    table = table_of(data)
    try:
        return World(log=table["log"], spaces=[space_of(row) for row in table.get("space", [])],
                     mounts=[mount_of(row) for row in table.get("mount", [])],
                     files=[file_of(row) for row in table.get("file", [])],
                     processes=[process_of(row) for row in table.get("process", [])],
                     exclude=table.get("filter", {}).get("exclude"))
    except (KeyError, TypeError, ValueError, AttributeError) as error:
        why = f"the world can't be read: {type(error).__name__}: {error}"
        raise Failure(why, "credaudit replay tells its fault") from error


def map_of(row: dict[str, Any], key: str) -> Map | None:
    """A map, None where it isn't there."""
    if key not in row:
        return None
    return tuple((inside, outside, length) for inside, outside, length in row[key])


def space_of(row: dict[str, Any]) -> Space:
    """A row of the table."""
    return Space(name=row["name"], parent=row["parent"], owner=row["owner"], uid_map=map_of(row, "uid_map"),
                 gid_map=map_of(row, "gid_map"), setgroups=row.get("setgroups", "allow"),
                 creator_setfcap=row.get("creator_setfcap", False))


def mount_of(row: dict[str, Any]) -> Mount:
    """A row of the table."""
    maps = {key: map_of(row, key) for key in ("fs_uid_map", "fs_gid_map", "uid_map", "gid_map")}
    return Mount(name=row["name"], space=row.get("space", INITIAL), nosuid=row.get("nosuid", False),
                 noexec=row.get("noexec", False), **maps)


def file_of(row: dict[str, Any]) -> File:
    """A row of the table."""
    return File(path=row["path"], uid=row["uid"], gid=row["gid"], mode=int(row["mode"], 8),
                mount=row.get("mount", ROOT_MOUNT), caps=row.get("caps"), interpreter=row.get("interpreter"))


def set_of(row: dict[str, Any], key: str, default: int) -> int:
    """A set; ValueError where its text is none."""
    if key not in row:
        return default
    bits = capability_text(row[key])
    if bits is None:
        raise ValueError(f"{key} is no capability text")
    return bits


def ids_of(row: dict[str, Any], key: str) -> list[int]:
    """One id or four."""
    value = row.get(key, 0)
    return value if isinstance(value, list) else [value]


def process_of(row: dict[str, Any]) -> Process:
    """A row of the table."""
    uid = four(ids_of(row, "uid"))
    roots = ALL if uid[1] == 0 else 0
    credential = Credential(
        uid=uid, gid=four(ids_of(row, "gid")), groups=frozenset(row.get("groups", [])),
        inh=set_of(row, "inheritable", 0), prm=set_of(row, "permitted", roots), eff=set_of(row, "effective", roots),
        bnd=set_of(row, "bounding", ALL), amb=set_of(row, "ambient", 0), sec=row.get("securebits", 0),
        nnp=row.get("no_new_privs", False))
    return Process(pid=row["pid"], credential=credential, parent=row.get("parent"), space=row.get("space", INITIAL))


# ---- writing ---------------------------------------------------------------------------------------------------------


def text(value: str) -> str:
    """A TOML string: nothing in it ends the quotes or the line."""
    odd = {"\\": "\\\\", '"': '\\"'}
    return '"' + "".join(odd.get(each, each if " " <= each < "\x7f" else f"\\U{ord(each):08x}") for each in value) + '"'


def remark(line: str) -> str:
    """A comment of one line."""
    return "# " + "".join(each if each.isprintable() else f"\\x{ord(each):02x}" for each in line)


def value(item: object) -> str:
    """A TOML value."""
    if isinstance(item, bool):
        return "true" if item else "false"
    if isinstance(item, (list, tuple)):
        return "[" + ", ".join(value(each) for each in item) + "]"
    return text(item) if isinstance(item, str) else str(item)


def rows(table: str, keys: Iterable[tuple[str, object, object]]) -> list[str]:
    """A row: of each key its value, unless that is the default."""
    return ["", f"[[{table}]]", *(f"{key} = {value(item)}" for key, item, default in keys if item != default)]


def space_rows(space: Space) -> list[str]:
    """The lines of a row."""
    return rows("space", [("name", space.name, None), ("parent", space.parent, None), ("owner", space.owner, None),
                          ("uid_map", space.uid_map, None), ("gid_map", space.gid_map, None),
                          ("setgroups", space.setgroups, "allow"), ("creator_setfcap", space.creator_setfcap, False)])


def mount_rows(mount: Mount) -> list[str]:
    """The lines of a row."""
    return rows("mount", [("name", mount.name, None), ("space", mount.space, INITIAL), ("nosuid", mount.nosuid, False),
                          ("noexec", mount.noexec, False), ("fs_uid_map", mount.fs_uid_map, None),
                          ("fs_gid_map", mount.fs_gid_map, None), ("uid_map", mount.uid_map, None),
                          ("gid_map", mount.gid_map, None)])


def file_rows(file: File) -> list[str]:
    """The lines of a row."""
    return rows("file", [("path", file.path, None), ("mount", file.mount, ROOT_MOUNT), ("uid", file.uid, None),
                         ("gid", file.gid, None), ("mode", f"{file.mode:04o}", None), ("caps", file.caps, None),
                         ("interpreter", file.interpreter, None)])


def process_rows(process: Process) -> list[str]:
    """Every part of the credential stands there, also where it is the default."""
    own = process.credential
    return rows("process", [
        ("pid", process.pid, None), ("parent", process.parent, None), ("space", process.space, INITIAL),
        ("uid", own.uid, None), ("gid", own.gid, None), ("groups", sorted(own.groups), None),
        ("inheritable", f"{own.inh:016x}", None), ("permitted", f"{own.prm:016x}", None),
        ("effective", f"{own.eff:016x}", None), ("bounding", f"{own.bnd:016x}", None),
        ("ambient", f"{own.amb:016x}", None), ("securebits", own.sec or 0, 0), ("no_new_privs", bool(own.nnp), False)])


def written(world: World) -> bytes:
    """The text of a world. What can't stand in one (a path with a blank) isn't looked for here."""
    lines = [*(remark(each) for each in world.remarks), f"log = {text(world.log)}"]
    lines += [line for row in world.spaces for line in space_rows(row)]
    lines += [line for row in world.mounts for line in mount_rows(row)]
    lines += [line for row in world.files for line in file_rows(row)]
    lines += [line for row in world.processes for line in process_rows(row)]
    if world.exclude is not None:
        lines += ["", "[filter]", f"exclude = {value(world.exclude)}"]
    return ("\n".join(lines) + "\n").encode()
