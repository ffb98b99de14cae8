"""A stored system in the place of the running kernel: a folder of /proc's shape, and what isn't in its files.

A system is a TOML text. Its texts are Latin-1, so that each byte can stand in them.

  [[thread]]   tid, pid (tid where it isn't given), parent, started, name, uid, gid, groups, prm (and the other sets),
  nnp,
               seccomp, filters, state, user and mounts (numbers of namespaces), switches, waits (what syscall shows),
               group
  [[space]]    key, parent, owner, uid_map, gid_map, setgroups
  [[mounts]]   key, owner, count, table (the text of mountinfo)
  [[file]]     path, mounts (the namespace), mount (the number), uid, gid, mode, caps, start, listed
  [[link]]     path, to; of symbolic links
  [[folder]]   path, uid, gid, mode; others are 0 0 0755; inodes, those in use on its filesystem, else not known
  [[trouble]]  path, why; what can't be looked at
  [[binfmt]]   name, text; an entry of binfmt_misc
  [[hidden]]   name, why; whose user namespace isn't shown
"""
import os
import shutil
import tomllib
from collections.abc import Iterator
from typing import Any

from credaudit_tools.system.kernel_questions import Program, Trouble
from credaudit_tools.system.mounts import below
from credaudit_tools.system.namespaces import INITIAL_INODE, UserSpace, map_text
from credaudit_tools.system.proc import Proc
from credaudit_tools.system.program_rows import counts

OWN_MOUNTS = 4026531832
READER = 99
ALL = "000001ffffffffff"
SETS = {"inh": "0000000000000000", "prm": ALL, "eff": ALL, "bnd": ALL, "amb": "0000000000000000"}
Row = dict[str, Any]


def four(value: object) -> str:
    return "\t".join(str(each) for each in (value if isinstance(value, list) else [value] * 4))


def kernel_name(name: str) -> str:
    """As a status file has it: the kernel escapes line feeds and backslashes."""
    return name.replace("\\", "\\\\").replace("\n", "\\n")


def status_text(row: Row) -> str:
    sets = {"Inh": "inh", "Prm": "prm", "Eff": "eff", "Bnd": "bnd", "Amb": "amb"}
    own = {**SETS, **row}
    lines = [f"Name:\t{kernel_name(own.get('name', 'daemon'))}", f"State:\t{own.get('state', 'S')} (sleeping)",
             f"Tgid:\t{own.get('pid', own['tid'])}", f"Pid:\t{own['tid']}", f"PPid:\t{own.get('parent', 1)}",
             "TracerPid:\t0",
             f"Uid:\t{four(own.get('uid', 0))}", f"Gid:\t{four(own.get('gid', 0))}",
             "Groups:\t" + " ".join(map(str, own.get("groups", []))) + " ",
             *(f"Cap{name}:\t{own[key]}" for name, key in sets.items()),
             f"NoNewPrivs:\t{int(own.get('nnp', False))}", f"Seccomp:\t{own.get('seccomp', 0)}",
             f"Seccomp_filters:\t{own.get('filters', 0)}", f"voluntary_ctxt_switches:\t{own.get('switches', 5)}",
             "nonvoluntary_ctxt_switches:\t0"]
    return "\n".join(lines) + "\n"


def stat_text(row: Row) -> str:
    fields = ["0"] * 17
    return (f"{row['tid']} ({row.get('name', 'daemon')}) {row.get('state', 'S')} {row.get('parent', 1)} "
            + " ".join(fields) + f" {row.get('started', row['tid'])} 0\n")


def put(root: str, path: str, text: str) -> None:
    whole = os.path.join(root, path)
    os.makedirs(os.path.dirname(whole), exist_ok=True)
    with open(whole, "wb") as file:
        file.write(text.encode("latin-1"))


def put_thread(root: str, row: Row) -> None:
    pid, tid = row.get("pid", row["tid"]), row["tid"]
    for folder in [f"{pid}/task/{tid}"] + ([str(pid)] if pid == tid else []):
        put(root, f"{folder}/status", status_text(row))
        put(root, f"{folder}/stat", stat_text(row))
        put(root, f"{folder}/syscall", row.get("waits", "230 0x0") + "\n")
        put(root, f"{folder}/cgroup", row.get("group", "0::/") + "\n")
        os.makedirs(os.path.join(root, folder, "ns"), exist_ok=True)
        for kind, initial in (("user", INITIAL_INODE), ("mnt", OWN_MOUNTS)):
            number = row.get("user" if kind == "user" else "mounts", initial)
            if number:
                os.symlink(f"{kind}:[{number}]", os.path.join(root, folder, "ns", kind))


def data(text: str) -> bytes:
    return text.encode("latin-1")


class StoredSystem:
    """A kernel of the text of a system, in a folder that the test gives."""

    def __init__(self, text: str, root: str) -> None:
        self.table: dict[str, Any] = tomllib.loads(text)
        self.proc, self.reader, self.release, self.root = Proc(root), READER, "6.1.0", root
        self.build()

    def close(self) -> None:
        """As that of the running kernel; nothing is kept here."""

    def rows(self, name: str) -> list[Row]:
        found: list[Row] = self.table.get(name, [])
        return found

    def build(self) -> None:
        """The folder anew, as the rows have it now."""
        shutil.rmtree(self.root, ignore_errors=True)
        os.makedirs(self.root)
        for row in self.rows("thread"):
            put_thread(self.root, row)

    def space_of(self, pid: int, tid: int, kind: str) -> int | None:
        told = self.proc.link(pid, f"task/{tid}/ns/{kind}")
        return None if told is None else int(told.partition("[")[2].rstrip("]"))

    def user_space(self, key: int) -> UserSpace:
        row = next(row for row in self.rows("space") if row["key"] == key)
        return UserSpace(key, row.get("parent", INITIAL_INODE), row["owner"], map_text(data(row.get("uid_map", ""))),
                         map_text(data(row.get("gid_map", ""))), row.get("setgroups", "allow"))

    def other_spaces(self) -> tuple[set[int], list[Trouble]]:
        troubles = [Trouble(data(row["name"]), row["why"]) for row in self.rows("hidden")]
        return {row["key"] for row in self.rows("space")} | {INITIAL_INODE}, troubles

    def owner_of_mounts(self, key: int) -> int:
        owners: dict[int,
                     int] = {row.get("key", OWN_MOUNTS): row.get("owner", INITIAL_INODE) for row in self.rows("mounts")}
        return owners[key]

    def count_of_mounts(self, key: int) -> int:
        return int(next(row.get("count", 0) for row in self.rows("mounts") if row.get("key", OWN_MOUNTS) == key))

    def interpreters(self) -> dict[str, str]:
        return {row["name"]: row["text"] for row in self.rows("binfmt")}

    def mount_table(self, key: int) -> bytes:
        return data(next(row["table"] for row in self.rows("mounts") if row.get("key", OWN_MOUNTS) == key))

    def program(self, row: Row) -> Program:
        return Program(data(row["path"]), row.get("uid", 0), row.get("gid", 0), 0o100000 | int(row["mode"], 8),
                       bytes.fromhex(row["caps"]) if "caps" in row else None, data(row.get("start", "\x7fELF")),
                       row.get("listed", False), row.get("mount", 1))

    def walk(self, key: int, start: bytes, mount: int, skip: frozenset[bytes]) -> Iterator[Program | Trouble | int]:
        def here(path: bytes) -> bool:
            return below(path, start) and not any(below(path, place) for place in skip)

        programs = [self.program(row) for row in self.rows("file") if row.get("mounts", OWN_MOUNTS) == key]
        programs = [each for each in programs if each.mount == mount and here(each.path)]
        yield from (each for each in programs if counts(each))
        troubles = [Trouble(data(row["path"]), row["why"]) for row in self.rows("trouble")]
        yield from (each for each in troubles if here(each.path))
        yield len(programs)

    def inodes(self, key: int, path: bytes) -> int:
        return max((row.get("inodes", 0) for row in self.rows("folder") if data(row["path"]) == path), default=0)

    def is_directory(self, key: int, path: bytes) -> bool:
        files = [data(row["path"]) for row in self.rows("file") if row.get("mounts", OWN_MOUNTS) == key]
        folders = [data(row["path"]) for row in self.rows("folder") if row.get("mounts", OWN_MOUNTS) == key]
        return path in folders or any(each != path and below(each, path) for each in files)

    def resolve(self, key: int, path: bytes) -> Program | Trouble:
        links = {data(row["path"]): data(row["to"]) for row in self.rows("link")}
        target = links.get(path, path)
        for row in self.rows("file"):
            if data(row["path"]) == target and row.get("mounts", OWN_MOUNTS) == key:
                return self.program(row)
        return Trouble(path, "No such file or directory")

    def directory_modes(self, key: int, path: bytes) -> list[tuple[bytes, int, int, int]]:
        return [(data(row["path"]), row.get("uid", 0), row.get("gid", 0),
                 int(row.get("mode", "0755"), 8)) for row in self.rows("folder")
                if below(path, data(row["path"])) and row.get("mounts", OWN_MOUNTS) == key]
