"""Reads a world (FORMATS.md, "World"): its tables in their order, and of each row its first refusal."""
import re
from typing import Any

from .ends import limit
from ..rules.capabilities import ALL, caps_of, subset
from ..rules.ids import IDENTITY, IdMap, MapLine, is_map, taken_down
from ..rules.machine import CALLS, INITIAL, Attribute, Credential, File, Ids4, Mount, Process, Space, State, World
from . import tables
from .tables import Table, bad
from .toml import MOST_BYTES, read_toml

LIMITS = {"space": ("spaces", 255, 256), "mount": ("mounts", 63, 64), "file": ("files", 4096, 4096),
          "process": ("processes", 4096, 4096)}
DEEPEST = 32


def lines_of(value: Any) -> list[MapLine]:
    """The lines of a map as they are declared."""
    return [(line[0], line[1], line[2]) for line in value]


def attribute_of(text: str) -> Attribute | None:
    """The attribute that hexadecimal text tells; None where it is none."""
    if not re.fullmatch(r"([0-9a-fA-F]{2})*", text):
        return None
    data = bytes.fromhex(text)
    if len(data) not in (20, 24):
        return None
    words = [int.from_bytes(data[at:at + 4], "little") for at in range(0, len(data), 4)]
    version = 0x02000000 if len(data) == 20 else 0x03000000
    if words[0] not in (version, version + 1):
        return None
    permitted, inheritable = (words[1] | words[3] << 32) & ALL, (words[2] | words[4] << 32) & ALL
    return Attribute(permitted, inheritable, words[0] != version, words[5] if len(words) == 6 else 0)


class Reader:
    """The world as far as it has been read."""

    def __init__(self, whole: Table) -> None:
        self.whole = whole
        self.spaces = [INITIAL]
        self.levels = [0]
        self.names = ["init"]
        self.mounts = {"root": Mount()}
        self.files: dict[bytes, File] = {}
        self.processes: dict[int, Process] = {}
        self.excluded: frozenset[str] = frozenset()

    def read(self) -> World:
        """All tables, one after another."""
        for table, job in (("space", self.space), ("mount", self.mount), ("file", self.file),
                           ("process", self.process)):
            rows = self.whole.get(table, [])
            name, most, told = LIMITS[table]
            if len(rows) > most:
                raise limit(name, told)
            for number, row in enumerate(rows, 1):
                job(number, row)
        self.filter(self.whole.get("filter", {}))
        state = State(dict(sorted(self.processes.items())), self.spaces)
        return World(self.whole["log"], state, self.names, self.files, self.excluded)

    def space(self, number: int, value: object) -> None:
        """A row of `space`."""
        row = tables.look("space", number, value, tables.SPACE, ("name", "parent", "owner"))
        if not tables.is_name(row["name"]):
            raise bad("space", number, "BadName")
        if row["name"] in self.names:
            raise bad("space", number, "TwiceNamed")
        if row["parent"] not in self.names:
            raise bad("space", number, "NoSuchParent")
        parent = self.names.index(row["parent"])
        if not all(is_map(lines_of(row[key])) for key in ("uid_map", "gid_map") if key in row):
            raise bad("space", number, "BadMap")
        maps: list[IdMap | None] = []
        for key, through in (("uid_map", self.spaces[parent].uid_map), ("gid_map", self.spaces[parent].gid_map)):
            maps.append(taken_down(lines_of(row[key]), through) if key in row else None)
            if key in row and maps[-1] is None:
                raise bad("space", number, "NotMapped")
        if self.levels[parent] == DEEPEST:
            raise bad("space", number, "TooDeep")
        self.spaces.append(Space(parent, row["owner"], maps[0], maps[1], row.get("setgroups", "allow"),
                                 row.get("creator_setfcap", False)))
        self.levels.append(self.levels[parent] + 1)
        self.names.append(row["name"])

    def mount(self, number: int, value: object) -> None:
        """A row of `mount`."""
        row = tables.look("mount", number, value, tables.MOUNT, ("name",))
        if not tables.is_name(row["name"]):
            raise bad("mount", number, "BadName")
        if row["name"] in self.mounts:
            raise bad("mount", number, "TwiceNamed")
        space = row.get("space", "init")
        if space not in self.names:
            raise bad("mount", number, "NoSuchSpace")
        maps = {key: tuple(lines_of(row[key])) for key in ("fs_uid_map", "fs_gid_map", "uid_map", "gid_map")
                if key in row}
        if not all(map(is_map, maps.values())):
            raise bad("mount", number, "BadMap")
        self.mounts[row["name"]] = Mount(
            self.names.index(space), row.get("nosuid", False), row.get("noexec", False),
            maps.get("fs_uid_map", IDENTITY), maps.get("fs_gid_map", IDENTITY),
            (maps["uid_map"], maps["gid_map"]) if "uid_map" in maps else None)

    def file(self, number: int, value: object) -> None:
        """A row of `file`."""
        row = tables.look("file", number, value, tables.FILE, ("path", "uid", "gid", "mode"))
        path = row["path"].encode("utf-8")
        if not tables.is_path(path):
            raise bad("file", number, "BadName")
        if path in self.files:
            raise bad("file", number, "TwiceNamed")
        if row.get("mount", "root") not in self.mounts:
            raise bad("file", number, "NoSuchMount")
        interpreter = None
        if "interpreter" in row:
            interpreter = self.files.get(row["interpreter"].encode("utf-8"))
            if interpreter is None or interpreter.interpreter is not None:
                raise bad("file", number, "NoInterpreter")
        if not re.fullmatch("[0-7]{1,4}", row["mode"]):
            raise bad("file", number, "BadMode")
        attribute = attribute_of(row["caps"]) if "caps" in row else None
        if "caps" in row and attribute is None:
            raise bad("file", number, "BadCaps")
        self.files[path] = File(self.mounts[row.get("mount", "root")], row["uid"], row["gid"], int(row["mode"], 8),
                                attribute, interpreter)

    def process(self, number: int, value: object) -> None:
        """A row of `process`."""
        row = tables.look("process", number, value, tables.PROCESS, ("pid",))
        if row["pid"] in self.processes:
            raise bad("process", number, "TwiceNamed")
        if "parent" in row and row["parent"] not in self.processes:
            raise bad("process", number, "NoSuchParent")
        space = row.get("space", "init")
        if space not in self.names:
            raise bad("process", number, "NoSuchSpace")
        user, group = (Ids4(*(ids if isinstance(ids, list) else [ids] * 4))
                       for ids in (row.get("uid", 0), row.get("gid", 0)))
        root = "all" if user.effective == 0 else "none"
        sets = {key: caps_of(row.get(key, default)) for key, default in (
            ("permitted", root), ("effective", root), ("inheritable", "none"), ("ambient", "none"),
            ("bounding", "all"))}
        if None in sets.values():
            raise bad("process", number, "BadCaps")
        inheritable, permitted, effective, bounding, ambient = (
            sets[key] or 0 for key in ("inheritable", "permitted", "effective", "bounding", "ambient"))
        if not subset(effective, permitted) or not subset(ambient, permitted & inheritable):
            raise bad("process", number, "NotIncluded")
        cred = Credential(user, group, frozenset(row.get("groups", ())), inheritable, permitted, effective, bounding,
                          ambient, row.get("securebits", 0), row.get("no_new_privs", False))
        self.processes[row["pid"]] = Process(row.get("parent"), self.names.index(space), cred)

    def filter(self, value: object) -> None:
        """The table `filter`."""
        row = tables.look("filter", 0, value, tables.FILTER, ())
        if not all(name in CALLS for name in row.get("exclude", ())):
            raise bad("filter", 0, "NoSuchCall")
        self.excluded = frozenset(row.get("exclude", ()))


def read_world(data: bytes) -> World:
    """The world that a text declares; its first refusal or limit is raised."""
    if len(data) > MOST_BYTES:
        raise limit("world", MOST_BYTES)
    return Reader(tables.look("whole", 0, read_toml(data), tables.WHOLE, ("log",))).read()
