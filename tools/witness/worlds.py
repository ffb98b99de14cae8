"""Small worlds: what one says (docs/FORMATS.md), its text, and the family of a process. The text is the TOML that the
plain program reads too: one key a line, the tables in the order space, mount, file, process, filter."""
from dataclasses import dataclass, field

ALL = (1 << 41) - 1
NO_SETS = (0, 0, 0, 0)
CALLS = ("setuid setreuid setresuid setfsuid setgid setregid setresgid setfsgid setgroups capset bset_drop amb_raise"
         " amb_lower amb_clear securebits keepcaps no_new_privs fork clone_user unshare setns write_uid_map"
         " write_gid_map write_setgroups execve exit install").split()
CAPABILITIES = (
    "CHOWN DAC_OVERRIDE DAC_READ_SEARCH FOWNER FSETID KILL SETGID SETUID SETPCAP LINUX_IMMUTABLE NET_BIND_SERVICE"
    " NET_BROADCAST NET_ADMIN NET_RAW IPC_LOCK IPC_OWNER SYS_MODULE SYS_RAWIO SYS_CHROOT SYS_PTRACE SYS_PACCT SYS_ADMIN"
    " SYS_BOOT SYS_NICE SYS_RESOURCE SYS_TIME SYS_TTY_CONFIG MKNOD LEASE AUDIT_WRITE AUDIT_CONTROL SETFCAP MAC_OVERRIDE"
    " MAC_ADMIN SYSLOG WAKE_ALARM BLOCK_SUSPEND AUDIT_READ PERFMON BPF CHECKPOINT_RESTORE").split()
Lines = tuple[tuple[int, int, int], ...]
Four = tuple[int, int, int, int]


@dataclass(frozen=True)
class Space:
    """Of the initial one the number is 0, of the others the place in `World.spaces` and one more, the name `sN`."""
    parent: int
    owner: int
    uids: Lines | None
    gids: Lines | None
    deny: bool = False
    setfcap: bool = False


@dataclass(frozen=True)
class Mount:
    """The mount `mN`: the space that it belongs to, and whether it is mounted with nosuid."""
    space: int
    nosuid: bool


@dataclass(frozen=True)
class File:
    """On the mount `mN`, or on root where N is 0; `caps` has the permitted and inheritable set and effective bit."""
    mount: int
    uid: int
    gid: int
    mode: int
    caps: tuple[int, int, bool] | None = None


@dataclass(frozen=True)
class Process:
    """A process; without a parent it begins a family of its own."""
    pid: int
    parent: int | None
    space: int
    uid: Four
    gid: Four
    groups: tuple[int, ...] = ()
    sets: Four = NO_SETS        # permitted, effective, inheritable, ambient
    bounding: int = ALL
    sec: int = 0
    nnp: bool = False


Installs = tuple[tuple[int, frozenset[str]], ...]


@dataclass(frozen=True)
class World:
    """A small world, the calls that its filter excludes, and the filters that its processes then install: each a pid
    and the calls that it excludes from then on."""
    spaces: tuple[Space, ...] = ()
    mounts: tuple[Mount, ...] = ()
    files: tuple[File, ...] = ()
    processes: tuple[Process, ...] = ()
    exclude: frozenset[str] = field(default_factory=frozenset)
    installs: Installs = ()


@dataclass(frozen=True)
class Query:
    """Whether the family of a process can hold a right: `kind` is uid or gid, and `of` an id; or cap, of a space."""
    world: World
    pid: int
    kind: str
    of: int
    capability: int = 0

    def right(self) -> str:
        """The right, as the words of an audit have it."""
        if self.kind == "cap":
            return f"cap:CAP_{CAPABILITIES[self.capability]}@{space_name(self.of)}"
        return f"{self.kind}:{self.of}"


def space_name(number: int) -> str:
    """The name of a space."""
    return f"s{number}" if number else "init"


def family(world: World, pid: int) -> list[Process]:
    """The process and all that descend from it; a parent stands before its children."""
    members = {pid}
    for one in world.processes:
        if one.parent in members:
            members.add(one.pid)
    return [one for one in world.processes if one.pid in members]


def filter_of(world: World, pid: int) -> frozenset[str]:
    """The calls that the process's own filter excludes, after all installs."""
    return frozenset[str]().union(*(names for one, names in world.installs if one == pid))


def common(world: World, members: list[Process]) -> frozenset[str]:
    """What the world's filter excludes, and what the own filters of all members do."""
    return world.exclude | frozenset.intersection(*(filter_of(world, one.pid) for one in members))


def above(world: World, number: int) -> list[int]:
    """The space and those above it, the initial one last."""
    return [number, *above(world, world.spaces[number - 1].parent)] if number else [0]


# ---- maps ----------------------------------------------------------------------------------------------------------


EVERY_ID: Lines = ((0, 0, 4294967295),)


def down(lines: Lines | None, inside: int) -> int | None:
    """The outside id of an inside id, None where no line has it."""
    found = [first + inside - start for start, first, length in lines or () if start <= inside < start + length]
    return found[0] if found else None


def up(lines: Lines | None, outside: int) -> int | None:
    """The inside id of an outside id."""
    return down(tuple((first, start, length) for start, first, length in lines or ()), outside)


def stored(world: World, number: int, side: str) -> Lines | None:
    """A map with ids of the initial space as its outside ids; each of its ranges lies in one of the parent's."""
    if number == 0:
        return EVERY_ID
    space = world.spaces[number - 1]
    lines: Lines | None = space.uids if side == "uids" else space.gids
    parent = stored(world, space.parent, side)
    return lines and tuple((inside, down(parent, outside) or 0, length) for inside, outside, length in lines)


# ---- text ----------------------------------------------------------------------------------------------------------


def quoted(value: str) -> str:
    """A TOML string."""
    return f'"{value}"'


def flag(value: bool) -> str | None:
    """A flag that is set; one that isn't is left out."""
    return "true" if value else None


def row(table: str, **keys: object) -> str:
    """A row of a table: the keys that aren't None."""
    return f"[[{table}]]\n" + "".join(f"{key} = {value}\n" for key, value in keys.items() if value is not None)


def lines_text(lines: Lines | None) -> str | None:
    """A map, None where it isn't written."""
    return None if lines is None else str([list(line) for line in lines])


def caps_text(caps: tuple[int, int, bool]) -> str:
    """The attribute in version 2 (capabilities(7)): its words, the low byte first."""
    permitted, inheritable, effective = caps
    low = 0xffffffff
    words = (0x02000000 | effective, permitted & low, inheritable & low, permitted >> 32, inheritable >> 32)
    return b"".join(word.to_bytes(4, "little") for word in words).hex()


def space_text(number: int, space: Space) -> str:
    """The row of a space."""
    return row("space", name=quoted(space_name(number)), parent=quoted(space_name(space.parent)), owner=space.owner,
               uid_map=lines_text(space.uids), gid_map=lines_text(space.gids),
               setgroups=quoted("deny") if space.deny else None, creator_setfcap=flag(space.setfcap))


def mount_text(number: int, mount: Mount) -> str:
    """The row of a mount."""
    return row("mount", name=quoted(f"m{number}"), space=quoted(space_name(mount.space)), nosuid=flag(mount.nosuid))


def file_text(number: int, file: File) -> str:
    """The row of a file."""
    return row("file", path=quoted(f"/f{number}"), mount=quoted(f"m{file.mount}") if file.mount else None, uid=file.uid,
               gid=file.gid, mode=quoted(f"{file.mode:04o}"), caps=file.caps and quoted(caps_text(file.caps)))


def process_text(process: Process) -> str:
    """The row of a process."""
    sets = (quoted(f"{one:016x}") for one in (*process.sets, process.bounding))
    names = ("permitted", "effective", "inheritable", "ambient", "bounding")
    return row("process", pid=process.pid, parent=process.parent, space=quoted(space_name(process.space)),
               uid=list(process.uid), gid=list(process.gid), groups=list(process.groups) if process.groups else None,
               **dict(zip(names, sets)), securebits=process.sec, no_new_privs=flag(process.nnp))


def text(world: World) -> str:
    """The text of a world."""
    tables = [space_text(number, one) for number, one in enumerate(world.spaces, 1)]
    tables += [mount_text(number, one) for number, one in enumerate(world.mounts, 1)]
    tables += [file_text(number, one) for number, one in enumerate(world.files)]
    tables += map(process_text, world.processes)
    if world.exclude:
        tables.append(f"[filter]\nexclude = [{', '.join(map(quoted, sorted(world.exclude)))}]\n")
    return 'log = "script"\n' + "".join(tables)


def log(world: World) -> str:
    """The script in which the processes install their filters."""
    lines = (" ".join((str(pid), "install", *(name for name in CALLS if name in names), "= 0"))
             for pid, names in world.installs)
    return "".join(f"{line}\n" for line in lines)
