"""What is spoken of: spaces, mounts, files, credentials, processes, worlds and states (RULES.md, "Words")."""
from dataclasses import dataclass, field, replace

from .ids import IDENTITY, IdMap, down

NOROOT, NOROOT_LOCK, NO_SETUID_FIXUP, KEEP_CAPS, KEEP_CAPS_LOCK, NO_AMBIENT_RAISE = 0x01, 0x02, 0x04, 0x10, 0x20, 0x40

CALLS = (
    "setuid setfsuid setgid setfsgid setreuid setregid setresuid setresgid setgroups capset bset_drop amb_raise"
    " amb_lower amb_clear securebits keepcaps no_new_privs fork clone_user unshare setns write_uid_map write_gid_map"
    " write_setgroups execve exit install").split()


@dataclass(frozen=True)
class Space:
    """A user namespace. Outside ids of its maps are as the initial space sees them; None is a map not written."""
    parent: int | None
    owner: int
    uid_map: IdMap | None
    gid_map: IdMap | None
    word: str = "allow"
    creator_setfcap: bool = False

    def zero(self) -> int | None:
        """Its inside 0."""
        return down(self.uid_map, 0)


@dataclass(frozen=True)
class Mount:
    """A mount; its maps take ids of the filesystem to ids of the initial space."""
    space: int = 0
    nosuid: bool = False
    noexec: bool = False
    fs_uid_map: IdMap = IDENTITY
    fs_gid_map: IdMap = IDENTITY
    idmap: tuple[IdMap, IdMap] | None = None


@dataclass(frozen=True)
class Attribute:
    """An attribute security.capability."""
    permitted: int
    inheritable: int
    effective: bool
    root: int


@dataclass(frozen=True)
class File:
    """A declared file; its ids are as declared."""
    mount: Mount
    uid: int
    gid: int
    mode: int
    attribute: Attribute | None = None
    interpreter: "File | None" = None


@dataclass(frozen=True)
class Ids4:
    """Real, effective, saved and fs id."""
    real: int
    effective: int
    saved: int
    fs: int

    def three(self) -> tuple[int, int, int]:
        """All but the fs id."""
        return self.real, self.effective, self.saved


@dataclass(frozen=True)
class Credential:
    """What a process has."""
    user: Ids4
    group: Ids4
    groups: frozenset[int]
    inheritable: int
    permitted: int
    effective: int
    bounding: int
    ambient: int
    securebits: int
    no_new_privs: bool


@dataclass(frozen=True)
class Process:
    """A live process: its forebear, its space, its credential, and the calls that its own filter excludes."""
    forebear: int | None
    space: int
    cred: Credential
    filter: frozenset[str] = frozenset()


@dataclass
class State:
    """Processes by pid, and spaces by number."""
    processes: dict[int, Process]
    spaces: list[Space]

    def chain(self, space: int) -> list[int]:
        """A space, its parent, and so on to the initial one."""
        found = [space]
        while (parent := self.spaces[found[-1]].parent) is not None:
            found.append(parent)
        return found

    def level(self, space: int) -> int:
        """The number of spaces above one."""
        return len(self.chain(space)) - 1

    def over(self, process: Process, capability: int, space: int) -> bool:
        """Whether a process has a capability over a space (RULES.md, "Power over spaces")."""
        at: int | None = space
        while at is not None:
            parent = self.spaces[at].parent
            if at == process.space and process.cred.effective & capability:
                return True
            if parent == process.space and self.spaces[at].owner == process.cred.user.effective:
                return True
            at = parent
        return False

    def family(self, pid: int) -> list[int]:
        """A process and each live one whose chain of forebears reaches it."""
        found = []
        for one in self.processes:
            at: int | None = one
            seen = set()
            while at is not None and at != pid and at in self.processes and at not in seen:
                seen.add(at)
                at = self.processes[at].forebear
            if at == pid:
                found.append(one)
        return found

    def free_pid(self) -> int | None:
        """The least pid that isn't alive."""
        pid = 1
        while pid in self.processes:
            pid += 1
        return pid if pid <= 4194304 else None


@dataclass
class World:
    """What a world declares; paths as bytes."""
    log: str
    state: State
    names: list[str]                                    # of the spaces, "init" first
    files: dict[bytes, File] = field(default_factory=dict)
    excluded: frozenset[str] = frozenset()

    def space_token(self, number: int) -> str:
        """How a space is told."""
        return self.names[number] if number < len(self.names) else f"#{number}"


INITIAL = Space(None, 0, IDENTITY, IDENTITY)


def newcomer(cred: Credential, everything: int) -> Credential:
    """The credential of who comes into a space."""
    return replace(cred, inheritable=0, permitted=everything, effective=everything, bounding=everything, ambient=0,
                   securebits=0)
