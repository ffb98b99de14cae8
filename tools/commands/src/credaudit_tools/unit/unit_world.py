"""The world of a unit: its processes as the service manager leaves them before they execute their programs, and the
log in which they do (systemd.exec(5)). What the execve makes of them, credaudit says.
"""
import os
from collections.abc import Iterable
from dataclasses import dataclass, field, replace

from ..command_line.printable import escaped, few
from ..evidence import premises
from ..evidence.evidence import Evidence
from ..formats.credential import Credential
from ..formats.kernel_names import ALL, NUMBERS
from ..formats.world_remarks import SCANNED, UNSCANNED
from ..formats.worlds import INITIAL, File, Map, Mount, Process, Space, World
from .unit_files import Unit
from .unit_settings import SHOWS_MORE, Settings

PID, PRIVATE = 100, "private"

# By what each premise that isn't of files, nor worked out by the answer itself, holds of a unit (systemd.exec(5)).
BY_SETTINGS = {
    premises.BIRTHS: "the processes are those that the service manager starts: what they start is asked about",
    premises.ANSWERS: "nothing was recorded: the log is the execve of each program, as the rules have it",
    premises.CREDENTIALS: "what the settings of the unit say, as the service manager carries them out",
    premises.MAPS: "PrivateUsers=, and the user namespaces of the scan",
    premises.FILTERS: "SystemCallFilter= holds for each process of the unit",
    premises.SECUREBITS: "SecureBits=",
    premises.GROUPS: "SupplementaryGroups=, and the groups of the user",
    premises.RINGS: "nothing of the unit runs yet, so none is there",
    premises.RECORDING: "the world is made at this call"}
SEARCH = ("/usr/local/sbin", "/usr/local/bin", "/usr/sbin", "/usr/bin", "/sbin", "/bin")
CHROOT = 1 << NUMBERS["CAP_SYS_CHROOT"]
EVERY_ID = 4294967295


@dataclass
class Made:
    """A world and its log, the evidence for it, and what isn't counted."""
    world: World
    log: bytes
    evidence: Evidence
    notes: list[str] = field(default_factory=list)


def maps_of(made: Settings) -> tuple[Map, Map] | None:
    """The maps of PrivateUsers=: root and the unit's own id, the first 65536 ids, or all."""
    if made.private_users is None:
        return None
    if made.private_users == "self":
        user, group = (((0, 0, 1), *(((own, own, 1),) if own else ())) for own in (made.uid, made.gid))
        return user, group
    whole = ((0, 0, 65536 if made.private_users == "identity" else EVERY_ID),)
    return whole, whole


def credential(made: Settings, as_root: bool) -> Credential:
    """A process before its execve; as root where its command says so. A user other than root keeps what is ambient; the
    rest goes by the execve."""
    uid, gid, groups = (0, 0, made.user_groups) if as_root else (made.uid, made.gid, made.groups)
    own = ALL if uid == 0 else made.ambient
    return Credential(uid=(uid,) * 4, gid=(gid,) * 4, groups=groups, inh=made.ambient, prm=own, eff=own,
                      bnd=made.bounding, amb=made.ambient, sec=made.securebits, nnp=made.no_new_privs)


# ---- files -----------------------------------------------------------------------------------------------------------


def is_below(path: str, folder: str) -> bool:
    """Whether a path is a folder, or lies below it."""
    return path == folder or path.startswith(folder.rstrip("/") + "/")


def fresh(word: str, taken: set[str]) -> str:
    """A name that isn't taken."""
    return next(name for name in (word, *(f"{word}-{number}" for number in range(2, len(taken) + 3)))
                if name not in taken)


@dataclass
class Tree:
    """The files of a scan, as a unit sees them."""
    root: str           # of the machine that is looked at
    rows: list[File]
    mounts: list[Mount]
    notes: list[str] = field(default_factory=list)
    shut: dict[str, str] = field(default_factory=dict)      # by mount the one with noexec

    def resolved(self, path: str) -> str | None:
        """Where a path leads to on the machine; None where nothing is there."""
        real = os.path.realpath(os.path.normpath(self.root + path))
        top = os.path.realpath(self.root)
        if not os.path.exists(real) or not is_below(real, top):
            return None
        return real.removeprefix(top.rstrip("/")) or "/"

    def place(self, made: Settings, word: str) -> str | None:
        """A path of ExecPaths= or NoExecPaths= on the machine; None where nothing is there."""
        word = word.removeprefix("-")
        inside = word.startswith("+")
        return self.resolved((made.root or "") + word.removeprefix("+") if inside else word)

    def without_execution(self, made: Settings) -> None:
        """ExecPaths= and NoExecPaths=: what lies below the latter, and not below a nearer one of the former, can't be
        executed. Where a path isn't there none of it is counted: nobody knows what it will be."""
        if not made.no_exec_paths:
            return
        places = [(self.place(made, word), closed, word) for closed, words in
                  ((True, made.no_exec_paths), (False, made.exec_paths)) for word in words]
        missing = [word for place, _, word in places if place is None]
        if missing:
            self.notes.append(f"NoExecPaths=, ExecPaths=: not counted, since {few([escaped(each) for each in missing])}"
                              " isn't there")
            return
        self.rows = [self.closed(row, [(place, closed) for place, closed, _ in places if place is not None])
                     for row in self.rows]
        self.notes.append("NoExecPaths=: a program that has another name elsewhere, by a link or a mount, isn't told"
                          " apart")

    def closed(self, row: File, places: Iterable[tuple[str, bool]]) -> File:
        """A file on a mount with noexec where the nearest path above it closes it."""
        above = [(len(place), not closed) for place, closed in places if is_below(row.path, place)]
        if not above or max(above)[1]:
            return row
        if row.mount not in self.shut:
            mount = next((each for each in self.mounts if each.name == row.mount), Mount(row.mount))
            name = fresh("noexec", {each.name for each in self.mounts})
            self.mounts.append(replace(mount, name=name, noexec=True))
            self.shut[row.mount] = name
        return replace(row, mount=self.shut[row.mount])

    def rooted(self, made: Settings, unit: Unit) -> None:
        """RootDirectory=: what lies below it, by its path there. Where the processes may leave the root directory, or
        more is shown in it, all files stay."""
        if made.root is None:
            return
        place, more = self.resolved(made.root), [key for key in SHOWS_MORE if any(unit.values(key))]
        as_root = made.uid == 0 or any(each.as_root for each in made.commands)
        may_leave = made.bounding & CHROOT and (as_root or made.ambient & CHROOT)
        if place is None or more or may_leave:
            why = "isn't there" if place is None else "shows more by other settings" if more else \
                "can be left by CAP_SYS_CHROOT"
            self.notes.append(f"RootDirectory=: not counted, since it {why}: all declared programs stay")
            return
        inside = [row for row in self.rows if is_below(row.path, place) and row.path != place]
        shorter = {row.path: row.path.removeprefix(place.rstrip("/")) for row in inside}
        self.rows = [replace(row, path=shorter[row.path],
                             interpreter=shorter.get(row.interpreter or "", row.interpreter)) for row in inside
                     if row.interpreter is None or row.interpreter in shorter]


def merged_rows(world: World, text: str) -> bool:
    """Whether a scan declared equal programs once: then a row stands for files of other paths too."""
    return any(line.startswith("# merged:") for line in text.split("\n"))


# ---- the whole -------------------------------------------------------------------------------------------------------


def executed(tree: Tree, made: Settings, command: str) -> str:
    """The declared file that a command executes, `-` where it is none."""
    paths = {row.path for row in tree.rows}
    tried = [command] if "/" in command else [f"{folder}/{command}" for folder in SEARCH]
    for path in tried:
        for each in (path, tree.resolved((made.root or "") + path)):
            if each is not None and each in paths:
                return each
    return "-"


def evidence_of(scan: Evidence | None) -> Evidence:
    """What the world of a unit rests on: its settings, and for its files a scan without doubts."""
    found = Evidence()
    for premise, by in BY_SETTINGS.items():
        found.establish(premise, by)
    if scan is not None and all(map(scan.holds, (premises.SCAN, premises.RECORDING))):
        found.add(scan, premises.OF_FILES)
    return found


def world_of(unit: Unit, made: Settings, files: World | None, text: str, scan: Evidence | None,
             root: str = "/") -> Made:
    """The world and the log of a unit; `files` is the world of a scan, `text` its text, `scan` its evidence."""
    tree = Tree(root, list(files.files) if files else [], list(files.mounts) if files else [])
    if files is not None and merged_rows(files, text) and (made.root or made.no_exec_paths):
        tree.notes.append("RootDirectory=, ExecPaths=, NoExecPaths=: not counted, since the scan declares equal"
                          " programs by one path (--merge)")
    elif files is not None:
        tree.without_execution(made)
        tree.rooted(made, unit)
    programs = list(dict.fromkeys((executed(tree, made, each.path), each.as_root) for each in made.commands)) \
        or [("-", False)]
    maps = maps_of(made)
    spaces = list(files.spaces) if files else []
    private = fresh(PRIVATE, {each.name for each in spaces})
    if maps is not None:
        spaces.append(Space(private, INITIAL, 0, *maps, creator_setfcap=True))
    rows = [Process(PID + number, credential(made, as_root), PID if number else None, private if maps else INITIAL)
            for number, (_, as_root) in enumerate(programs)]
    log = "".join(f"{PID + number} execve {path} = 0\n" for number, (path, _) in enumerate(programs))
    mounts = [each for each in tree.mounts if any(row.mount == each.name for row in tree.rows)]
    evidence = evidence_of(scan)
    remarks = [f"made by credaudit-unit of {escaped(unit.name)}",
               SCANNED if premises.SCAN in evidence.established else UNSCANNED]
    excluded = made.filter.excluded() if made.native else []
    world = World("script", spaces, mounts, tree.rows, rows, excluded or None, remarks)
    return Made(world, log.encode(), evidence, tree.notes)
