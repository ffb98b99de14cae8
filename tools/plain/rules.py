"""The rules of docs/RULES.md as a plain program, written from their text alone: a second writing of them, by which
recordings of a kernel can be judged without credaudit. It knows nothing of texts but numbers, and nothing is proved of
it.

A state has processes, each a space and a credential, and spaces by number. `Rules(files).answer` gives what the rules
answer to a call of a process, and the state after it. Ids are those of the initial space, None for no id; a map is a
list of (inside, outside, length), or None while it isn't written; sets are numbers, bit k for capability k.
"""
from collections.abc import Callable, Mapping
from dataclasses import dataclass, field, replace
from typing import NamedTuple

CAPABILITIES = (
    "CHOWN DAC_OVERRIDE DAC_READ_SEARCH FOWNER FSETID KILL SETGID SETUID SETPCAP LINUX_IMMUTABLE NET_BIND_SERVICE"
    " NET_BROADCAST NET_ADMIN NET_RAW IPC_LOCK IPC_OWNER SYS_MODULE SYS_RAWIO SYS_CHROOT SYS_PTRACE SYS_PACCT SYS_ADMIN"
    " SYS_BOOT SYS_NICE SYS_RESOURCE SYS_TIME SYS_TTY_CONFIG MKNOD LEASE AUDIT_WRITE AUDIT_CONTROL SETFCAP MAC_OVERRIDE"
    " MAC_ADMIN SYSLOG WAKE_ALARM BLOCK_SUSPEND AUDIT_READ PERFMON BPF CHECKPOINT_RESTORE").split()
ALL = (1 << len(CAPABILITIES)) - 1
MINUS_ONE = 4294967295      # no id
OVERFLOW = 65534            # what an id without a mapping is seen as
MOST_GROUPS, MOST_LINES = 65536, 340
NOROOT, NO_SETUID_FIXUP, KEEP_CAPS, NO_CAP_AMBIENT_RAISE = 0x01, 0x04, 0x10, 0x40
FLAGS = NOROOT | NO_SETUID_FIXUP | KEEP_CAPS | NO_CAP_AMBIENT_RAISE
REAL, EFFECTIVE, SAVED, FS = range(4)
Ids = tuple[int, ...]       # real, effective, saved, fs
Line = tuple[int, int, int]     # of a map: inside, outside, length
Lines = tuple[Line, ...]
Argument = int | bytes | str | Line


def cap(name: str) -> int:
    """The set of one capability, by its name without CAP_."""
    return 1 << CAPABILITIES.index(name)


SETUID, SETGID, SETPCAP, SYS_ADMIN, SETFCAP, DAC_OVERRIDE = map(
    cap, ("SETUID", "SETGID", "SETPCAP", "SYS_ADMIN", "SETFCAP", "DAC_OVERRIDE"))
OF_FS_IDS = sum(map(cap, ("CHOWN", "DAC_OVERRIDE", "DAC_READ_SEARCH", "FOWNER", "FSETID", "LINUX_IMMUTABLE",
                          "MAC_OVERRIDE", "MKNOD")))


class Refused(Exception):
    """Its word is the error."""


def unless(good: object, error: str) -> None:
    """Refused by that error unless it is so."""
    if not good:
        raise Refused(error)


# ---- what is spoken of ---------------------------------------------------------------------------------------------


@dataclass(frozen=True)
class Credential:
    """What a process holds: its ids, its groups, five sets of capabilities, securebits and no_new_privs."""
    uid: Ids
    gid: Ids
    groups: frozenset[int]
    inh: int
    prm: int
    eff: int
    bnd: int
    amb: int
    sec: int
    nnp: bool

    def has(self, capability: int) -> bool:
        """Whether the effective set has the capability."""
        return bool(self.eff & capability)


Member = tuple[int, Credential]     # the number of its space, and its credential


@dataclass(frozen=True)
class Space:
    """A user namespace."""
    parent: int | None      # None of the initial one
    owner: int
    uids: Lines | None
    gids: Lines | None
    deny: bool
    setfcap: bool   # whether its maker had CAP_SETFCAP


EVERY_ID = ((0, 0, MINUS_ONE),)
INITIAL = Space(None, 0, EVERY_ID, EVERY_ID, False, False)


@dataclass(frozen=True)
class Mount:
    """A mount: the space that it belongs to, its options, and the maps of its filesystem and its own."""
    space: int
    nosuid: bool
    noexec: bool
    fs: tuple[Lines, Lines]             # the filesystem's maps, of users and of groups
    maps: tuple[Lines, Lines] | None    # the mount's


class Attribute(NamedTuple):
    """What the attribute security.capability of a file says."""
    permitted: int
    inheritable: int
    effective: bool
    root: int


NO_ATTRIBUTE = Attribute(0, 0, False, 0)


@dataclass(frozen=True)
class File:
    """A file: its ids are those that its filesystem stores."""
    mount: Mount
    uid: int
    gid: int
    mode: int
    caps: Attribute | None
    interpreter: bytes | None       # the path of the file that runs it


@dataclass(frozen=True)
class State:
    """All processes by pid, all spaces by number, and by pid the calls that a process's own filter excludes, where it
    has one."""
    processes: dict[int, Member]
    spaces: tuple[Space, ...]
    filters: dict[int, frozenset[str]] = field(default_factory=dict)

    def filter_of(self, pid: int) -> frozenset[str]:
        """The calls that the process's own filter excludes."""
        return self.filters.get(pid, frozenset())

    def with_filter(self, pid: int, own: frozenset[str]) -> "State":
        """The state where the process has that filter."""
        others = {one: filter_ for one, filter_ in self.filters.items() if one != pid}
        return replace(self, filters={**others, pid: own} if own else others)


class Call(NamedTuple):
    """A call as the rules take it: ids, numbers, sets and spaces are numbers, of maps the lines stand one by one, the
    word of setgroups is whether it is deny, of execve there is a path, and of install the names of calls."""
    name: str
    arguments: tuple[Argument, ...] = ()


Answer = tuple[str, Credential | State]     # the result, and what the caller's credential, or all, is after it


def down(lines: Lines | None, inside: int | None) -> int | None:
    """The outside id of an inside id, None where no line has it."""
    for first, outside, length in lines or ():
        if inside is not None and first <= inside < first + length:
            return outside + (inside - first)
    return None


def up(lines: Lines | None, outside: int | None) -> int | None:
    """The inside id of an outside id, None where no line has it."""
    for inside, first, length in lines or ():
        if outside is not None and first <= outside < first + length:
            return inside + (outside - first)
    return None


def taken_down(lines: Lines, above: Lines | None) -> Lines:
    """Lines whose outside ids are those of a parent, with ids of the initial space in their place, by the parent's map
    `above`. A line that begins outside of it is left out."""
    pairs = ((line, down(above, line[1])) for line in lines)
    return tuple((inside, outside, length) for (inside, _, length), outside in pairs if outside is not None)


def is_map(lines: Lines) -> bool:
    """Whether a list may be written as a map (user_namespaces(7))."""
    def meet(one: Line, other: Line, side: int) -> bool:
        return one[side] < other[side] + other[2] and other[side] < one[side] + one[2]

    pairs = ((one, other) for at, one in enumerate(lines) for other in lines[:at])
    return (1 <= len(lines) <= MOST_LINES
            and all(line[2] > 0 and line[0] + line[2] <= MINUS_ONE and line[1] + line[2] <= MINUS_ONE for line in lines)
            and not any(meet(one, other, side) for one, other in pairs for side in (0, 1)))


def lies_in(lines: Lines | None, line: Line) -> bool:
    """Whether the outside range of a line lies in one line of the map above it."""
    return any(inside <= line[1] and line[1] + line[2] <= inside + length for inside, _, length in lines or ())


def within(one: int, other: int) -> bool:
    """Whether a set is within the other."""
    return one & ~other == 0


# ---- the rules -----------------------------------------------------------------------------------------------------


class Rules:
    """The rules, over the files that are declared, by path. Each call is the method of its name; what it refuses is
    raised as Refused."""
    DEEPEST, SECUREBITS = 32, 0xff

    def __init__(self, files: Mapping[bytes, File] | None = None) -> None:
        self.files = files or {}

    def answer(self, state: State, pid: int, call: Call, child: int = 0) -> tuple[str, State]:
        """The result, and the state after it; a child that is born has the pid `child`. A call that the caller's own
        filter excludes is refused before all else."""
        if call.name in state.filter_of(pid):
            return "EPERM", state
        self.state, self.pid, self.child = state, pid, child
        self.number, cred = state.processes[pid]
        self.space = state.spaces[self.number]
        rule: Callable[..., Answer] = getattr(self, call.name)
        try:
            result, after = rule(cred, *call.arguments)
        except Refused as refused:
            return str(refused), state
        return result, after if isinstance(after, State) else self.with_process(state, pid, self.number, after)

    def with_process(self, state: State, pid: int, number: int, cred: Credential) -> State:
        """The state with that process in the place of one of its pid, or as a new one."""
        return replace(state, processes={**state.processes, pid: (number, cred)})

    # ---- ids (setresuid(2), setreuid(2), setuid(2), setfsuid(2)): the same for users and for groups

    def mapped(self, lines: Lines | None, given: int) -> int:
        """The outside id of one that is given."""
        outside = down(lines, given)
        if outside is None:
            raise Refused("EINVAL")
        return outside

    def asked(self, lines: Lines | None, given: int, now: int) -> int:
        """The same, where -1 asks for what there is."""
        return now if given == MINUS_ONE else self.mapped(lines, given)

    def three(self, ids: Ids, lines: Lines | None, power: bool, *given: int) -> Ids:
        """The ids after setresuid, with the power to set any or without."""
        new = [self.asked(lines, one, now) for one, now in zip(given, ids)]
        unless(power or all(one == MINUS_ONE or asked in ids[:FS] for one, asked in zip(given, new)), "EPERM")
        return (*new, new[EFFECTIVE])

    def two(self, ids: Ids, lines: Lines | None, power: bool, real: int, effective: int) -> Ids:
        """The ids after setreuid."""
        new = [self.asked(lines, one, now) for one, now in zip((real, effective), ids)]
        unless(power or real == MINUS_ONE or new[REAL] in ids[:SAVED], "EPERM")
        unless(power or effective == MINUS_ONE or new[EFFECTIVE] in ids[:FS], "EPERM")
        moves = real != MINUS_ONE or (effective != MINUS_ONE and new[EFFECTIVE] != ids[REAL])
        return (*new, new[EFFECTIVE] if moves else ids[SAVED], new[EFFECTIVE])

    def one(self, ids: Ids, lines: Lines | None, power: bool, given: int) -> Ids:
        """The ids after setuid."""
        new = self.mapped(lines, given)
        unless(power or new in (ids[REAL], ids[SAVED]), "EPERM")
        return (new,) * 4 if power else (ids[REAL], new, ids[SAVED], new)

    def fs(self, ids: Ids, lines: Lines | None, power: bool, given: int) -> tuple[int, Ids]:
        """What setfsuid answers, the fs id before, and the ids after it."""
        new = down(lines, given)
        seen = up(lines, ids[FS])
        fs = new if new is not None and (power or new in ids) else ids[FS]
        return OVERFLOW if seen is None else seen, (*ids[:FS], fs)

    def with_users(self, cred: Credential, kind: Callable[..., Ids], given: tuple[int, ...]) -> Answer:
        """The answer of a call of that kind on the user ids."""
        return "0", self.fixed_up(cred, kind(cred.uid, self.space.uids, cred.has(SETUID), *given))

    def with_groups(self, cred: Credential, kind: Callable[..., Ids], given: tuple[int, ...]) -> Answer:
        """The same on the group ids, which leave the sets as they are."""
        return "0", replace(cred, gid=kind(cred.gid, self.space.gids, cred.has(SETGID), *given))

    def setresuid(self, cred: Credential, *given: int) -> Answer:
        """setresuid(2)."""
        return self.with_users(cred, self.three, given)

    def setreuid(self, cred: Credential, *given: int) -> Answer:
        """setreuid(2)."""
        return self.with_users(cred, self.two, given)

    def setuid(self, cred: Credential, *given: int) -> Answer:
        """setuid(2)."""
        return self.with_users(cred, self.one, given)

    def setresgid(self, cred: Credential, *given: int) -> Answer:
        """setresgid(2)."""
        return self.with_groups(cred, self.three, given)

    def setregid(self, cred: Credential, *given: int) -> Answer:
        """setregid(2)."""
        return self.with_groups(cred, self.two, given)

    def setgid(self, cred: Credential, *given: int) -> Answer:
        """setgid(2)."""
        return self.with_groups(cred, self.one, given)

    def setfsuid(self, cred: Credential, given: int) -> Answer:
        """setfsuid(2)."""
        was, ids = self.fs(cred.uid, self.space.uids, cred.has(SETUID), given)
        return str(was), self.fs_fixed_up(cred, ids)

    def setfsgid(self, cred: Credential, given: int) -> Answer:
        """setfsgid(2)."""
        was, ids = self.fs(cred.gid, self.space.gids, cred.has(SETGID), given)
        return str(was), replace(cred, gid=ids)

    def is_zero(self, uid: int | None) -> bool:
        """Whether it is the inside 0 of the caller's space."""
        return uid is not None and uid == down(self.space.uids, 0)

    def fixed_up(self, cred: Credential, ids: Ids) -> Credential:
        """The credential with these user ids, and what that does to the sets (capabilities(7))."""
        new = replace(cred, uid=ids)
        was_zero, is_zero = self.is_zero(cred.uid[EFFECTIVE]), self.is_zero(ids[EFFECTIVE])
        if cred.sec & NO_SETUID_FIXUP:
            return new
        if any(map(self.is_zero, cred.uid[:FS])) and not any(map(self.is_zero, ids[:FS])):
            new = replace(new, amb=0)
            if not cred.sec & KEEP_CAPS:
                new = replace(new, prm=0, eff=0)
        if was_zero and not is_zero:
            new = replace(new, eff=0)
        if is_zero and not was_zero:
            new = replace(new, eff=new.prm)
        return new

    def fs_fixed_up(self, cred: Credential, ids: Ids) -> Credential:
        """The same of another fs id."""
        new, was_zero, is_zero = replace(cred, uid=ids), self.is_zero(cred.uid[FS]), self.is_zero(ids[FS])
        if not cred.sec & NO_SETUID_FIXUP and was_zero and not is_zero:
            new = replace(new, eff=cred.eff & ~OF_FS_IDS)
        if not cred.sec & NO_SETUID_FIXUP and is_zero and not was_zero:
            new = replace(new, eff=cred.eff | (cred.prm & OF_FS_IDS))
        return new

    def setgroups(self, cred: Credential, *given: int) -> Answer:
        """setgroups(2)."""
        unless(cred.has(SETGID) and self.space.gids is not None and not self.space.deny, "EPERM")
        unless(len(given) <= MOST_GROUPS, "EINVAL")
        return "0", replace(cred, groups=frozenset(self.mapped(self.space.gids, one) for one in given))

    # ---- capset(2), prctl(2)

    def capset(self, cred: Credential, eff: int, prm: int, inh: int) -> Answer:
        """capset(2)."""
        eff, prm, inh = eff & ALL, prm & ALL, inh & ALL
        unless(cred.has(SETPCAP) or within(inh, cred.inh | cred.prm), "EPERM")
        unless(within(inh, cred.inh | cred.bnd) and within(prm, cred.prm) and within(eff, prm), "EPERM")
        return "0", replace(cred, eff=eff, prm=prm, inh=inh, amb=cred.amb & prm & inh)

    def bset_drop(self, cred: Credential, number: int) -> Answer:
        """PR_CAPBSET_DROP."""
        unless(cred.has(SETPCAP), "EPERM")
        unless(number < len(CAPABILITIES), "EINVAL")
        return "0", replace(cred, bnd=cred.bnd & ~(1 << number))

    def amb_raise(self, cred: Credential, number: int) -> Answer:
        """PR_CAP_AMBIENT_RAISE."""
        unless(number < len(CAPABILITIES), "EINVAL")
        unless(cred.prm & cred.inh & 1 << number and not cred.sec & NO_CAP_AMBIENT_RAISE, "EPERM")
        return "0", replace(cred, amb=cred.amb | 1 << number)

    def amb_lower(self, cred: Credential, number: int) -> Answer:
        """PR_CAP_AMBIENT_LOWER."""
        unless(number < len(CAPABILITIES), "EINVAL")
        return "0", replace(cred, amb=cred.amb & ~(1 << number))

    def amb_clear(self, cred: Credential) -> Answer:
        """PR_CAP_AMBIENT_CLEAR_ALL."""
        return "0", replace(cred, amb=0)

    def securebits(self, cred: Credential, bits: int) -> Answer:
        """PR_SET_SECUREBITS."""
        locks = cred.sec & FLAGS << 1
        unless(cred.has(SETPCAP) and within(bits, self.SECUREBITS), "EPERM")
        unless(within(locks, bits) and not (bits ^ cred.sec) & locks >> 1, "EPERM")
        return "0", replace(cred, sec=bits)

    def keepcaps(self, cred: Credential, number: int) -> Answer:
        """PR_SET_KEEPCAPS."""
        unless(number <= 1, "EINVAL")
        unless(not cred.sec & KEEP_CAPS << 1, "EPERM")
        return "0", replace(cred, sec=cred.sec | KEEP_CAPS if number else cred.sec & ~KEEP_CAPS)

    def no_new_privs(self, cred: Credential, number: int) -> Answer:
        """PR_SET_NO_NEW_PRIVS."""
        unless(number == 1, "EINVAL")
        return "0", replace(cred, nnp=True)

    # ---- filters (seccomp(2))

    def install(self, cred: Credential, *names: str) -> Answer:
        """seccomp(2), SECCOMP_SET_MODE_FILTER: the caller's filter excludes these calls too, but exit."""
        unless(cred.nnp or cred.has(SYS_ADMIN), "EACCES")
        own = self.state.filter_of(self.pid) | frozenset(names) - {"exit"}
        return "0", self.state.with_filter(self.pid, own)

    # ---- births and exits

    def born(self, state: State, number: int, cred: Credential) -> State:
        """The state with the child, which has its parent's filter."""
        return self.with_process(state, self.child, number, cred).with_filter(self.child, state.filter_of(self.pid))

    def fork(self, cred: Credential) -> Answer:
        """fork(2): the child is as its parent."""
        return str(self.child), self.born(self.state, self.number, cred)

    def exit(self, _: Credential) -> Answer:
        """The end of the caller."""
        left = {pid: one for pid, one in self.state.processes.items() if pid != self.pid}
        return "0", replace(self.state, processes=left).with_filter(self.pid, frozenset())

    # ---- power over spaces (user_namespaces(7), "Capabilities")

    def over(self, member: Member, capability: int, target: int) -> bool:
        """Whether a member has the capability over that space."""
        number, cred = member
        space = self.state.spaces[target]
        return ((target == number and cred.has(capability))
                or (space.parent == number and space.owner == cred.uid[EFFECTIVE])
                or (space.parent is not None and self.over(member, capability, space.parent)))

    def level(self, number: int) -> int:
        """How many spaces are above that one."""
        parent = self.state.spaces[number].parent
        return 0 if parent is None else 1 + self.level(parent)

    def is_below(self, number: int, above: int) -> bool:
        """Whether a space is that one or a descendant of it."""
        parent = self.state.spaces[number].parent
        return number == above or (parent is not None and self.is_below(parent, above))

    def above(self, number: int) -> int:
        """The parent of a space that isn't the initial one."""
        parent = self.state.spaces[number].parent
        assert parent is not None
        return parent

    # ---- making and joining spaces (unshare(2), clone(2), setns(2))

    def made(self, cred: Credential) -> State:
        """The state with a new space below the caller's, the last one."""
        unless(self.level(self.number) < self.DEEPEST, "ENOSPC")
        unless(up(self.space.uids, cred.uid[EFFECTIVE]) is not None, "EPERM")
        unless(up(self.space.gids, cred.gid[EFFECTIVE]) is not None, "EPERM")
        space = Space(self.number, cred.uid[EFFECTIVE], None, None, self.space.deny, cred.has(SETFCAP))
        return replace(self.state, spaces=(*self.state.spaces, space))

    def newcomer(self, cred: Credential) -> Credential:
        """Who comes to a space has all capabilities over it."""
        return replace(cred, prm=ALL, eff=ALL, bnd=ALL, inh=0, amb=0, sec=0)

    def unshare(self, cred: Credential) -> Answer:
        """unshare(CLONE_NEWUSER)."""
        state = self.made(cred)
        return "0", self.with_process(state, self.pid, len(state.spaces) - 1, self.newcomer(cred))

    def clone_user(self, cred: Credential) -> Answer:
        """clone(CLONE_NEWUSER): the child stands in the new space."""
        state = self.made(cred)
        return str(self.child), self.born(state, len(state.spaces) - 1, self.newcomer(cred))

    def setns(self, cred: Credential, target: int) -> Answer:
        """setns(2)."""
        unless(target != self.number, "EINVAL")
        unless(self.over((self.number, cred), SYS_ADMIN, target), "EPERM")
        return "0", self.with_process(self.state, self.pid, target, self.newcomer(cred))

    # ---- writing maps and the setgroups word (user_namespaces(7))

    def write_uid_map(self, cred: Credential, target: int, *lines: Line) -> Answer:
        """A write to /proc/PID/uid_map of a process in the space."""
        return self.write_map("uids", SETUID, (self.number, cred), target, lines)

    def write_gid_map(self, cred: Credential, target: int, *lines: Line) -> Answer:
        """A write to /proc/PID/gid_map."""
        return self.write_map("gids", SETGID, (self.number, cred), target, lines)

    def write_map(self, side: str, capability: int, writer: Member, target: int, lines: Lines) -> Answer:
        """A write of the map of one side, `uids` or `gids`, to which that capability belongs."""
        space = self.state.spaces[target]
        unless(getattr(space, side) is None, "EPERM")
        unless(self.may_write(writer, capability, target), "EPERM")
        unless(is_map(lines), "EINVAL")
        above: Lines | None = getattr(self.state.spaces[self.above(target)], side)
        unless(all(lies_in(above, line) for line in lines), "EPERM")
        stored = taken_down(lines, above)
        unless(side == "gids" or self.may_map_zero(writer, target, lines), "EPERM")
        unless(self.may_map(writer, capability, target) or self.is_own_map(side, writer, target, stored), "EPERM")
        return "0", self.with_space(target, replace(space, **{side: stored}))

    def may_write(self, writer: Member, capability: int, target: int) -> bool:
        """Whether a member may write a map of the space at all."""
        return writer[0] in (target, self.state.spaces[target].parent) and self.over(writer, capability, target)

    def may_map_zero(self, writer: Member, target: int, lines: Lines) -> bool:
        """Whether a member may map the parent's user id 0, where the lines do."""
        space = self.state.spaces[target]
        if not any(outside <= 0 < outside + length for _, outside, length in lines):
            return True
        return space.setfcap if writer[0] == target else self.over(writer, SETFCAP, self.above(target))

    def may_map(self, writer: Member, capability: int, target: int) -> bool:
        """Whether a member may write any map of the space."""
        return self.over(writer, capability, self.above(target))

    def is_own_map(self, side: str, writer: Member, target: int, stored: Lines) -> bool:
        """Whether the map is of the writer's own effective id alone, and who made the space writes it."""
        space, (_, cred) = self.state.spaces[target], writer
        own = cred.uid if side == "uids" else cred.gid
        return (len(stored) == 1 and stored[0][2] == 1 and stored[0][1] == own[EFFECTIVE]
                and cred.uid[EFFECTIVE] == space.owner and (side == "uids" or space.deny))

    def with_space(self, number: int, space: Space) -> State:
        """The state with that space in its place."""
        spaces = self.state.spaces
        return replace(self.state, spaces=(*spaces[:number], space, *spaces[number + 1:]))

    def write_setgroups(self, cred: Credential, target: int, deny: bool) -> Answer:
        """A write to /proc/PID/setgroups."""
        space = self.state.spaces[target]
        unless(self.over((self.number, cred), SYS_ADMIN, target), "EPERM")
        unless(not deny or space.gids is None, "EPERM")
        unless(deny or not space.deny, "EPERM")
        return "0", self.with_space(target, replace(space, deny=deny))

    # ---- execve(2), capabilities(7), "Transformation of capabilities during execve()"

    def execve(self, cred: Credential, path: bytes) -> Answer:
        """execve(2) of a path; a file that isn't declared is a plain one."""
        file = self.files.get(path)
        runs = self.files[file.interpreter] if file and file.interpreter else file
        unless(all(self.may_run(cred, one) for one in (file, runs)), "EACCES")
        attribute = self.attribute(cred, runs)
        permitted, inheritable, effective, _ = attribute or NO_ATTRIBUTE
        unless(not effective or within(permitted, (permitted & cred.bnd) | (inheritable & cred.inh)), "EPERM")
        by_user, by_group = self.set_ids(cred, runs)
        users, groups = self.ids_after(cred.uid, by_user), self.ids_after(cred.gid, by_group)
        real, now = self.is_zero(users[REAL]), self.is_zero(users[EFFECTIVE])
        if not cred.sec & NOROOT and not (attribute is not None and not real and now):
            if real or now:
                permitted = inheritable = ALL
            effective = effective or now
        by_bits = by_user is not None or by_group is not None
        amb = 0 if self.is_privileged(cred, attribute, by_bits, users, groups) else cred.amb
        prm = (cred.inh & inheritable) | (permitted & cred.bnd) | amb
        if cred.nnp:
            prm, users, groups = self.cut(cred, prm, users, groups)
        return "0", replace(cred, uid=users, gid=groups, prm=prm, eff=prm if effective else amb, amb=amb,
                            sec=cred.sec & ~KEEP_CAPS)

    def is_privileged(self, cred: Credential, attribute: Attribute | None, by_bits: bool, users: Ids,
                      groups: Ids) -> bool:
        """Whether the file gives privilege, and so the ambient set goes."""
        return attribute is not None or by_bits

    def cut(self, cred: Credential, prm: int, users: Ids, groups: Ids) -> tuple[int, Ids, Ids]:
        """What no_new_privs leaves."""
        return prm & cred.prm, users, groups

    def ids_after(self, ids: Ids, by_file: int | None) -> Ids:
        """The ids after it, of which the file gives one or None."""
        new = ids[EFFECTIVE] if by_file is None else by_file
        return (ids[REAL], new, new, new)

    def owners(self, file: File) -> tuple[int | None, int | None]:
        """The owner and the group as the mount has them."""
        if not file.mount.maps:
            return file.uid, file.gid
        user, group = (down(own, up(fs, one)) for own, fs, one in
                       zip(file.mount.maps, file.mount.fs, (file.uid, file.gid)))
        return user, group

    def are_mapped(self, file: File) -> bool:
        """Whether the caller's space has both."""
        user, group = self.owners(file)
        return up(self.space.uids, user) is not None and up(self.space.gids, group) is not None

    def may_run(self, cred: Credential, file: File | None) -> bool:
        """Whether the caller may execute a file; that of None is the plain one."""
        if file is None:
            return True
        user, group = self.owners(file)
        of_group = group is not None and (group == cred.gid[FS] or group in cred.groups)
        bit = 0o100 if user == cred.uid[FS] else 0o010 if of_group else 0o001
        overrides = cred.has(DAC_OVERRIDE) and file.mode & 0o111 and self.are_mapped(file)
        return not file.mount.noexec and bool(file.mode & bit or overrides)

    def raises(self, cred: Credential, file: File) -> bool:
        """Whether the mount lets a file raise privilege of the caller's."""
        return not file.mount.nosuid and self.is_below(self.number, file.mount.space)

    def set_ids(self, cred: Credential, file: File | None) -> tuple[int | None, int | None]:
        """The ids that set-id bits give, None where none counts."""
        if file is None or cred.nnp or not self.raises(cred, file) or not self.are_mapped(file):
            return None, None
        user, group = self.owners(file)
        return user if file.mode & 0o4000 else None, group if file.mode & 0o2010 == 0o2010 else None

    def attribute(self, cred: Credential, file: File | None) -> Attribute | None:
        """The attribute of a file, where it has one that takes effect."""
        if file is None or file.caps is None or cred.nnp or not self.raises(cred, file):
            return None
        root = file.caps.root
        kernel = down(file.mount.fs[0], root)
        if file.mount.maps and kernel is not None:
            kernel = down(file.mount.maps[0], root)
        return file.caps if kernel is not None and self.is_root_above(self.number, kernel) else None

    def is_root_above(self, number: int, uid: int) -> bool:
        """Whether it is the inside 0 of the space or of one above it."""
        space = self.state.spaces[number]
        return down(space.uids, 0) == uid or (space.parent is not None and self.is_root_above(space.parent, uid))


def read_attribute(data: bytes) -> Attribute:
    """The attribute security.capability of these bytes (capabilities(7), "File capabilities"). ValueError where they
    are none of version 2 or 3."""
    first, *words = (int.from_bytes(data[at:at + 4], "little") for at in range(0, len(data), 4))
    if (len(data), first & ~1) not in ((20, 0x02000000), (24, 0x03000000)):
        raise ValueError("no attribute of version 2 or 3")
    permitted, inheritable = (words[0] | words[2] << 32) & ALL, (words[1] | words[3] << 32) & ALL
    return Attribute(permitted, inheritable, bool(first & 1), words[4] if len(words) == 5 else 0)
