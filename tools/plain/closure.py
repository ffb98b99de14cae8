"""The bounds of docs/BOUNDS.md, "Word for word", as a plain program: a second writing of them, by which the bounds that
the program prints or judges can be judged without it. It is slow, and nothing is proved of it.

A set of ids is a tuple of intervals (first, last), in the one way of docs/CERTIFICATE.md; a set of capabilities is a
number, bit k for capability k. Bounds are a list of rows by their numbers, and the parts of a row have the names of
their keys. `Closure` is over the spaces of a state: what the rules add, the start bounds, the sweep, and which bounds
are closed, cover the members, and meet a right.
"""
from collections.abc import Iterable, Iterator
from dataclasses import dataclass, fields, replace
from typing import NamedTuple

from plain.rules import (ALL, DAC_OVERRIDE, NOROOT, SETGID, SETPCAP, SETUID, SYS_ADMIN, Credential, File, Lines, Member,
                         Rules, Space, down)

Ids = tuple[tuple[int, int], ...]
NONE: Ids = ()
LOCK = NOROOT << 1
DEEPEST = 32
RULES = ("setuid setfsuid setgid setfsgid setgroups capset securebits exec_uid exec_gid exec_caps exec_root create join"
         " maps").split()
OF_ROWS_WITH_MEMBERS = RULES[:11]   # what these add, they add to such rows alone


# ---- sets of ids ---------------------------------------------------------------------------------------------------


def ids(intervals: Iterable[tuple[int, int]]) -> Ids:
    """The set of all ids of some intervals, in any order."""
    made: list[tuple[int, int]] = []
    for first, last in sorted(intervals):
        if made and first <= made[-1][1] + 1:
            made[-1] = made[-1][0], max(made[-1][1], last)
        else:
            made.append((first, last))
    return tuple(made)


def one(id_: int | None) -> Ids:
    """The set of one id; of none it is empty."""
    return NONE if id_ is None else ((id_, id_),)


def outside(lines: Lines | None) -> Ids:
    """The outside ids of a map."""
    return ids((first, first + length - 1) for _, first, length in lines or ())


def both(some: Ids, other: Ids) -> Ids:
    """The ids of both sets."""
    return ids((max(a, c), min(b, d)) for a, b in some for c, d in other if max(a, c) <= min(b, d))


def holds(some: Ids, id_: int | None) -> bool:
    """Whether the set holds the id; none is in no set."""
    return id_ is not None and any(first <= id_ <= last for first, last in some)


def has_other(some: Ids, id_: int | None) -> bool:
    """Whether the set holds another id than that one."""
    return any(interval != (id_, id_) for interval in some)


def includes(some: Ids, other: Ids) -> bool:
    """Whether all ids of the other set are in the first."""
    return both(some, other) == other


# ---- rows ----------------------------------------------------------------------------------------------------------


@dataclass(frozen=True)
class Row:
    """A row of bounds; as it stands here it holds nothing."""
    u: Ids = NONE
    eu: Ids = NONE
    fu: Ids = NONE
    g: Ids = NONE
    eg: Ids = NONE
    fg: Ids = NONE
    s: Ids = NONE
    mu: Ids = NONE
    mg: Ids = NONE
    p: int = 0
    i: int = 0
    b: int = 0
    n: bool = True
    r: bool = False
    k: bool = False

    def has(self, capability: int) -> bool:
        """Whether the capability is among the permitted ones."""
        return bool(self.p & capability)


NOTHING = Row()
SETS_OF_IDS = tuple(part.name for part in fields(Row) if isinstance(part.default, tuple))
SETS_OF_CAPABILITIES, FLAGS = ("p", "i", "b"), ("n", "r", "k")


def joined(some: Row, other: Row) -> Row:
    """The least row that holds what the two hold."""
    of_ids = {name: ids((*getattr(some, name), *getattr(other, name))) for name in SETS_OF_IDS}
    return replace(NOTHING, **of_ids, p=some.p | other.p, i=some.i | other.i, b=some.b | other.b,
                   n=some.n and other.n, r=some.r or other.r, k=some.k or other.k)


def brought(row: Row) -> Row:
    """What a row brings: what its members have as newcomers to a space."""
    return replace(row, mu=NONE, mg=NONE, p=ALL, i=0, b=ALL, r=True, k=True)


def of_member(cred: Credential) -> Row:
    """What one member has."""
    def three(four: tuple[int, ...]) -> Ids:
        return ids((each, each) for each in four[:3])

    return Row(three(cred.uid), one(cred.uid[1]), one(cred.uid[3]), three(cred.gid), one(cred.gid[1]), one(cred.gid[3]),
               ids((group, group) for group in cred.groups), NONE, NONE, cred.prm, cred.inh, cred.bnd, cred.nnp,
               not cred.sec & NOROOT, not cred.sec & LOCK)


class Side(NamedTuple):
    """The parts of a row that are alike for users and for groups, and the capability that belongs to them."""
    own: str
    effective: str
    fs: str
    mapped: str
    capability: int


USERS, GROUPS = Side("u", "eu", "fu", "mu", SETUID), Side("g", "eg", "fg", "mg", SETGID)


def settable(row: Row, side: Side) -> Ids:
    """The ids that a member can set."""
    mapped: Ids = getattr(row, side.mapped)
    return mapped if row.has(side.capability) else both(getattr(row, side.own), mapped)


def spread(row: Row, side: Side, new: Ids) -> Row:
    """New ids come to the effective ones, and each effective one to the others."""
    now = ids((*getattr(row, side.effective), *new))
    return replace(NOTHING, **{side.effective: new, side.own: now, side.fs: now})


# ---- rights --------------------------------------------------------------------------------------------------------


class Right(NamedTuple):
    """A right: `kind` is uid or gid, and `of` an id; or cap, and `of` a capability, as a set, over a space."""
    kind: str
    of: int
    space: int = 0


# ---- rules ---------------------------------------------------------------------------------------------------------


class Seen(NamedTuple):
    """A file as its mount shows it."""
    file: File
    owner: int | None
    group: int | None
    root: int | None


def shown(file: File) -> Seen:
    """The file, with its owner, group and root id through its mount."""
    owner, group = Rules().owners(file)
    root = down(file.mount.fs[0], file.caps.root) if file.caps else None
    if root is not None and file.caps and file.mount.maps:
        root = down(file.mount.maps[0], file.caps.root)
    return Seen(file, owner, group, root)


def may_run(row: Row, seen: Seen) -> bool:
    """Whether a member of the row may run the file."""
    def bits(wanted: int) -> bool:
        return bool(seen.file.mode & wanted)

    no_owner = has_other(row.fu, seen.owner)
    in_group = holds(row.fg, seen.group) or holds(row.s, seen.group)
    ways = (holds(row.fu, seen.owner) and bits(0o100), in_group and no_owner and bits(0o010),
            no_owner and has_other(row.fg, seen.group) and bits(0o001),
            row.has(DAC_OVERRIDE) and holds(row.mu, seen.owner) and holds(row.mg, seen.group) and bits(0o111))
    return not seen.file.mount.noexec and any(ways)


class Turn(NamedTuple):
    """A turn of the sweep: a rule at a row, and the bounds before and after it."""
    rule: str
    number: int
    before: list[Row]
    after: list[Row]


class Closure:
    """The rules over the spaces of a state, declared files, and what the filter excludes."""

    def __init__(self, spaces: tuple[Space, ...], files: Iterable[File], excluded: Iterable[str]) -> None:
        self.spaces, self.excluded = spaces, frozenset(excluded)
        self.files = [shown(file) for file in files if file.interpreter is None]

    def permits(self, *calls: str) -> bool:
        """Whether one of the calls is permitted."""
        return any(call not in self.excluded for call in calls)

    def chain(self, space: int) -> list[int]:
        """The space, its parent, and so on to the initial space."""
        parent = self.spaces[space].parent
        return [space] if parent is None else [space, *self.chain(parent)]

    def next_spaces(self, space: int) -> list[tuple[int, int]]:
        """The spaces above it, each with the next space on the way down."""
        chain = self.chain(space)
        return list(zip(chain[1:], chain))

    # ---- the start and the right

    def start(self, members: Iterable[Member]) -> list[Row]:
        """The start bounds of members."""
        rows = []
        for space in self.spaces:
            rows += [Row(mu=outside(space.uids), mg=outside(space.gids)), NOTHING]
        for number, cred in members:
            rows[2 * number] = joined(rows[2 * number], of_member(cred))
        return rows

    def covers(self, members: Iterable[Member], rows: list[Row]) -> int | None:
        """None where the rows hold the start bounds, else the first row that doesn't."""
        start = self.start(members)
        return next((number for number, row in enumerate(rows) if joined(row, start[number]) != row), None)

    def meets_at(self, rows: list[Row], right: Right, number: int) -> bool:
        """Whether the bounds meet the right by that row."""
        row = rows[number]
        if right.kind == "uid":
            return holds(row.eu, right.of)
        if right.kind == "gid":
            return holds(row.eg, right.of) or holds(row.s, right.of)
        space = number // 2
        if number % 2 or space not in self.chain(right.space):
            return False
        owned = [self.spaces[below].owner for above, below in self.next_spaces(right.space) if above == space]
        return bool(row.eu and row.p & right.of) or any(holds(row.eu, owner) for owner in owned)

    def meets(self, rows: list[Row], right: Right) -> int | None:
        """None where the bounds don't meet the right, else the first row by which they do."""
        return next((number for number in range(len(rows)) if self.meets_at(rows, right, number)), None)

    # ---- the rules

    def zero(self, rows: list[Row], number: int) -> Ids:
        """The ids that may be inside 0."""
        uids = self.spaces[number // 2].uids
        return rows[number].mu if number % 2 or uids is None else one(down(uids, 0))

    def may_raise(self, rows: list[Row], number: int, seen: Seen) -> bool:
        """What set-id bits and attributes both ask for."""
        mount = seen.file.mount
        return not rows[number].n and not mount.nosuid and mount.space in self.chain(number // 2)

    def set_id(self, rows: list[Row], number: int, seen: Seen) -> bool:
        """Whether the set-id bits of the file can count for a member of the row, who may run it."""
        row = rows[number]
        return (may_run(row, seen) and self.may_raise(rows, number, seen) and holds(row.mu, seen.owner)
                and holds(row.mg, seen.group))

    def takes(self, rows: list[Row], number: int, seen: Seen) -> bool:
        """Whether the attribute of the file can take effect for a member of the row, who may run it."""
        at = [2 * space for space in self.chain(number // 2)] + [number] * (number % 2)
        return (seen.file.caps is not None and may_run(rows[number], seen) and self.may_raise(rows, number, seen)
                and any(holds(self.zero(rows, one_row), seen.root) for one_row in at))

    def adds(self, rule: str, rows: list[Row], number: int) -> Row:
        """What the rule adds to the row of that number."""
        row, standing = rows[number], not number % 2
        if rule in OF_ROWS_WITH_MEMBERS and not row.eu:
            return NOTHING
        if rule == "setuid" and self.permits("setuid", "setreuid", "setresuid"):
            return spread(row, USERS, settable(row, USERS))
        if rule == "setfsuid" and self.permits("setfsuid"):
            return Row(fu=settable(row, USERS))
        if rule == "setgid" and self.permits("setgid", "setregid", "setresgid"):
            return spread(row, GROUPS, settable(row, GROUPS))
        if rule == "setfsgid" and self.permits("setfsgid"):
            return Row(fg=settable(row, GROUPS))
        if rule == "setgroups" and self.permits("setgroups") and row.has(SETGID) and not self.spaces[number // 2].deny:
            return Row(s=row.mg)
        if rule == "capset" and self.permits("capset"):
            return Row(i=row.b if row.has(SETPCAP) else row.p & row.b)
        if rule == "securebits" and self.permits("securebits"):
            return Row(r=row.has(SETPCAP) and row.k)
        if rule.startswith("exec") and self.permits("execve"):
            return self.by_execve(rule, rows, number)
        if rule == "create" and not standing and self.permits("unshare", "clone_user"):
            return self.by_creation(rows[number - 1], number // 2)
        if rule == "join" and standing and self.permits("setns"):
            return self.by_joining(rows, number // 2)
        if rule == "maps":
            return self.by_maps(rows, number) if standing else self.by_fresh_maps(rows[number - 1], row)
        return NOTHING

    def by_execve(self, rule: str, rows: list[Row], number: int) -> Row:
        """What the rules exec_uid, exec_gid, exec_caps and exec_root add."""
        row = rows[number]
        if rule == "exec_root":
            root = row.r and not row.n and both(row.u, self.zero(rows, number))
            return Row(p=row.i | row.b) if root else NOTHING
        if rule == "exec_caps":
            gained = 0
            for seen in self.files:
                if seen.file.caps and self.takes(rows, number, seen):
                    gained |= row.i & seen.file.caps.inheritable | row.b & seen.file.caps.permitted
            return Row(p=gained)
        counted = [seen for seen in self.files if self.set_id(rows, number, seen)]
        if rule == "exec_uid":
            owners = [seen.owner for seen in counted if seen.file.mode & 0o4000]
            return spread(row, USERS, ids(found for owner in owners for found in one(owner)))
        groups = [seen.group for seen in counted if seen.file.mode & 0o2000 and seen.file.mode & 0o010]
        return spread(row, GROUPS, ids(found for group in groups for found in one(group)))

    def by_creation(self, maker: Row, space: int) -> Row:
        """What the rule create adds to the fresh row of a space, by its standing row."""
        can = len(self.chain(space)) - 1 < DEEPEST and both(maker.eu, maker.mu) and both(maker.eg, maker.mg)
        return brought(maker) if can else NOTHING

    def by_joining(self, rows: list[Row], space: int) -> Row:
        """What the rule join adds to the standing row of a space."""
        gained = NOTHING
        for above, below in self.next_spaces(space):
            row = rows[2 * above]
            if row.eu and (row.has(SYS_ADMIN) or holds(row.eu, self.spaces[below].owner)):
                gained = joined(gained, brought(row))
        return gained

    def by_fresh_maps(self, standing: Row, fresh: Row) -> Row:
        """What the rule maps adds to the fresh row of a space, by its standing row."""
        if not fresh.eu:
            return NOTHING
        users = standing.mu if standing.has(SETUID) else both(standing.mu, standing.eu)
        groups = standing.mg if standing.has(SETGID) else both(standing.mg, ids((*standing.eg, *fresh.eg)))
        return Row(mu=users if self.permits("write_uid_map") else NONE,
                   mg=groups if self.permits("write_gid_map") else NONE)

    def by_maps(self, rows: list[Row], number: int) -> Row:
        """What the rule maps adds to the standing row of a space."""
        space, row = self.spaces[number // 2], rows[number]
        if space.parent is None:
            return NOTHING
        above, users, groups = rows[2 * space.parent], NONE, NONE
        owns_above, owns = holds(above.eu, space.owner), holds(row.eu, space.owner)
        if space.uids is None and self.permits("write_uid_map"):
            may = owns_above or (owns and row.has(SETUID))
            users = above.mu if above.has(SETUID) else both(above.mu, one(space.owner) if may else NONE)
        if space.gids is None and self.permits("write_gid_map"):
            own = (*(above.eg if owns_above else NONE), *(row.eg if owns and row.has(SETGID) else NONE))
            groups = above.mg if above.has(SETGID) else both(above.mg, ids(own))
        return Row(mu=users, mg=groups)

    # ---- closed bounds and the sweep

    def open_at(self, rows: list[Row]) -> tuple[str, int] | None:
        """None where the bounds are closed, else the first rule and row at which they aren't."""
        return next(((rule, number) for rule in RULES for number in range(len(rows))
                     if joined(rows[number], self.adds(rule, rows, number)) != rows[number]), None)

    def sweep(self, rows: list[Row]) -> Iterator[Turn]:
        """The turns that add something, from these bounds on, until a round adds nothing."""
        grown = True
        while grown:
            grown = False
            for rule in RULES:
                for number in range(len(rows)):
                    new = joined(rows[number], self.adds(rule, rows, number))
                    if new != rows[number]:
                        before, rows = rows, [*rows[:number], new, *rows[number + 1:]]
                        grown = True
                        yield Turn(rule, number, before, rows)

    def least(self, members: Iterable[Member]) -> list[Row]:
        """The least closed bounds that cover the members."""
        rows = self.start(members)
        for turn in self.sweep(rows):
            rows = turn.after
        return rows

    def blame(self, members: Iterable[Member], right: Right) -> tuple[str, int, list[Row]] | None:
        """The rule and the row by whose turn the sweep comes to meet the right, and the bounds before it; None where it
        never does."""
        rows = self.start(members)
        met = self.meets(rows, right)
        if met is not None:
            return "start", met, rows
        for turn in self.sweep(rows):
            if self.meets(turn.after, right) is not None:
                return turn.rule, turn.number, turn.before
        return None
