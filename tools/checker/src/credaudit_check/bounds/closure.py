"""The start bounds, the fourteen rules and the right (BOUNDS.md, "Word for word").

Each rule is a method that answers the row which it adds to a row; what it says nothing of is as in the least row.
"""
from collections.abc import Callable, Iterable

from ..rules.capabilities import ALL, DAC_OVERRIDE, SETGID, SETPCAP, SETUID, SYS_ADMIN
from ..rules.ids import Ids, common, has, has_another, outside_ids, these, together
from ..rules.machine import NOROOT, NOROOT_LOCK, State, World
from ..rules.programs import View, view_of
from ..texts.query import Right
from .rows import Bounds, Row

DEEPEST = 32
NOTHING = Row()


class Closure:
    """The family of a query in the state after its log, and what bounds of it have to hold."""

    def __init__(self, world: World, state: State, family: Iterable[int]) -> None:
        self.state = state
        self.family = list(family)
        self.programs = [view_of(file) for file in world.files.values() if file.interpreter is None]
        self.excluded = world.excluded | frozenset.intersection(*(state.processes[pid].filter for pid in self.family))
        self.chains = [state.chain(space) for space in range(len(state.spaces))]

    def permits(self, *calls: str) -> bool:
        """Whether one of some calls is permitted."""
        return any(call not in self.excluded for call in calls)

    def next_owner(self, above: int, space: int) -> int:
        """The owner of the next space from one above to a space."""
        chain = self.chains[space]
        return self.state.spaces[chain[chain.index(above) - 1]].owner

    # ---- the start

    def start(self) -> Bounds:
        """The start bounds."""
        rows = [NOTHING] * (2 * len(self.state.spaces))
        for number, space in enumerate(self.state.spaces):
            rows[2 * number] = Row(mu=outside_ids(space.uid_map), mg=outside_ids(space.gid_map))
        for pid in self.family:
            process = self.state.processes[pid]
            cred = process.cred
            own = Row(
                b=cred.bounding, i=cred.inheritable, p=cred.permitted, u=these(cred.user.three()),
                eu=these([cred.user.effective]), fu=these([cred.user.fs]), g=these(cred.group.three()),
                eg=these([cred.group.effective]), fg=these([cred.group.fs]), s=these(cred.groups),
                n=cred.no_new_privs, r=not cred.securebits & NOROOT, k=not cred.securebits & NOROOT_LOCK)
            rows[2 * process.space] = rows[2 * process.space].with_row(own)
        return tuple(rows)

    # ---- words of the rules

    def zero(self, bounds: Bounds, number: int) -> Ids:
        """Zero(y)."""
        space = self.state.spaces[number // 2]
        if number % 2 or space.uid_map is None:
            return bounds[number].mu
        zero = space.zero()
        return () if zero is None else these([zero])

    @staticmethod
    def runs(y: Row, f: View) -> bool:
        """Run(y, f)."""
        if f.noexec:
            return False
        if has(y.fu, f.owner) and f.mode & 0o100:
            return True
        if has_another(y.fu, f.owner):
            if (has(y.fg, f.group) or has(y.s, f.group)) and f.mode & 0o010:
                return True
            if has_another(y.fg, f.group) and f.mode & 0o001:
                return True
        return bool(y.p & DAC_OVERRIDE and has(y.mu, f.owner) and has(y.mg, f.group) and f.mode & 0o111)

    def set_ids(self, bounds: Bounds, number: int, f: View) -> bool:
        """SetId(y, f)."""
        y = bounds[number]
        return (not y.n and not f.nosuid and f.space in self.chains[number // 2] and has(y.mu, f.owner)
                and has(y.mg, f.group))

    def takes(self, bounds: Bounds, number: int, f: View) -> bool:
        """Takes(y, f)."""
        chain = self.chains[number // 2]
        if bounds[number].n or f.attribute is None or f.nosuid or f.space not in chain or f.root is None:
            return False
        zeros = [self.zero(bounds, 2 * space) for space in chain] + [self.zero(bounds, number)]
        return any(has(ids, f.root) for ids in zeros)

    @staticmethod
    def brought(x: Row) -> Row:
        """What row x brings."""
        return Row(u=x.u, eu=x.eu, fu=x.fu, g=x.g, eg=x.eg, fg=x.fg, s=x.s, n=x.n, p=ALL, b=ALL, r=True, k=True)

    @staticmethod
    def new_ids(mapped: Ids, had: Ids, capable: int) -> Ids:
        """The new ids of rules 1 to 4."""
        return mapped if capable else common(mapped, had)

    # ---- the rules

    def setuid(self, bounds: Bounds, number: int) -> Row:
        """Rule 1."""
        y = bounds[number]
        new = self.new_ids(y.mu, y.u, y.p & SETUID)
        return Row(eu=new, u=together(y.eu, new), fu=together(y.eu, new))

    def setfsuid(self, bounds: Bounds, number: int) -> Row:
        """Rule 2."""
        y = bounds[number]
        return Row(fu=self.new_ids(y.mu, y.u, y.p & SETUID))

    def setgid(self, bounds: Bounds, number: int) -> Row:
        """Rule 3."""
        y = bounds[number]
        new = self.new_ids(y.mg, y.g, y.p & SETGID)
        return Row(eg=new, g=together(y.eg, new), fg=together(y.eg, new))

    def setfsgid(self, bounds: Bounds, number: int) -> Row:
        """Rule 4."""
        y = bounds[number]
        return Row(fg=self.new_ids(y.mg, y.g, y.p & SETGID))

    def setgroups(self, bounds: Bounds, number: int) -> Row:
        """Rule 5."""
        y = bounds[number]
        return Row(s=y.mg) if y.p & SETGID and self.state.spaces[number // 2].word == "allow" else NOTHING

    def capset(self, bounds: Bounds, number: int) -> Row:
        """Rule 6."""
        y = bounds[number]
        return Row(i=y.b if y.p & SETPCAP else y.p & y.b)

    def securebits(self, bounds: Bounds, number: int) -> Row:
        """Rule 7."""
        y = bounds[number]
        return Row(r=y.k and bool(y.p & SETPCAP))

    def exec_uid(self, bounds: Bounds, number: int) -> Row:
        """Rule 8."""
        y = bounds[number]
        new = these(f.owner for f in self.programs if f.owner is not None and f.mode & 0o4000
                    and self.runs(y, f) and self.set_ids(bounds, number, f))
        return Row(eu=new, u=together(y.eu, new), fu=together(y.eu, new))

    def exec_gid(self, bounds: Bounds, number: int) -> Row:
        """Rule 9."""
        y = bounds[number]
        new = these(f.group for f in self.programs if f.group is not None and f.mode & 0o2010 == 0o2010
                    and self.runs(y, f) and self.set_ids(bounds, number, f))
        return Row(eg=new, g=together(y.eg, new), fg=together(y.eg, new))

    def exec_caps(self, bounds: Bounds, number: int) -> Row:
        """Rule 10."""
        y, new = bounds[number], 0
        for f in self.programs:
            if f.attribute is not None and self.runs(y, f) and self.takes(bounds, number, f):
                new |= y.i & f.attribute.inheritable | f.attribute.permitted & y.b
        return Row(p=new)

    def exec_root(self, bounds: Bounds, number: int) -> Row:
        """Rule 11."""
        y = bounds[number]
        return Row(p=y.i | y.b) if y.r and not y.n and common(y.u, self.zero(bounds, number)) else NOTHING

    def create(self, bounds: Bounds, number: int) -> Row:
        """Rule 12."""
        space, x = number // 2, bounds[number - number % 2]
        if number % 2 == 0 or len(self.chains[space]) > DEEPEST:
            return NOTHING
        return self.brought(x) if common(x.eu, x.mu) and common(x.eg, x.mg) else NOTHING

    def join(self, bounds: Bounds, number: int) -> Row:
        """Rule 13."""
        found = NOTHING
        if number % 2 == 0:
            for above in self.chains[number // 2][1:]:
                x = bounds[2 * above]
                if x.eu and (x.p & SYS_ADMIN or has(x.eu, self.next_owner(above, number // 2))):
                    found = found.with_row(self.brought(x))
        return found

    def maps(self, bounds: Bounds, number: int) -> Row:
        """Rule 14."""
        y, space = bounds[number], self.state.spaces[number // 2]
        users, groups = self.permits("write_uid_map"), self.permits("write_gid_map")
        mu: Ids = ()
        mg: Ids = ()
        if number % 2:
            x = bounds[number - 1]
            if y.eu and users:
                mu = self.new_ids(x.mu, x.eu, x.p & SETUID)
            if y.eu and groups:
                mg = self.new_ids(x.mg, together(x.eg, y.eg), x.p & SETGID)
        elif space.parent is not None:
            q, owner = bounds[2 * space.parent], space.owner
            above, here = has(q.eu, owner), has(y.eu, owner)
            if users and space.uid_map is None:
                one = has(q.mu, owner) and (above or here and y.p & SETUID)
                mu = together(q.mu if q.p & SETUID else (), these([owner] if one else []))
            if groups and space.gid_map is None:
                mg = together(q.mg if q.p & SETGID else (), common(q.mg, q.eg) if above else (),
                              common(q.mg, y.eg) if here and y.p & SETGID else ())
        return Row(mu=mu, mg=mg)

    # ---- all of them

    def rules(self) -> list[tuple[str, bool, Callable[[Bounds, int], Row]]]:
        """The rules in their order, those whose calls are all excluded left out: the name, whether it adds to rows
        with members alone, and what it adds."""
        every: list[tuple[str, str, bool, Callable[[Bounds, int], Row]]] = [
            ("setuid", "setuid setreuid setresuid", True, self.setuid),
            ("setfsuid", "setfsuid", True, self.setfsuid),
            ("setgid", "setgid setregid setresgid", True, self.setgid),
            ("setfsgid", "setfsgid", True, self.setfsgid),
            ("setgroups", "setgroups", True, self.setgroups),
            ("capset", "capset", True, self.capset),
            ("securebits", "securebits", True, self.securebits),
            ("exec_uid", "execve", True, self.exec_uid),
            ("exec_gid", "execve", True, self.exec_gid),
            ("exec_caps", "execve", True, self.exec_caps),
            ("exec_root", "execve", True, self.exec_root),
            ("create", "unshare clone_user", False, self.create),
            ("join", "setns", False, self.join),
            ("maps", "write_uid_map write_gid_map", False, self.maps),
        ]
        return [(name, members, rule) for name, calls, members, rule in every if self.permits(*calls.split())]

    def not_start(self, bounds: Bounds) -> int | None:
        """The first row that doesn't hold the start bounds."""
        return next((number for number, row in enumerate(self.start()) if not bounds[number].holds(row)), None)

    def opened(self, bounds: Bounds) -> tuple[str, int] | None:
        """The first rule, and its first row, that adds something."""
        for name, members, rule in self.rules():
            for number, row in enumerate(bounds):
                if (row.eu or not members) and not row.holds(rule(bounds, number)):
                    return name, number
        return None

    def grown(self, bounds: Bounds) -> Bounds:
        """The least closed bounds that hold some bounds."""
        while True:
            before = bounds
            for _, members, rule in self.rules():
                for number, row in enumerate(bounds):
                    if row.eu or not members:
                        after = bounds[number].with_row(rule(bounds, number))
                        bounds = (*bounds[:number], after, *bounds[number + 1:])
            if bounds == before:
                return bounds

    def meets(self, bounds: Bounds, right: Right) -> int | None:
        """The first row by which bounds meet a right."""
        found: list[int] = []
        if right.kind == "uid":
            found = [number for number, row in enumerate(bounds) if has(row.eu, right.number)]
        elif right.kind == "gid":
            found = [number for number, row in enumerate(bounds)
                     if has(row.eg, right.number) or has(row.s, right.number)]
        else:
            for place, above in enumerate(self.chains[right.space]):
                row = bounds[2 * above]
                if (row.eu and row.p & right.number) or (
                        place and has(row.eu, self.next_owner(above, right.space))):
                    found.append(2 * above)
        return min(found, default=None)
