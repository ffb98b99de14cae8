"""The list of plans as docs/PLANS.md tells it, for one process in the initial user namespace: which calls each plan
makes there, by the rules of plain/rules.py. It knows nothing of credaudit."""
from collections.abc import Iterator
from dataclasses import dataclass, field

from plain.rules import ALL, INITIAL, Call, Credential, File, Rules, State, cap

MOST_IN_PAIRS = 64
MINUS_ONE = 4294967295
PID = 100
Answered = tuple[Call, str]         # a call, and what the rules answer
Move = tuple[str, int | bytes]      # what is tried, and with which id or path


@dataclass(frozen=True)
class Right:
    """A right: its kind (uid, gid or cap), and the id or the number of the capability over the initial namespace."""
    kind: str
    of: int

    def is_held(self, cred: Credential) -> bool:
        """Whether a process of the initial namespace with this credential has it."""
        if self.kind == "uid":
            return cred.uid[1] == self.of
        if self.kind == "gid":
            return self.of == cred.gid[1] or self.of in cred.groups
        return bool(cred.eff >> self.of & 1)


@dataclass
class Walk:
    """One plan as it is carried out: the credential so far, and the calls that it made."""
    rules: Rules
    permitted: frozenset[str]
    cred: Credential
    made: list[Answered] = field(default_factory=list)

    def call(self, name: str, *arguments: int | bytes) -> None:
        """Makes a call, as the rules answer it."""
        call = Call(name, arguments)
        result, state = self.rules.answer(State({PID: (0, self.cred)}, (INITIAL,)), PID, call)
        self.cred = state.processes[PID][1]
        self.made.append((call, result))

    def tried(self, names: tuple[str, ...]) -> str | None:
        """The first of these calls that is permitted."""
        return next((name for name in names if name in self.permitted), None)

    def become(self, kind: str, number: int) -> None:
        """Becomes a user id or a group id, by the first call that is permitted."""
        if (self.cred.uid if kind == "uid" else self.cred.gid)[1] == number:
            return
        name = self.tried(tuple(f"set{part}{kind}" for part in ("res", "re", "")))
        if name is not None:
            filled = {"setres": (MINUS_ONE, number, MINUS_ONE), "setre": (MINUS_ONE, number), "set": (number,)}
            self.call(name, *filled[name.removesuffix(kind)])

    def raise_all(self) -> None:
        """Makes the permitted set effective."""
        if self.cred.eff != self.cred.prm and "capset" in self.permitted:
            self.call("capset", self.cred.prm, self.cred.prm, self.cred.inh)

    def make(self, move: Move) -> None:
        """Makes a move."""
        kind, what = move
        if kind in ("uid", "gid"):
            assert isinstance(what, int)
            self.become(kind, what)
        elif kind == "groups" and "setgroups" in self.permitted:
            self.call("setgroups", what)
        elif kind == "execve" and "execve" in self.permitted:
            self.call("execve", what)


def first_choices(right: Right) -> list[list[Move]]:
    """Nothing; inside 0; the user id that is sought."""
    return [[], [("uid", 0)], [("uid", right.of)] if right.kind == "uid" else []]


def middle_choices(files: dict[bytes, File]) -> list[list[Move]]:
    """Nothing; each file; a plain one; two of those that have a set-id bit or an attribute."""
    special = [path for path, file in files.items() if file.mode & 0o6000 or file.caps is not None][:MOST_IN_PAIRS]
    single: list[list[Move]] = [[("execve", path)] for path in (*files, b"-")]
    double: list[list[Move]] = [[("execve", one), ("execve", other)] for one in special for other in special]
    return [[], *single, *double]


def last_choices(right: Right) -> list[list[Move]]:
    """Those of the first place; for a group id then also that one, and it alone as a supplementary group."""
    more: list[list[Move]] = [[("gid", right.of)], [("groups", right.of)]] if right.kind == "gid" else []
    return first_choices(right) + more


def plans(rules: Rules, permitted: frozenset[str], cred: Credential, right: Right) -> Iterator[Walk]:
    """Each plan of the list, in its order, with the calls that it makes."""
    yield Walk(rules, permitted, cred)
    for first in first_choices(right):
        for middle in middle_choices(dict(rules.files)):
            for last in last_choices(right):
                walk = Walk(rules, permitted, cred)
                walk.raise_all()
                for move in first + middle:
                    walk.make(move)
                walk.raise_all()
                for move in last:
                    walk.make(move)
                walk.raise_all()
                yield walk


def capability(name: str) -> Right:
    """The right to a capability over the initial namespace, by its name without CAP_."""
    number = cap(name)
    assert number & ALL
    return Right("cap", number.bit_length() - 1)
