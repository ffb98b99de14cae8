"""A credential: what worlds declare, reports print, and /proc shows of a process (credentials(7), capabilities(7))."""
from dataclasses import dataclass, fields

Four = tuple[int, int, int, int]     # real, effective, saved, fs


@dataclass(frozen=True)
class Credential:
    """Ids as the initial user namespace has them; the groups as a set. `sec` and `nnp` are None where they aren't
    known."""
    uid: Four
    gid: Four
    groups: frozenset[int]
    inh: int
    prm: int
    eff: int
    bnd: int
    amb: int
    sec: int | None
    nnp: bool | None


WORDS = {"uid": "user ids", "gid": "group ids", "groups": "groups", "inh": "inheritable set", "prm": "permitted set",
         "eff": "effective set", "bnd": "bounding set", "amb": "ambient set", "sec": "securebits",
         "nnp": "no_new_privs"}
SETS = ("inh", "prm", "eff", "bnd", "amb")


def four(values: list[int]) -> Four:
    """Four ids, of one or of four values. ValueError at any other count."""
    if len(values) == 1:
        values = values * 4
    real, effective, saved, fs = values
    return real, effective, saved, fs


def field_text(name: str, value: object) -> str:
    """A field's value in the way of a report."""
    if name in ("uid", "gid") and isinstance(value, tuple):
        return ",".join(map(str, value))
    if name == "groups" and isinstance(value, frozenset):
        return ",".join(map(str, sorted(value))) or "-"
    if isinstance(value, bool) or not isinstance(value, int):
        return "not known" if value is None else str(int(bool(value)))
    return f"{value:02x}" if name == "sec" else f"{value:016x}"


def differences(one: Credential, other: Credential) -> list[tuple[str, str, str]]:
    """Field, and the values of both sides, of each field that both know and that differs."""
    found = []
    for each in fields(Credential):
        pair = getattr(one, each.name), getattr(other, each.name)
        if None not in pair and pair[0] != pair[1]:
            found.append((each.name, field_text(each.name, pair[0]), field_text(each.name, pair[1])))
    return found
