"""Draws what `check`, `confirm` and logs are given beside a query of draws.py: calls of processes as the rules answer
them, runs that may be wrong somewhere, and certificates that may be. All comes of the random.Random that is handed
in."""
import re
from collections.abc import Callable
from dataclasses import replace
from random import Random

from plain import certificate as plain_certificate
from plain.closure import SETS_OF_CAPABILITIES, SETS_OF_IDS, Ids, Row, ids
from plain.reader import World
from plain.report import own_event
from plain.rules import Rules, State
from strangers.strangers import of_bytes

IDS = (0, 1, 7, 34, 500, 1000, 1001)
CAPS = ("CAP_SETUID", "CAP_SETGID", "CAP_SETPCAP", "CAP_SYS_ADMIN", "CAP_KILL", "CAP_DAC_OVERRIDE")
LAST = 4294967294
Argument = Callable[[Random, World, State, int], str]   # the arguments of a call of that process


def some(rng: Random, share: float) -> bool:
    """Whether it happens, of this share of the cases."""
    return rng.random() < share


# ---- calls ---------------------------------------------------------------------------------------------------------


def of_ids(count: int) -> Argument:
    """So many ids."""
    return lambda rng, *_: " ".join(str(one) for one in rng.choices((-1, *IDS), k=count))


def word(*words: str) -> Argument:
    """One of these words."""
    return lambda rng, *_: rng.choice(words)


def sets(rng: Random, _: World, state: State, pid: int) -> str:
    """Three sets within what the process has, or nearly."""
    cred = state.processes[pid][1]
    return " ".join(f"{rng.choice((cred.prm, cred.prm & cred.bnd, cred.eff, 0)):016x}" for _ in range(3))


def space(rng: Random, _: World, state: State, *__: object) -> str:
    """A space."""
    return f"#{rng.randrange(len(state.spaces))}"


def word_of(rng: Random, world: World, state: State, pid: int) -> str:
    """A space, and a word for its setgroups file."""
    return f"{space(rng, world, state, pid)} {rng.choice(('allow', 'deny'))}"


def lines(rng: Random, world: World, state: State, pid: int) -> str:
    """A space and the lines of a map."""
    count = rng.choice((1, 1, 2))
    triples = [f" {rng.choice((0, 7, 1000))} {rng.choice(IDS)} {rng.choice((1, 1, 5))}" for _ in range(count)]
    return space(rng, world, state, pid) + "".join(triples)


def kinds(rng: Random, *_: object) -> str:
    """Some calls that a filter excludes."""
    return " ".join(rng.choice(FILTERED) for _ in range(rng.choice((0, 1, 1, 2, 3))))


def path(rng: Random, world: World, *_: object) -> str:
    """A file."""
    return rng.choice(["-", *(name.decode() for name in world.files)])


CALLS: dict[str, Argument] = {
    **{name: of_ids(1) for name in ("setuid", "setfsuid", "setgid", "setfsgid")},
    "setreuid": of_ids(2), "setregid": of_ids(2), "setresuid": of_ids(3), "setresgid": of_ids(3),
    "setgroups": lambda rng, *_: " ".join(map(str, rng.sample(IDS, rng.randint(0, 2)))), "capset": sets,
    "bset_drop": word(*CAPS), "amb_raise": word(*CAPS), "amb_lower": word(*CAPS), "amb_clear": word(""),
    "securebits": word("0", "1", "3", "4", "47"), "keepcaps": word("0", "1"), "no_new_privs": word("1"),
    "fork": word(""), "clone_user": word(""), "unshare": word(""), "exit": word(""), "setns": space,
    "write_uid_map": lines, "write_gid_map": lines, "execve": path,
    "write_setgroups": word_of, "install": kinds}
FILTERED = tuple(name for name in CALLS if name != "exit")


def step(rng: Random, world: World, state: State, pid: int) -> tuple[str, State]:
    """A call of the process as a line, with the result that the rules give, and the state after it."""
    name = rng.choice(tuple(CALLS))
    call = f"{name} {CALLS[name](rng, world, state, pid)}".strip()
    event, after = own_event(Rules(world.files), world, state, pid, call)
    return event.written.decode(), after


def log(rng: Random, world: World, count: int) -> str:
    """The lines of a log: so many steps, each of whoever lives."""
    state, made = world.state, list[str]()
    for _ in range(count):
        if state.processes:
            line, state = step(rng, world, state, rng.choice(sorted(state.processes)))
            made.append(line)
    return "".join(f"{line}\n" for line in made)


# ---- runs ----------------------------------------------------------------------------------------------------------

ODD = ("", "; a remark", "100 setuid", "x fork = 1", "100 exit = EPERM", "4194304 exit = 0", "100 fork = 100",
       "100 setns #99 = EPERM")


def run(rng: Random, world: World, state: State, members: set[int], first: tuple[str, ...]) -> str:
    """A run of members behind these lines: steps, at times a line of a stranger, a wrong result, or an odd line."""
    made = list(first)
    for _ in range(rng.randint(0, 5)):
        able = sorted(set(state.processes) & members) if some(rng, 0.95) else sorted(state.processes)
        if not able:
            break
        pid, before = rng.choice(able), set(state.processes)
        line, state = step(rng, world, state, pid)
        members = members | (set(state.processes) - before if pid in members else set())
        if some(rng, 0.04):
            line = line.rsplit("= ", 1)[0] + "= " + rng.choice(("0", "EPERM", "EINVAL", "ENOMEM", "7"))
        made += [rng.choice(ODD)] * some(rng, 0.05) + [line]
    return "".join(f"{line}\n" for line in made)


# ---- certificates --------------------------------------------------------------------------------------------------


def changed_ids(rng: Random, some_ids: Ids) -> Ids:
    """Ids with one interval more or less, or another end."""
    if some_ids and some(rng, 0.6):
        at = rng.randrange(len(some_ids))
        first, last = some_ids[at]
        kept = some_ids[:at] + some_ids[at + 1:]
        return ids((*kept, *(((first + 1, last),) if first < last and some(rng, 0.5) else ())))
    first = rng.choice((*IDS, LAST))
    return ids((*some_ids, (first, rng.choice((first, first, LAST)))))


def changed(rng: Random, rows: list[Row]) -> list[Row]:
    """Bounds of which one part is another."""
    at, key = rng.randrange(len(rows)), rng.choice(plain_certificate.KEYS)
    old = getattr(rows[at], key)
    if key in SETS_OF_IDS:
        new: Ids | int | bool = changed_ids(rng, old)
    elif key in SETS_OF_CAPABILITIES:
        new = old ^ 1 << rng.choice((1, 5, 6, 7, 8, 21, 40))
    else:
        new = not old
    return [*rows[:at], replace(rows[at], **{key: new}), *rows[at + 1:]]


# What is found in a text, and what may stand in its place.
PIECES = ((rb"\[(\d+),(\d+)\]", (rb"[\2,\1]", rb"[\1,\2],[\1,\2]", rb"[\1,4294967295]", rb"[\1,4294967296]",
                                 rb"[\1]", rb"[-0,\2]", rb"[ \1 , \2 ]", rb"[\1,\2.0]", rb"\1,\2", rb"[\1,\2,\2]")),
          (rb'"(\w+)":', (rb'"x":', rb'"\1":0,"\1":', rb'"\1" : ', rb'"\1":[],"u":')),
          (rb"true|false", (rb"true", rb"false", rb"1", rb'"true"', rb"null")),
          (rb'"[0-9a-f]{16}"', (rb'"000001FFFFFFFFFF"', rb'"0000020000000000"', rb'"0"', rb"0",
                                rb'"0000000000000000"')),
          (rb'"format":1', (rb'"format":2', rb'"format":1.0', rb'"format":1,"more":1', rb'"format":1e999')),
          (rb"\{[^{}]*\},", (rb"", rb"{},", rb"0,")))


def with_piece(rng: Random, text: bytes) -> bytes:
    """The text with another piece in the place of one."""
    pattern, others = rng.choice(PIECES)
    found = list(re.finditer(pattern, text))
    if not found:
        return text
    one = rng.choice(found)
    return text[:one.start()] + one.expand(rng.choice(others)) + text[one.end():]


def certificate(rng: Random, bounds: tuple[list[Row], ...]) -> bytes:
    """The text of one of these bounds, as it is, or changed in a part or two; at times the text is changed."""
    rows = rng.choice(bounds)
    for _ in range(rng.choice((0, 0, 1, 1, 1, 2))):
        rows = changed(rng, rows)
    text = plain_certificate.text(rows).encode()
    return rng.choice((text, text, text, with_piece(rng, text), of_bytes(rng, text)))
