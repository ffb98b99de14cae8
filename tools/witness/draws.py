"""Draws small worlds and queries on them: families of up to three processes in up to four spaces, some files, a filter,
filters that processes install, and a right near what they have. A draw follows from its seed and number alone."""
from dataclasses import replace
from random import Random

from .settled import ALL_NOROOT, ALTERNATIVES, NNP, NO_BOUNDING, NOROOT, SPACES, alternatives, is_settled
from .worlds import ALL, CALLS, File, Four, Installs, Lines, Mount, Process, Query, Space, World

IDS = (0, 7, 34, 500, 1000, 1001)
FIRST, STRANGER = 100, 50
SETGID, SETUID, SETPCAP, SYS_ADMIN, KILL, SETFCAP, DAC_OVERRIDE = 6, 7, 8, 21, 5, 31, 1
CAPABILITIES = (SETGID, SETUID, SETPCAP, SYS_ADMIN, KILL, SETFCAP, DAC_OVERRIDE)
MODES = (0o755, 0o755, 0o4755, 0o4010, 0o4700, 0o2755, 0o2110, 0o2644, 0o6755, 0o711)
PLAIN_MODES = (0o755, 0o700, 0o050, 0o2705)
TO_INITIAL: tuple[Lines, ...] = (
    ((0, 0, 65536),), ((0, 0, 4294967295),), ((0, 1000, 1),), ((1000, 1000, 2),), ((0, 500, 600),),
    ((0, 1000, 1), (7, 34, 1)))
ID_CALLS = (("setuid", "setreuid", "setresuid"), ("setgid", "setregid", "setresgid"), ("setfsuid", "setfsgid"),
            ("setgroups",), ("capset",), ("execve",), ("write_uid_map", "write_gid_map"), ("fork",))


def some(rng: Random, share: float) -> bool:
    """Whether it happens, of this share of the cases."""
    return rng.random() < share


# ---- spaces, mounts and files --------------------------------------------------------------------------------------


def lines_below(rng: Random, parent: Lines | None, written: float) -> Lines | None:
    """A map of a space whose parent's is this one, or none; its ranges lie in the parent's first one."""
    if parent is None or not some(rng, written):
        return None
    first, _, length = parent[0]
    if length > 4294967000:
        return rng.choice(TO_INITIAL)
    start = rng.randrange(min(length, 3))
    return ((rng.choice((0, 0, first)), first + start, rng.choice((1, length - start))),)


def draw_spaces(rng: Random, most: int, written: float) -> tuple[Space, ...]:
    """Up to `most` spaces, of whose maps this share is written."""
    spaces: list[Space] = []
    for number in range(rng.randint(0, most)):
        parent = rng.choice((number, rng.randint(0, number)))
        above = spaces[parent - 1] if parent else Space(0, 0, ((0, 0, 4294967295),), ((0, 0, 4294967295),))
        owner, users = rng.choice(IDS), lines_below(rng, above.uids, written)
        spaces.append(Space(parent, owner, users, lines_below(rng, above.gids, written), some(rng, 0.2),
                            some(rng, 0.2)))
    return tuple(spaces)


def draw_file(rng: Random, mounts: int, modes: tuple[int, ...], with_caps: float) -> File:
    """A file on one of the mounts, with one of the modes, and in this share of the cases an attribute."""
    caps = (rng.choice((0, 1 << SETUID, 1 << SYS_ADMIN, 1 << KILL)), rng.choice((0, 1 << SETGID)), some(rng, 0.5))
    return File(rng.randint(0, mounts), rng.choice(IDS), rng.choice(IDS), rng.choice(modes),
                caps if some(rng, with_caps) else None)


# ---- processes -----------------------------------------------------------------------------------------------------


def draw_ids(rng: Random, few: tuple[int, ...]) -> Four:
    """Four ids of a few."""
    effective = rng.choice(few)
    if some(rng, 0.5):
        return (effective,) * 4
    return rng.choice(few), effective, rng.choice(few), rng.choice((effective, effective, rng.choice(few)))


def draw_sets(rng: Random, powerless: float) -> Four:
    """Permitted, effective, inheritable and ambient set, in this share of the cases all empty."""
    if some(rng, powerless):
        return 0, 0, 0, 0
    held = sum(1 << one for one in rng.sample(CAPABILITIES, rng.randint(1, 2)))
    permitted = rng.choice((held, held, held, ALL))
    effective, inheritable = rng.choice((permitted, 0, permitted & held)), rng.choice((0, 0, held))
    return permitted, effective, inheritable, rng.choice((0, permitted & inheritable))


def draw_processes(rng: Random, spaces: int, powerless: float) -> tuple[Process, ...]:
    """A stranger, at times; then the family."""
    few = tuple(rng.sample(IDS, rng.randint(1, 3)))
    processes = [Process(STRANGER, None, 0, (0,) * 4, (0,) * 4, (), (ALL, ALL, 0, 0))] if some(rng, 0.3) else []
    powers, nnp = rng.choice((powerless, 1.0)), rng.choice((0.0, 0.5, 1.0))
    sec, bounding = rng.choice((0, 0, 0, 1, 3, 0x2f)), rng.choice((ALL, ALL, ALL, 0, 1 << KILL))
    for number in range(rng.choice((1, 1, 2, 2, 3))):
        processes.append(Process(
            FIRST + number, rng.randint(FIRST, FIRST + number - 1) if number else None, rng.randint(0, spaces),
            draw_ids(rng, few), draw_ids(rng, few), tuple(rng.sample(IDS, rng.choice((0, 0, 1, 2)))),
            draw_sets(rng, powers), rng.choice((bounding, bounding, ALL)), rng.choice((sec, sec, 0)), some(rng, nnp)))
    return tuple(processes)


# ---- worlds and queries --------------------------------------------------------------------------------------------


def draw_excluded(rng: Random) -> frozenset[str]:
    """The calls that a filter excludes."""
    every = (set[str](), set(SPACES), set(SPACES), {"unshare", "clone_user"}, set(rng.sample(CALLS, 8)))
    excluded = rng.choice(every)
    for calls in ID_CALLS:
        excluded |= set(calls) if some(rng, 0.15) else set()
    return frozenset(excluded)


def able(process: Process) -> bool:
    """Whether it may install a filter (seccomp(2), "ERRORS")."""
    return process.nnp or bool(process.sets[1] >> SYS_ADMIN & 1)


def draw_installs(rng: Random, processes: tuple[Process, ...], alike: bool) -> Installs:
    """The filters that some of those install that may; or the same one of all of the family, where all may."""
    if some(rng, 0.5):
        return ()
    if alike:
        members = [one for one in processes if one.pid >= FIRST]
        names = draw_excluded(rng) - {"exit"}
        return tuple((one.pid, names) for one in members) if all(map(able, members)) else ()
    return tuple((one.pid, draw_excluded(rng) - {"exit"}) for one in processes if able(one) and some(rng, 0.7))


def draw_query(rng: Random, world: World) -> Query:
    """Half of them an id, at times one of a member's; of capabilities most over a space below the initial one, where
    there is one."""
    one = rng.choice([process for process in world.processes if process.pid >= FIRST])
    kind = rng.choice(("uid", "gid", "cap", "cap"))
    if kind == "cap":
        over = rng.choice((0, rng.randint(0, len(world.spaces)), rng.randint(0, len(world.spaces))))
        return Query(world, FIRST, kind, over, rng.choice(CAPABILITIES))
    own = rng.choice(one.uid[:3] if kind == "uid" else one.gid[:3])
    return Query(world, FIRST, kind, own if some(rng, 0.2) else rng.choice((*IDS, 77)))


def small(seed: int, number: int) -> Query:
    """The query of that seed and number, on a small world."""
    rng = Random(f"{seed} small {number}")
    spaces = draw_spaces(rng, 3, rng.choice((0.0, 0.5, 1.0)))
    mounts = (Mount(rng.randint(0, len(spaces)), some(rng, 0.5)),) if some(rng, 0.3) else ()
    with_caps, count = rng.choice((0.0, 0.3)), rng.choice((0, 0, 1, 2, 3))
    files = tuple(draw_file(rng, len(mounts), MODES, with_caps) for _ in range(count))
    processes, exclude = draw_processes(rng, len(spaces), 0.5), draw_excluded(rng)
    own = Random(f"{seed} small {number} installs")
    installs = draw_installs(own, processes, some(own, 0.3))
    return draw_query(rng, World(spaces, mounts, files, processes, exclude, installs))


def toward(rng: Random, wanted: str, process: Process) -> Process:
    """The process without capabilities, and what the alternative asks of each."""
    bounding, sec = rng.choice((ALL, 1 << KILL)), rng.choice((0, 4))
    plain = replace(process, sets=(0, 0, 0, 0), bounding=bounding, sec=sec, nnp=some(rng, 0.3))
    if wanted == NNP:
        return replace(plain, nnp=True)
    if wanted == ALL_NOROOT:
        return replace(plain, sec=plain.sec | NOROOT)
    return replace(plain, bounding=0) if wanted == NO_BOUNDING else plain


def with_installs(rng: Random, world: World) -> World:
    """The world where all of the family install one filter, at times; half of the times it is this one that excludes
    the calls of spaces, and not the world's."""
    installs = draw_installs(rng, world.processes, True)
    if not installs or some(rng, 0.5):
        return replace(world, installs=installs)
    more = tuple((pid, names | SPACES) for pid, names in installs)
    return replace(world, exclude=world.exclude - SPACES, installs=more)


def settled(seed: int, number: int) -> Query:
    """A settled family, by one alternative of the third sentence and no other; these take turns."""
    wanted = ALTERNATIVES[number % len(ALTERNATIVES)]
    rng, own = Random(f"{seed} settled {number}"), Random(f"{seed} settled {number} installs")
    while True:
        spaces = draw_spaces(rng, 3, rng.choice((0.8, 1.0)))
        mounts = (Mount(rng.randint(0, len(spaces)), some(rng, 0.5)),) if some(rng, 0.5) else ()
        modes, with_caps = (MODES, 0.3) if wanted == NNP or mounts else (PLAIN_MODES, 0.0)
        files = tuple(draw_file(rng, len(mounts), modes, with_caps) for _ in range(rng.randint(0, 3)))
        processes = tuple(toward(rng, wanted, one) if one.pid >= FIRST else one
                          for one in draw_processes(rng, len(spaces), 1.0))
        world = World(spaces, mounts, files, processes, draw_excluded(rng) | SPACES)
        world = with_installs(own, world)
        members = [one for one in processes if one.pid >= FIRST]
        if alternatives(world, members) == [wanted] and is_settled(world, FIRST):
            return draw_query(rng, world)
