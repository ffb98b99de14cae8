"""Which families are settled (docs/VERDICT.md, "Settled families"), by the page's four sentences over a small world.
The third has a choice of four, by which programs give nothing."""
from .worlds import Process, World, above, common, down, family, filter_of, stored, up

NOROOT = 0x01
SPACES = frozenset(("unshare", "clone_user", "setns"))
NNP, NO_ZERO, ALL_NOROOT, NO_BOUNDING = ALTERNATIVES = ("no_new_privs", "no id inside 0", "noroot", "no bounding set")


def is_plain(world: World, process: Process) -> bool:
    """Without capabilities, where the maps of its space and of all above are written."""
    spaces = [world.spaces[number - 1] for number in above(world, process.space) if number]
    return not any(process.sets) and all(space.uids is not None and space.gids is not None for space in spaces)


def serves(world: World, member: Process) -> bool:
    """Whether a program's set-id bit counts for the member, or its attribute takes effect."""
    users, groups = stored(world, member.space, "uids"), stored(world, member.space, "gids")
    for file in world.files:
        mount = world.mounts[file.mount - 1] if file.mount else None
        if mount and (mount.nosuid or mount.space not in above(world, member.space)):
            continue
        mapped = up(users, file.uid) is not None and up(groups, file.gid) is not None
        if file.caps or mapped and (file.mode & 0o4000 or file.mode & 0o2010 == 0o2010):
            return True
    return False


def has_zero(world: World, process: Process) -> bool:
    """Whether the inside 0 of its space is among a process's real, effective and saved user ids."""
    zero = down(stored(world, process.space, "uids"), 0)
    return zero is not None and zero in process.uid[:3]


def alternatives(world: World, members: list[Process]) -> list[str]:
    """Those of the third sentence that hold."""
    holds = [NNP] if all(one.nnp for one in members) else []
    if any(serves(world, one) for one in members):
        return holds
    holds += [NO_ZERO] if not any(has_zero(world, one) for one in members) else []
    holds += [ALL_NOROOT] if all(one.sec & NOROOT for one in members) else []
    return holds + ([NO_BOUNDING] if not any(one.bounding for one in members) else [])


def is_settled(world: World, pid: int) -> bool:
    """Whether the family of a process is settled."""
    members = family(world, pid)
    return (all(is_plain(world, one) for one in members) and SPACES <= common(world, members)
            and bool(alternatives(world, members)) and len({filter_of(world, one.pid) for one in members}) == 1)
