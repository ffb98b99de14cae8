"""What calls do to their caller's own credential: set*id, setgroups, capset, prctl (RULES.md).

Each answers a result, 0 or the name of an error (of setfsuid and setfsgid the id from before), and the credential.
"""
from dataclasses import replace

from .capabilities import ALL, FS_CAPS, LAST, SETGID, SETPCAP, SETUID, subset
from .ids import NO_ID, IdMap, down, up
from .machine import KEEP_CAPS, KEEP_CAPS_LOCK, NO_AMBIENT_RAISE, NO_SETUID_FIXUP, Credential, Ids4, Space

Answer = tuple[int | str, Credential]
MOST_GROUPS = 65536
LOCKS = 0xaa
UNSEEN = 65534


# ---- set*id, over the four ids and a map


def set_ids(call: str, ids: Ids4, lines: IdMap | None, capable: bool, given: tuple[int, ...]) -> Ids4 | str:
    """What setresuid, setreuid and setuid, told by "res", "re" and "", make of ids, or their error."""
    keeps = call != ""
    asked = [None if keeps and one == NO_ID else down(lines, one) for one in given]
    if any(one is None and not (keeps and argument == NO_ID) for one, argument in zip(asked, given)):
        return "EINVAL"
    if call == "res":
        if not capable and any(one not in (None, *ids.three()) for one in asked):
            return "EPERM"
        real, effective, saved = (old if one is None else one for one, old in zip(asked, ids.three()))
        return Ids4(real, effective, saved, effective)
    if call == "re":
        first, second = asked
        if not capable and (first not in (None, ids.real, ids.effective) or second not in (None, *ids.three())):
            return "EPERM"
        effective = ids.effective if second is None else second
        moves = first is not None or (second is not None and second != ids.real)
        return Ids4(ids.real if first is None else first, effective, effective if moves else ids.saved, effective)
    one = asked[0]
    assert one is not None
    if capable:
        return Ids4(one, one, one, one)
    return Ids4(ids.real, one, ids.saved, one) if one in (ids.real, ids.saved) else "EPERM"


def set_fs_id(ids: Ids4, lines: IdMap | None, capable: bool, given: int) -> tuple[int, Ids4]:
    """What setfsuid answers, and what it makes of ids."""
    seen = up(lines, ids.fs)
    one = down(lines, given)
    if one is not None and (capable or one in (*ids.three(), ids.fs)):
        ids = replace(ids, fs=one)
    return UNSEEN if seen is None else seen, ids


def fixed_up(old: Credential, new: Credential, zero: int | None) -> Credential:
    """The sets after a change of the three user ids."""
    if old.securebits & NO_SETUID_FIXUP or zero is None:
        return new
    if zero in old.user.three() and zero not in new.user.three():
        new = replace(new, ambient=0)
        if not old.securebits & KEEP_CAPS:
            new = replace(new, permitted=0, effective=0)
    before, after = old.user.effective == zero, new.user.effective == zero
    if before and not after:
        new = replace(new, effective=0)
    if after and not before:
        new = replace(new, effective=new.permitted)
    return new


def fs_fixed_up(old: Credential, new: Credential, zero: int | None) -> Credential:
    """The sets after a change of the fs user id alone."""
    if old.securebits & NO_SETUID_FIXUP or zero is None:
        return new
    before, after = old.user.fs == zero, new.user.fs == zero
    if before and not after:
        return replace(new, effective=new.effective & ~FS_CAPS)
    if after and not before:
        return replace(new, effective=new.effective | new.permitted & FS_CAPS)
    return new


def set_id_call(call: str, cred: Credential, space: Space, given: tuple[int, ...]) -> Answer:
    """setuid to setresgid."""
    users = call.endswith("uid")
    kind = call[3:-3]
    ids, lines = (cred.user, space.uid_map) if users else (cred.group, space.gid_map)
    capable = bool(cred.effective & (SETUID if users else SETGID))
    result: int | str = 0
    if kind == "fs":
        result, after = set_fs_id(ids, lines, capable, given[0])
    else:
        made = set_ids(kind, ids, lines, capable, given)
        if isinstance(made, str):
            return made, cred
        after = made
    if not users:
        return result, replace(cred, group=after)
    new = replace(cred, user=after)
    return result, (fs_fixed_up if kind == "fs" else fixed_up)(cred, new, space.zero())


# ---- the others


def setgroups(cred: Credential, space: Space, given: tuple[int, ...]) -> Answer:
    """setgroups."""
    if not cred.effective & SETGID or space.gid_map is None or space.word != "allow":
        return "EPERM", cred
    groups = [down(space.gid_map, one) for one in given]
    if len(groups) > MOST_GROUPS or None in groups:
        return "EINVAL", cred
    return 0, replace(cred, groups=frozenset(one for one in groups if one is not None))


def capset(cred: Credential, effective: int, permitted: int, inheritable: int) -> Answer:
    """capset."""
    may = cred.effective & SETPCAP or subset(inheritable, cred.inheritable | cred.permitted)
    if (not may or not subset(inheritable, cred.inheritable | cred.bounding) or not subset(permitted, cred.permitted)
            or not subset(effective, permitted)):
        return "EPERM", cred
    return 0, replace(cred, effective=effective, permitted=permitted, inheritable=inheritable,
                      ambient=cred.ambient & permitted & inheritable)


def may_secure(cred: Credential, bits: int) -> bool:
    """Whether the securebits may become these."""
    locks = cred.securebits & LOCKS
    return bool(cred.effective & SETPCAP) and bits <= 0xff and not (
        (cred.securebits ^ bits) & (locks >> 1) or locks & ~bits)


def allowed(is_so: bool, error: str, old: Credential, new: Credential) -> Answer:
    """The new credential, or an error and the old one."""
    if is_so:
        return 0, new
    return error, old


def prctl(call: str, cred: Credential, given: int) -> Answer:
    """The calls of prctl, of one argument or none."""
    one = 1 << given if given <= LAST else 0
    match call:
        case "bset_drop":
            if not cred.effective & SETPCAP:
                return "EPERM", cred
            return allowed(bool(one), "EINVAL", cred, replace(cred, bounding=cred.bounding & ~one))
        case "amb_raise":
            if not one:
                return "EINVAL", cred
            if cred.securebits & NO_AMBIENT_RAISE or not cred.permitted & cred.inheritable & one:
                return "EPERM", cred
            return 0, replace(cred, ambient=cred.ambient | one)
        case "amb_lower":
            return allowed(bool(one), "EINVAL", cred, replace(cred, ambient=cred.ambient & ~one))
        case "amb_clear":
            return 0, replace(cred, ambient=0)
        case "securebits":
            return allowed(may_secure(cred, given), "EPERM", cred, replace(cred, securebits=given))
        case "keepcaps":
            if given > 1:
                return "EINVAL", cred
            if cred.securebits & KEEP_CAPS_LOCK:
                return "EPERM", cred
            return 0, replace(cred, securebits=cred.securebits & ~KEEP_CAPS | (KEEP_CAPS if given else 0))
    return allowed(given == 1, "EINVAL", cred, replace(cred, no_new_privs=True))


def own_call(call: str, cred: Credential, space: Space, given: tuple[int, ...]) -> Answer:
    """A call that changes nothing but its caller's credential."""
    if call.endswith("uid") or call.endswith("gid"):
        return set_id_call(call, cred, space, given)
    if call == "setgroups":
        return setgroups(cred, space, given)
    if call == "capset":
        return capset(cred, *(one & ALL for one in given))
    return prctl(call, cred, given[0] if given else 0)
