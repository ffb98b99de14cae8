"""Files through their mounts, and execve (RULES.md, "Files" and "execve")."""
from dataclasses import dataclass, replace

from .capabilities import ALL, DAC_OVERRIDE, subset
from .ids import IdMap, down, up
from .machine import KEEP_CAPS, NOROOT, Attribute, Credential, File, State


@dataclass(frozen=True)
class View:
    """A file through its mount: ids as the initial space sees them, or none."""
    space: int
    nosuid: bool
    noexec: bool
    mode: int
    owner: int | None
    group: int | None
    attribute: Attribute | None
    root: int | None


def view_of(file: File) -> View:
    """A declared file as it is seen."""
    mount, attribute = file.mount, file.attribute
    owner: int | None = file.uid
    group: int | None = file.gid
    root = None if attribute is None else down(mount.fs_uid_map, attribute.root)
    if mount.idmap is not None:
        owner, group = (on_mount(one, lines, mapped) for one, lines, mapped in zip(
            (file.uid, file.gid), (mount.fs_uid_map, mount.fs_gid_map), mount.idmap))
        # Where the filesystem's map has an image too, that of the mount counts.
        root = None if attribute is None or root is None else down(mount.idmap[0], attribute.root)
    return View(mount.space, mount.nosuid, mount.noexec, file.mode, owner, group, attribute, root)


def on_mount(one: int, filesystem: IdMap, mount: IdMap) -> int | None:
    """An id of a file on an idmapped mount."""
    inside = up(filesystem, one)
    return None if inside is None else down(mount, inside)


def may_run(state: State, space: int, cred: Credential, view: View) -> bool:
    """Whether a caller has permission for a file."""
    if view.noexec:
        return False
    if view.owner is not None and cred.user.fs == view.owner:
        bit = 0o100
    elif view.group is not None and (cred.group.fs == view.group or view.group in cred.groups):
        bit = 0o010
    else:
        bit = 0o001
    if view.mode & bit:
        return True
    return bool(cred.effective & DAC_OVERRIDE and view.mode & 0o111 and both_mapped(state, space, view))


def both_mapped(state: State, space: int, view: View) -> bool:
    """Whether owner and group are mapped in a space."""
    one = state.spaces[space]
    return up(one.uid_map, view.owner) is not None and up(one.gid_map, view.group) is not None


def counts(state: State, space: int, cred: Credential, view: View) -> bool:
    """Whether a caller may gain by a file of that mount at all."""
    return not cred.no_new_privs and not view.nosuid and view.space in state.chain(space)


def takes_attribute(state: State, space: int, cred: Credential, view: View) -> bool:
    """Whether the attribute takes effect."""
    return (view.attribute is not None and view.root is not None and counts(state, space, cred, view)
            and any(state.spaces[one].zero() == view.root for one in state.chain(space)))


def execve(state: State, space: int, cred: Credential, file: File | None) -> tuple[int | str, Credential]:
    """What execve answers, and the credential after it; a file that isn't declared is None."""
    view = None
    if file is not None:
        for one in (file, file.interpreter):
            if one is not None:
                view = view_of(one)
                if not may_run(state, space, cred, view):
                    return "EACCES", cred
    own = Attribute(0, 0, False, 0)
    takes = view is not None and takes_attribute(state, space, cred, view)
    if takes:
        assert view is not None and view.attribute is not None
        own = view.attribute
    gets = own.permitted & cred.bounding | own.inheritable & cred.inheritable
    if own.effective and not subset(own.permitted, gets):
        return "EPERM", cred
    effective, group, bits = cred.user.effective, cred.group.effective, False
    if view is not None and counts(state, space, cred, view) and both_mapped(state, space, view):
        assert view.owner is not None and view.group is not None
        if view.mode & 0o4000:
            effective, bits = view.owner, True
        if view.mode & 0o2010 == 0o2010:
            group, bits = view.group, True
    new = replace(cred, user=replace(cred.user, effective=effective, saved=effective, fs=effective),
                  group=replace(cred.group, effective=group, saved=group, fs=group))
    return 0, with_sets(cred, new, own, state.spaces[space].zero(), takes, takes or bits)


def with_sets(old: Credential, new: Credential, own: Attribute, zero: int | None, takes: bool,
              privileged: bool) -> Credential:
    """The sets after an execve, the ids being those after it."""
    inheritable, permitted, raises = own.inheritable, own.permitted, own.effective
    real_is_root = zero is not None and new.user.real == zero
    is_root = zero is not None and new.user.effective == zero
    excepted = takes and is_root and not real_is_root
    if not old.securebits & NOROOT and not excepted:
        if real_is_root or is_root:
            inheritable = permitted = ALL
        raises = raises or is_root
    ambient = 0 if privileged else old.ambient
    after = old.inheritable & inheritable | permitted & old.bounding | ambient
    if old.no_new_privs:
        after &= old.permitted
    return replace(new, ambient=ambient, permitted=after, effective=after if raises else ambient,
                   securebits=old.securebits & ~KEEP_CAPS)
