"""Mounts: the table of /proc/PID/mountinfo (proc(5)), and what of it is to be looked through for files.

A filesystem is often mounted more than once, in parts and in several mount namespaces. Each part is looked through once
for each way in which it may run programs: what a mount hides below another one is looked through where it shows.
"""
import re
from collections.abc import Sequence
from dataclasses import dataclass, field

# Kinds of filesystems that hold no programs: their files are the kernel's own, or can't be executed.
WITHOUT_PROGRAMS = frozenset(
    b"autofs binfmt_misc bpf cgroup cgroup2 configfs debugfs devpts efivarfs fusectl mqueue nsfs proc pstore rpc_pipefs"
    b" securityfs selinuxfs sysfs tracefs".split())
OCTAL = re.compile(rb"\\([0-7]{3})")


@dataclass(frozen=True)
class Mount:
    """A line of mountinfo. `part` is the directory of the filesystem that is mounted, `point` where it is seen."""
    number: int
    above: int
    device: bytes
    part: bytes
    point: bytes
    options: frozenset[bytes]
    kind: bytes
    whole: frozenset[bytes] = frozenset()       # options of the whole filesystem

    def runs_set_id(self) -> bool:
        """Whether set-id bits and attributes of its files can have an effect (mount(2))."""
        return not self.options & {b"nosuid", b"noexec"} and self.kind not in WITHOUT_PROGRAMS

    def view(self) -> tuple[bytes, int]:
        """Mounts of one view show the same owners: an idmapped one has a view of its own (mount_setattr(2))."""
        return self.device, self.number if b"idmapped" in self.options else 0


@dataclass(frozen=True)
class Area:
    """What is to be looked through: of the mount namespace `key` the mount `mount`, from `start` on; `part` is the same
    place on the filesystem, and `hidden` are the places of it that other mounts cover there, or that are left out."""
    key: int
    mount: Mount
    start: bytes
    part: bytes
    hidden: frozenset[bytes]


def word(text: bytes) -> bytes:
    """A field: blanks, line feeds and backslashes stand in octal."""
    return OCTAL.sub(lambda found: bytes([int(found.group(1), 8) & 0xff]), text)


def mount_of(line: bytes) -> Mount:
    """A line. ValueError where it is none."""
    front, _, back = line.partition(b" - ")
    number, above, device, part, point, options = front.split(b" ")[:6]
    kind, _, whole = back.split(b" ")[:3]
    return Mount(int(number), int(above), device, word(part), word(point), frozenset(options.split(b",")), word(kind),
                 frozenset(whole.split(b",")))


def table(text: bytes) -> list[Mount]:
    """The mounts of a text of mountinfo."""
    return [mount_of(line) for line in text.split(b"\n") if line]


# ---- places ----------------------------------------------------------------------------------------------------------


def below(place: bytes, above: bytes) -> bool:
    """Whether a place is another one or in it."""
    return place == above or above == b"/" or place.startswith(above + b"/")


def moved(place: bytes, old: bytes, new: bytes) -> bytes:
    """A place in `old` as it is called where that is `new`."""
    rest = place[len(old):].strip(b"/") if place != old else b""
    return new if not rest else new.rstrip(b"/") + b"/" + rest


def hidden_of(mount: Mount, mounts: list[Mount], skip: Sequence[bytes]) -> frozenset[bytes]:
    """The places of its filesystem that other mounts cover, or that are to be left out; none lies in another one."""
    points = {other.point for other in mounts if other.above == mount.number and other.number != mount.number
              and below(other.point, mount.point)}
    points |= {place for place in skip if below(place, mount.point)}
    return frozenset(moved(point, mount.point, mount.part) for point in points
                     if not any(below(point, other) for other in points - {point}))


# ---- what is to be looked through ------------------------------------------------------------------------------------


@dataclass
class Plan:
    """Areas that together show each part of each filesystem that some namespace shows."""
    areas: list[Area] = field(default_factory=list)
    by_view: dict[tuple[bytes, int], list[Area]] = field(default_factory=dict)

    def add(self, key: int, mounts: list[Mount], mount: Mount, skip: Sequence[bytes]) -> None:
        """A mount of a namespace with this table, where these places are left out."""
        hidden, view = hidden_of(mount, mounts, skip), mount.view()
        for part in self.missing(view, mount.part, hidden):
            area = Area(key, mount, moved(part, mount.part, mount.point), part, hidden)
            self.areas.append(area)
            self.by_view.setdefault(view, []).append(area)

    def missing(self, view: tuple[bytes, int], part: bytes, hidden: frozenset[bytes]) -> list[bytes]:
        """The places below `part`, not hidden, that no area shows."""
        if any(below(part, place) for place in hidden):
            return []
        for area in self.by_view.get(view, []):
            if below(part, area.part) and not any(below(part, place) for place in area.hidden):
                inside = sorted(place for place in area.hidden if below(place, part))
                return [place for each in inside for place in self.missing(view, each, hidden)]
        return [part]


def plan(tables: dict[int, list[Mount]], skip: Sequence[bytes]) -> Plan:
    """What is to be looked through of these namespaces: all mounts on which set-id bits have an effect, but in each
    namespace what lies in the places of `skip`. Larger parts first, so that a part of one is found in it."""
    made = Plan()
    wanted = [(key, mounts, mount) for key, mounts in tables.items() for mount in mounts
              if mount.runs_set_id() and not any(below(mount.point, place) for place in skip)]
    for key, mounts, mount in sorted(wanted, key=lambda one: one[2].part.rstrip(b"/").count(b"/")):
        made.add(key, mounts, mount, skip)
    return made
