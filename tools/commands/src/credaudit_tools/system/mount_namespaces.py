"""Mount namespaces as evidence: which one it is, and which of its mounts can hold programs, in a line that a scan and a
recording write alike (mount_namespaces(7)).

The number of a namespace's file comes again once it is gone, so the kernel's own count stands beside it, where it tells
one, and the number of the machine's start.
"""
from dataclasses import dataclass

from ..command_line.command import Failure
from .kernel_questions import Kernel
from .mounts import table

BOOT = "/proc/sys/kernel/random/boot_id"
UNKNOWN = 0         # the count of a kernel that tells none


@dataclass(frozen=True)
class MountSpace:
    """A mount namespace at one moment: the number of its file, the kernel's count, and a sum of its mounts on which
    set-id bits have an effect."""
    number: int
    count: int
    mounts: str

    def text(self) -> str:
        """The line."""
        return f"mnt:[{self.number}] {self.count} {self.mounts}"

    def is_same(self, other: "MountSpace") -> bool:
        """Whether it is the same namespace, at whichever moment."""
        return self.number == other.number and (self.count == other.count or UNKNOWN in (self.count, other.count))


def of_text(text: str) -> MountSpace:
    """The namespace of a line. ValueError where it is none."""
    number, count, mounts = text.split(" ")
    return MountSpace(int(number.removeprefix("mnt:[").removesuffix("]")), int(count), mounts)


def of_table(number: int, count: int, text: bytes) -> MountSpace:
    """The namespace of a text of mountinfo. Of each mount counts what a scan looks at: filesystem, place, options that
    change what its files give."""
    import hashlib          # at an end at which something lives
    told = hashlib.sha256()
    for mount in table(text):
        if mount.runs_set_id():
            parts = (mount.device, mount.part, mount.point, mount.kind, b"idmapped" if b"idmapped" in mount.options
                     else b"")
            told.update(b"".join(b"%d:%s," % (len(part), part) for part in parts) + b"\n")
    return MountSpace(number, count, told.hexdigest()[:32])


def of_key(kernel: Kernel, key: int) -> MountSpace | None:
    """The namespace of this number, as a system has it now; None where it can't be entered."""
    try:
        return of_table(key, kernel.count_of_mounts(key), kernel.mount_table(key))
    except Failure:
        return None


def boot() -> str:
    """The number that the kernel gave to the machine's start; empty where it tells none."""
    try:
        with open(BOOT, encoding="ascii") as file:
            return file.read().strip()
    except OSError:
        return ""
