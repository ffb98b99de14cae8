"""The entries of binfmt_misc: rules by which the kernel runs files that are neither ELF files nor scripts.

An entry with the flag C takes credentials from the file and not from its interpreter, one with the flag F runs an
interpreter that was opened in whichever mount namespace. The rules know neither (Documentation/admin-guide/binfmt-misc
of the kernel). Others run an interpreter that a scan sees as a program.
"""
import ctypes
import os
import re
from collections.abc import Callable, Mapping

from ..command_line.files import SAFE
from ..command_line.printable import quoted
from ..evidence.evidence import Evidence
from ..evidence.premises import BINFMT

KIND, PLACE = b"binfmt_misc", "/proc/sys/fs/binfmt_misc"
REGISTER, STATUS = "register", "status"
FSOPEN, FSCONFIG, FSMOUNT = 430, 431, 432           # the same numbers on all processors
FSCONFIG_CMD_CREATE = 6
MOST = 1 << 16
FOLDER = os.O_RDONLY | os.O_DIRECTORY | os.O_CLOEXEC
LIBC = ctypes.CDLL(None, use_errno=True)


def kinds(text: bytes) -> set[bytes]:
    """The kinds of filesystems that a text of /proc/filesystems has."""
    return {line.split(b"\t")[-1] for line in text.split(b"\n") if line}


def read_all(folder: int) -> dict[str, str]:
    """The entries, and the status, of an open folder of binfmt_misc. OSError where one can't be read."""
    found = {}
    for name in os.listdir(folder):
        if name != REGISTER:
            handle = os.open(name, SAFE, dir_fd=folder)
            with os.fdopen(handle, "rb") as file:
                found[name] = file.read(MOST).decode("latin-1")
    return found


def mounted() -> int:
    """binfmt_misc as a mount of no namespace, which nobody else sees (fsmount(2)). OSError where that isn't allowed."""
    opened = call(FSOPEN, ctypes.c_char_p(KIND), 0)
    try:
        call(FSCONFIG, opened, FSCONFIG_CMD_CREATE, None, None, 0)
        top = call(FSMOUNT, opened, 0, 0)
    finally:
        os.close(opened)
    try:
        return os.open(".", FOLDER, dir_fd=top)
    finally:
        os.close(top)


def call(number: int, *arguments: object) -> int:
    """A system call by its number. OSError where it fails."""
    told = int(LIBC.syscall(number, *arguments))
    if told < 0:
        error = ctypes.get_errno()
        raise OSError(error, os.strerror(error))
    return told


def entries() -> dict[str, str]:
    """The entries of the running kernel, none where it knows no binfmt_misc. OSError where they can't be read."""
    with open("/proc/filesystems", "rb") as file:
        if KIND not in kinds(file.read()):
            return {}
    folder = os.open(PLACE, FOLDER) if os.path.exists(f"{PLACE}/{STATUS}") else mounted()
    try:
        return read_all(folder)
    finally:
        os.close(folder)


def doubts(found: Mapping[str, str]) -> list[str]:
    """The entries that matter, each in a sentence. Those that are switched off count too: a member can't switch them
    on, but whoever may will."""
    told = []
    for name, text in sorted(found.items()):
        flags = re.search(r"^flags: *([A-Z]*)", text, re.M)
        for flag, why in (("C", "a file that it runs gives the credentials, and not its interpreter"),
                          ("F", "its interpreter was opened before, in whichever mount namespace")):
            if name != STATUS and flags is not None and flag in flags.group(1):
                told.append(f"the entry {quoted(name)} of binfmt_misc has the flag {flag}: {why}")
    return told


def tell(evidence: Evidence, read: Callable[[], Mapping[str, str]] = entries) -> list[str]:
    """What a kernel has, as evidence. Where it can't be read nothing is established, and a note says why."""
    try:
        found = read()
    except OSError as error:
        return [f"the entries of binfmt_misc can't be read ({error.strerror}): what they make of a program isn't known"]
    for why in doubts(found):
        evidence.doubt(BINFMT, why)
    evidence.establish(BINFMT, f"the entries of binfmt_misc were read: {len(set(found) - {STATUS})}")
    return []
