"""The calls on which a log rests, by the numbers under which a filter of system calls meets them on x86-64 (the
kernel's syscall_64.tbl and syscall_32.tbl; those of x32 have a bit of their own).

What is asked for by an argument is a row of its own: a filter may answer one option of prctl(2), and no other.
"""
from collections.abc import Iterator
from dataclasses import dataclass

from .bpf_walk import ARGUMENTS, Bits, exact

X86_64, I386, X32_BIT = 0xc000003e, 0x40000003, 0x40000000
CLONE_NEWUSER = 0x10000000

# By name the numbers of a 64-bit program, those of a 32-bit one (with those of the calls that end in 32 or 64), and of
# an x32 one where it has another.
NUMBERS: dict[str, tuple[int, tuple[int, ...], int | None]] = {
    "setuid": (105, (23, 213), None), "setreuid": (113, (70, 203), None), "setresuid": (117, (164, 208), None),
    "setfsuid": (122, (138, 215), None), "setgid": (106, (46, 214), None), "setregid": (114, (71, 204), None),
    "setresgid": (119, (170, 210), None), "setfsgid": (123, (139, 216), None), "setgroups": (116, (81, 206), None),
    "capset": (126, (185,), None), "prctl": (157, (172,), None), "seccomp": (317, (354,), None),
    "fork": (57, (2,), None), "vfork": (58, (190,), None), "clone": (56, (120,), None), "clone3": (435, (435,), None),
    "unshare": (272, (310,), None), "setns": (308, (346,), None), "execve": (59, (11,), 520),
    "execveat": (322, (358,), 545), "chdir": (80, (12,), None), "fchdir": (81, (133,), None),
    "chroot": (161, (61,), None), "pivot_root": (155, (217,), None), "open": (2, (5,), None),
    "openat": (257, (295,), None), "openat2": (437, (437,), None), "creat": (85, (8,), None), "dup": (32, (41,), None),
    "dup2": (33, (63,), None), "dup3": (292, (330,), None), "fcntl": (72, (55, 221), None), "write": (1, (4,), None),
    "writev": (20, (146,), 516), "pwrite64": (18, (181,), None), "pwritev": (296, (334,), 535),
    "pwritev2": (328, (379,), 547), "sendfile": (40, (187, 239), None), "splice": (275, (313,), None),
    "copy_file_range": (326, (377,), None), "io_uring_setup": (425, (425,), None)}

PRCTL_OPTIONS = {
    "PR_GET_KEEPCAPS": 7, "PR_SET_KEEPCAPS": 8, "PR_SET_SECCOMP": 22, "PR_CAPBSET_READ": 23, "PR_CAPBSET_DROP": 24,
    "PR_GET_SECUREBITS": 27, "PR_SET_SECUREBITS": 28, "PR_SET_NO_NEW_PRIVS": 38, "PR_GET_NO_NEW_PRIVS": 39,
    "PR_CAP_AMBIENT": 47}
COPYING = {"F_DUPFD": 0, "F_DUPFD_CLOEXEC": 1030}


@dataclass(frozen=True)
class Asked:
    """A call as a log tells it: its name with what its arguments say, its architectures and numbers, and what is known
    of the words of its arguments, by their offsets."""
    name: str
    numbers: tuple[tuple[int, int], ...]
    words: tuple[tuple[int, Bits], ...] = ()


def numbers_of(name: str) -> tuple[tuple[int, int], ...]:
    """The architectures and numbers of a call."""
    usual, short, other = NUMBERS[name]
    of_x32 = X32_BIT + (usual if other is None else other)
    return ((X86_64, usual), (X86_64, of_x32), *((I386, number) for number in short))


def with_argument(name: str, position: int, word: Bits, told: str) -> Asked:
    """A call with something known of the low half of an argument."""
    return Asked(told, numbers_of(name), ((ARGUMENTS + 8 * position, word),))


def listed() -> Iterator[Asked]:
    """All calls on which a log rests."""
    for name in NUMBERS:
        if name == "prctl":
            for option, number in PRCTL_OPTIONS.items():
                yield with_argument(name, 0, exact(number), f"prctl({option})")
        elif name == "fcntl":
            for command, number in COPYING.items():
                yield with_argument(name, 1, exact(number), f"fcntl({command})")
        elif name == "clone":
            yield with_argument(name, 0, Bits(0, CLONE_NEWUSER), "clone")
            yield with_argument(name, 0, Bits(CLONE_NEWUSER, CLONE_NEWUSER), "clone(CLONE_NEWUSER)")
        else:
            yield Asked(name, numbers_of(name))


LISTED = tuple(listed())
