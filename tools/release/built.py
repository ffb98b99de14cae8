"""The program that is packed: its sum, and the architecture for which it was built, by the front of its ELF file."""
import os
import struct
from typing import NamedTuple

from credaudit_tools.provenance import places
from credaudit_tools.provenance.sources import sum_of_file
from make.kit import Failed

MACHINES = {62: "amd64", 183: "arm64"}      # e_machine of elf(5), and Debian's names
MAGIC, MACHINE_AT, FRONT = b"\x7fELF\x02\x01", 18, 20


class Program(NamedTuple):
    """A built program."""

    path: str
    architecture: str
    sum: str

    @property
    def stamp(self) -> str:
        """Where its stamp stands, if it has one."""
        return self.path + places.BUILD


def architecture(path: str) -> str:
    """For which architecture a program was built. Fails where that can't be told."""
    with open(path, "rb") as file:
        front = file.read(FRONT)
    if len(front) < FRONT or not front.startswith(MAGIC):
        raise Failed(f"{path} is no ELF program of 64 bits")
    (machine,) = struct.unpack_from("<H", front, MACHINE_AT)
    if machine not in MACHINES:
        raise Failed(f"{path} is built for a machine that has no name here: {machine} (elf(5), e_machine)")
    return MACHINES[machine]


def look(path: str) -> Program:
    """The program of a path. Fails where there is none."""
    if not os.path.isfile(path):
        raise Failed(f"{path} isn't built: run make first")
    return Program(path, architecture(path), sum_of_file(path))
