"""What `--version` tells: the version and the commit of the commands, and what the program is that they run."""
import os

from .. import VERSION
from ..provenance import places, programs, trees
from ..provenance.stamp import Tree
from .printable import shown

UNKNOWN = "unknown"


def program_lines(path: str | None, tree: Tree | None) -> tuple[str, str]:
    """The sum of the kit's logic, and the line on the program of a path."""
    if path is None:
        return UNKNOWN, "none"
    where = shown(os.fsencode(path))
    if not os.path.isfile(path):
        return UNKNOWN, f"{where}: {programs.NOT_PROVED} (it is no file)"
    try:
        found = programs.look(path, tree)
    except OSError as error:
        return UNKNOWN, f"{where}: {programs.NOT_PROVED} (it can't be read: {error.strerror})"
    return found.build.logic if found.build else UNKNOWN, f"{where}: {found}"


def text(name: str) -> str:
    """The lines of a command."""
    tree = trees.own()
    logic, program = program_lines(places.find(), tree)
    return (f"{name} {VERSION}\ncommit: {tree.commit if tree else UNKNOWN}\nlogic: {logic}\n"
            f"program: {program}\n")
