"""Writes the stamp of a program that was built (credaudit_tools.provenance)."""
import contextlib
import os

from credaudit_tools.provenance import places, sources, stamp, trees
from credaudit_tools.provenance.stamp import Build, Tree

from .kit import Failed


def of(program: str) -> str:
    """Where the stamp of a program stands that is built."""
    return program + places.BUILD


def removed(path: str) -> None:
    """Takes a file away, if it is there."""
    with contextlib.suppress(FileNotFoundError):
        os.remove(path)


def replaced(path: str, text: str) -> None:
    """Writes a file that everyone may read, whole or not at all."""
    with open(path + ".new", "w", encoding="ascii") as file:
        file.write(text)
    os.chmod(path + ".new", 0o644)
    os.replace(path + ".new", path)


def same_tree(top: str, before: Tree) -> Tree:
    """The tree that a program was built of. Fails where its sources were changed meanwhile: then nobody knows which
    text was built."""
    now = trees.of(top)
    if now.sources != before.sources:
        raise Failed("sources were changed while the program was built, so it gets no stamp: run make again")
    return now


def earlier(program: str) -> Build | None:
    """The stamp that a program has already, where it is its own."""
    try:
        found = stamp.read_build(stamp.text_of(of(program)) or "")
        return found if found.program == sources.sum_of_file(program) else None
    except (OSError, ValueError):
        return None


def write(program: str, tree: Tree, logic: str, proved: bool, said: str) -> None:
    """Stamps a program."""
    plain = said.encode("ascii", "replace").decode()
    replaced(of(program), Build(tree, sources.sum_of_file(program), logic, proved, plain).written())
