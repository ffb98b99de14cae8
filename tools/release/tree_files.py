"""The files of a tree that are handed on: those that git knows, and where the folder is no checkout all, but what
building and running leave there. In a copy each has one of two modes, and one date.
"""
import fnmatch
import os
import shutil
from collections.abc import Iterator

from credaudit_tools.provenance import trees

LEFT = ("out", "build", "__pycache__", ".mypy_cache", ".git", "*.egg-info")     # those of .gitignore, and git's own
PLAIN, RUN = 0o644, 0o755


def walked(top: str) -> Iterator[str]:
    """The files below a folder, but what is left there, by their paths from its top on."""
    for folder, folders, names in os.walk(top):
        folders[:] = [name for name in folders if not any(fnmatch.fnmatch(name, each) for each in LEFT)]
        for name in names:
            yield os.path.relpath(os.path.join(folder, name), top)


def listed(top: str) -> list[str]:
    """The files of a tree, in order, without the text that tells the commit of one that is no checkout."""
    top = os.path.realpath(top)
    known = trees.asked(top, "ls-files", "-z").split("\0") if trees.is_checkout(top) else walked(top)
    here = {path for path in known if os.path.isfile(os.path.join(top, path))}
    return sorted(here - {trees.COMMIT}, key=os.fsencode)


def copy_file(source: str, target: str, mode: int | None = None) -> None:
    """Copies a file, with the mode of a program or that of a text."""
    os.makedirs(os.path.dirname(target), exist_ok=True)
    shutil.copyfile(source, target)
    os.chmod(target, mode or (RUN if os.access(source, os.X_OK) else PLAIN))


def copied(top: str, into: str) -> None:
    """Copies a tree, with its commit."""
    for path in listed(top):
        copy_file(os.path.join(top, path), os.path.join(into, path))
    with open(os.path.join(into, trees.COMMIT), "w", encoding="ascii") as file:
        file.write(trees.commit(top) + "\n")


def settled(top: str, seconds: int) -> None:
    """Gives all below a folder one of two modes, and one date."""
    for folder, folders, names in os.walk(top, topdown=False):
        for path in (os.path.join(folder, name) for name in (*names, *folders)):
            if not os.path.islink(path):
                os.chmod(path, RUN if os.path.isdir(path) or os.access(path, os.X_OK) else PLAIN)
            os.utime(path, (seconds, seconds), follow_symlinks=False)
    os.chmod(top, RUN)
    os.utime(top, (seconds, seconds))
