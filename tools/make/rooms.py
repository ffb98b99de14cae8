"""A room for each crate that is proved beside others. A command of the kit keeps all folders of crates that it reads to
itself, so two of one checkout wait for each other. A room is a copy: the list, the sources of the crate and of all
that it stands on, and their libraries as they were built, by hard links. What was kept of the crate itself is moved
there and back. The kit knows each library by a sum of its sources and of what it stands on, wherever it lies.
"""
import contextlib
import fcntl
import os
import shutil
from collections.abc import Iterator, Sequence

from .crate_list import PARTS, Crates

ROOM, LIBRARY = "room", "rlib"
KEPT = ("incremental", LIBRARY)         # what a command keeps in out/ of a library


def link(one: str, other: str) -> str:
    """Gives a file a second name, or copies it where that can't be."""
    try:
        os.link(one, other)
    except OSError:
        shutil.copy2(one, other)
    return other


def moved(folder: str, to: str) -> None:
    """Moves what is kept from one out/ to another."""
    os.makedirs(to, exist_ok=True)
    for name in KEPT:
        if os.path.isdir(os.path.join(folder, name)):
            shutil.rmtree(os.path.join(to, name), ignore_errors=True)
            os.rename(os.path.join(folder, name), os.path.join(to, name))


def locked(folders: Sequence[str]) -> list[int]:
    """Waits until no command of the kit works in these folders, and keeps others out until what is returned is closed:
    the kit locks the folders of crates so."""
    found = sorted(os.path.realpath(folder) for folder in folders)
    held = [os.open(folder, os.O_RDONLY) for folder in found]
    for descriptor in held:
        with contextlib.suppress(OSError):      # some file systems have no locks
            fcntl.flock(descriptor, fcntl.LOCK_EX)
    return held


@contextlib.contextmanager
def alone_in(folders: Sequence[str]) -> Iterator[None]:
    """While this lasts, no command of the kit works in these folders."""
    held = locked(folders)
    try:
        yield
    finally:
        for descriptor in held:
            os.close(descriptor)


def swept(crates: Crates, name: str) -> None:
    """Gives a crate back what a killed run left in its room, and removes that."""
    room = os.path.join(crates.out(name), ROOM)
    inside = os.path.join(room, "crates", name)
    if os.path.isdir(inside):
        with alone_in([inside]):
            moved(os.path.join(inside, "out"), crates.out(name))
    shutil.rmtree(room, ignore_errors=True)


@contextlib.contextmanager
def room(crates: Crates, name: str) -> Iterator[str]:
    """The crate's folder in a new room. At the end what is kept there goes to the crate's own folder."""
    top, below = os.path.join(crates.out(name), ROOM), crates.below(name)
    inside = os.path.join(top, "crates", name)
    os.makedirs(top)
    try:
        with open(os.path.join(top, "crates.txt"), "w", encoding="utf-8") as file:
            file.writelines(f"{crates.listed[each].line}\n" for each in [*below, name])
        for each in [*below, name]:
            for part in PARTS:
                if os.path.isdir(os.path.join(crates.folder(each), part)):
                    shutil.copytree(os.path.join(crates.folder(each), part), os.path.join(top, "crates", each, part))
        for each in below:
            shutil.copytree(os.path.join(crates.out(each), LIBRARY), os.path.join(top, "crates", each, "out", LIBRARY),
                            copy_function=link)
        moved(crates.out(name), os.path.join(inside, "out"))
        yield inside
    finally:
        swept(crates, name)
