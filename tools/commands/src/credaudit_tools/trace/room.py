"""The folder of a recording while it is made: whoever moves it meanwhile, or puts a link in its place, what is written
goes into the folder that was made, and under sudo(8) that is handed on to whoever called it.

The folder is held open, and all is done by its descriptor: no path that others may change decides what is written, or
whose it becomes.
"""
import os
from collections.abc import Iterator
from contextlib import contextmanager
from dataclasses import dataclass, field

from ..command_line.command import Failure
from ..command_line.printable import quoted
from ..command_line.sudo_caller import Owner, caller

FOLDER = os.O_RDONLY | os.O_DIRECTORY | os.O_CLOEXEC


@dataclass
class Room:
    """A folder. `made` are the folders that weren't there, each with the one in which it was made and its name, the
    outermost first; `owner` is whose they are to be, None where they stay whoever's makes them."""
    handle: int
    owner: Owner | None = None
    made: list[tuple[int, str, int]] = field(default_factory=list)

    @property
    def path(self) -> str:
        """A path that leads to the folder wherever it is, for this process."""
        return f"/proc/self/fd/{self.handle}"

    def hand_on(self) -> None:
        """Gives the folders that were made to their owner, the inmost first: nothing is written to them any more."""
        if self.owner is not None:
            for _, _, handle in reversed(self.made):
                os.fchown(handle, *self.owner)

    def take_away(self) -> None:
        """Takes the folders away that were made, as far as nothing stands in them."""
        for above, name, handle in reversed(self.made):
            if os.listdir(handle):
                return
            try:
                os.rmdir(name, dir_fd=above)
            except OSError:
                return


def missing(folder: str) -> tuple[str, list[str]]:
    """The part of a path that is there, and the names that are to be made in it."""
    there, names = folder, list[str]()
    while there and not os.path.lexists(there):
        there, name = os.path.split(there)
        names = [name, *names] if name else names
    return there or ".", names


def entered(folder: str, held: Room, names: list[str]) -> None:
    """Makes the folders of these names, each in the one before, for their owner alone, and holds each open. Fails where
    another one came in between."""
    for name in names:
        if name == "..":
            raise Failure(f"{quoted(folder)} leads upwards from a folder that isn't there")
        os.mkdir(name, 0o700, dir_fd=held.handle)
        inner = os.open(name, FOLDER | os.O_NOFOLLOW, dir_fd=held.handle)
        held.made.append((held.handle, name, inner))
        held.handle = inner
        seen = os.fstat(inner)
        if seen.st_uid != os.geteuid() or seen.st_mode & 0o077 or os.listdir(inner):
            raise Failure(f"{quoted(folder)} isn't the folder that was made: another one came in its place")


@contextmanager
def room(folder: str) -> Iterator[Room]:
    """The folder of a recording that is made meanwhile. It is made where it isn't there, for its owner alone. At the
    end what was made is handed on, or, where the recording fails, goes again. Fails at once where nothing can be put
    into it."""
    if os.path.lexists(folder) and not os.path.isdir(folder):
        raise Failure(f"{quoted(folder)} is no folder", "name one, or a path at which nothing stands")
    there, names = missing(folder)
    first = os.open(there, FOLDER)
    held = Room(first)
    try:
        entered(folder, held, [name for name in names if name != "."])
        if not os.access(held.path, os.W_OK | os.X_OK):
            raise Failure(f"nothing can be put into {quoted(folder)}")
        own = caller()
        held.owner = own if held.made or (own is not None and os.fstat(held.handle).st_uid == own[0]) else None
        try:
            yield held
        finally:
            if os.listdir(held.handle):
                held.hand_on()
    except BaseException:
        held.take_away()
        raise
    finally:
        for handle in {first, *(inner for _, _, inner in held.made)}:
            os.close(handle)
