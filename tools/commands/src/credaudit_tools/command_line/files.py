"""Reading and writing files whose names and contents others may have chosen.

Nothing is opened through a symbolic link at the name's end, nothing waits for a writer, and only regular files of a
bounded size are read.
"""
import os
import stat

from .command import Failure
from .printable import quoted

MOST = 1 << 30
SAFE = os.O_RDONLY | os.O_NOFOLLOW | os.O_NONBLOCK | os.O_CLOEXEC | os.O_NOCTTY


def read_regular(path: str | bytes, most: int = MOST, follow: bool = False) -> bytes:
    """The bytes of a regular file. A symbolic link is followed only where `follow` is given: for names that the user
    typed. Fails where it is no regular file or longer than `most`."""
    flags = SAFE & ~os.O_NOFOLLOW if follow else SAFE
    try:
        handle = os.open(path, flags)
    except OSError as error:
        raise Failure(f"{quoted(path)} can't be read: {error.strerror}") from error
    mode = os.fstat(handle).st_mode
    if not stat.S_ISREG(mode):
        os.close(handle)
        raise Failure(f"{quoted(path)} can't be read: it is {kind(mode)}, no regular file")
    with os.fdopen(handle, "rb") as file:
        data = file.read(most + 1)
    if len(data) > most:
        raise Failure(f"{quoted(path)} can't be read: it has more than {most} bytes")
    return data


def kind(mode: int) -> str:
    """What a file that isn't regular is, in words."""
    kinds = {stat.S_IFDIR: "a directory", stat.S_IFLNK: "a symbolic link", stat.S_IFIFO: "a pipe",
             stat.S_IFSOCK: "a socket", stat.S_IFCHR: "a device", stat.S_IFBLK: "a device"}
    return kinds.get(stat.S_IFMT(mode), "another kind of file")


def write_new(folder: str, name: str, data: bytes, mode: int = 0o600, owner: tuple[int, int] | None = None) -> None:
    """Puts a file into a folder, in the place of one of that name; readable by its owner alone, unless another mode is
    given, and given to `owner`, a user id and a group id, once it is written. It is a new one, whoever put something
    there before."""
    path = os.path.join(folder, name)
    part = path + ".part"
    if os.path.lexists(part):
        os.unlink(part)
    with open(os.open(part, os.O_WRONLY | os.O_CREAT | os.O_EXCL | os.O_NOFOLLOW | os.O_CLOEXEC, mode), "wb") as file:
        file.write(data)
        if owner is not None:
            file.flush()
            os.fchown(file.fileno(), *owner)
    os.replace(part, path)
