"""Files whose names a user typed, which may stand for a pipe: `<(..)` and `>(..)` of a shell, /dev/stdin, /dev/stdout.

No reading waits for ever: where nothing comes for a minute it fails. What is written stands whole, or not at all.
"""
import os
import re
import select
import stat
import sys

from .command import Failure
from .files import kind, write_new
from .printable import quoted

OWN = re.compile(r"/(?:dev|proc/self)/(?:fd/(?P<number>[0-9]{1,9})|(?P<name>stdin|stdout|stderr))")
NAMES = {"stdin": 0, "stdout": 1, "stderr": 2}
PIECE, PATIENCE = 1 << 16, 60.0
HINT = "sudo(8) closes what a shell opened for <(..): /dev/stdin stays"


def own_descriptor(path: str) -> int | None:
    """The number of the descriptor of this process that a path stands for; None where it stands for none."""
    found = OWN.fullmatch(path)
    if found is None:
        return None
    return NAMES[found["name"]] if found["name"] else int(found["number"])


def opened(path: str) -> int:
    """A descriptor to read a path by. Fails where it is neither a regular file nor what bytes come from."""
    own = own_descriptor(path)
    try:
        handle = os.open(path, os.O_RDONLY | os.O_NONBLOCK | os.O_CLOEXEC | os.O_NOCTTY) if own is None else os.dup(own)
    except OSError as error:
        raise Failure(f"{quoted(path)} can't be read: {error.strerror}", HINT if own is not None else "") from error
    mode = os.fstat(handle).st_mode
    if stat.S_ISDIR(mode) or stat.S_ISBLK(mode):
        os.close(handle)
        raise Failure(f"{quoted(path)} can't be read: it is {kind(mode)}, no regular file and no pipe")
    return handle


def read_typed(path: str, most: int) -> bytes:
    """The bytes of a file or of a pipe, to its end. Fails where it has more than `most`, and where nothing comes for a
    minute."""
    handle, data = opened(path), bytearray()
    try:
        waiting = select.poll()
        waiting.register(handle, select.POLLIN)
        while len(data) <= most:
            if not waiting.poll(PATIENCE * 1000):
                raise Failure(f"{quoted(path)} can't be read: nothing came from it for {PATIENCE:.0f} seconds")
            piece = os.read(handle, PIECE)
            if not piece:
                return bytes(data)
            data += piece
    except OSError as error:
        raise Failure(f"{quoted(path)} can't be read: {error.strerror}") from error
    finally:
        os.close(handle)
    raise Failure(f"{quoted(path)} can't be read: it has more than {most} bytes")


def check_can_be_put(path: str) -> None:
    """Fails where nothing can be put at a path: before long work, and not after it."""
    if own_descriptor(path) is not None:
        return
    folder = os.path.dirname(os.path.realpath(path))
    if os.path.exists(path) and not os.path.isfile(path):
        raise Failure(f"{quoted(path)} can't be written: it is {kind(os.stat(path).st_mode)}, no regular file")
    if not os.path.isdir(folder):
        raise Failure(f"{quoted(path)} can't be written: there is no folder {quoted(folder)}")
    if not os.access(folder, os.W_OK | os.X_OK):
        raise Failure(f"{quoted(path)} can't be written: nothing can be put into {quoted(folder)}")


def put_typed(path: str, data: bytes) -> None:
    """Writes a file, in the place of one that stands there, or to the descriptor that the path stands for. A symbolic
    link stays one. The umask says who may read it."""
    check_can_be_put(path)
    own = own_descriptor(path)
    if own is not None:
        sys.stdout.flush()
        with os.fdopen(os.dup(own), "wb") as file:
            file.write(data)
        return
    folder, name = os.path.split(os.path.realpath(path))
    write_new(folder, name, data, 0o666)
