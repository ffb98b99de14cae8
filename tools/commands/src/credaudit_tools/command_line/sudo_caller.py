"""Whoever called a command by sudo(8): whose the files are to be that it makes as root."""
import os
import stat

LAST_ID = 4294967294
Owner = tuple[int, int]         # user id and group id


def id_of(text: str | None) -> int | None:
    """An id of a variable that sudo(8) sets; None where it is none."""
    good = text is not None and text.isascii() and text.isdigit() and len(text) <= len(str(LAST_ID))
    return int(text) if good and text is not None and int(text) <= LAST_ID else None


def caller() -> Owner | None:
    """Who called this command by sudo(8), where it runs as root for another user."""
    user, group = id_of(os.environ.get("SUDO_UID")), id_of(os.environ.get("SUDO_GID"))
    return (user, group) if os.geteuid() == 0 and user and group is not None else None


def of_file(folder: int, name: str) -> Owner | None:
    """Who called this command by sudo(8), where that user could have put a file of this name into a folder too: the
    folder is the user's, or everybody may write to it and nobody else's file stands there. None elsewhere: what is put
    into another folder isn't given away."""
    own, above = caller(), os.fstat(folder)
    if own is None or above.st_uid == own[0]:
        return own
    try:
        there = os.stat(name, dir_fd=folder, follow_symlinks=False).st_uid
    except FileNotFoundError:
        there = own[0]
    return own if above.st_mode & stat.S_IWOTH and there == own[0] else None
