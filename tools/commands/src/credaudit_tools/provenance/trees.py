"""Trees of sources: that of a folder, and the one that these commands are of."""
import os
import re
import subprocess

from .. import VERSION
from . import places, sources, stamp
from .stamp import Tree

UNKNOWN, COMMIT = "unknown", "COMMIT"    # COMMIT is the file of a tarball that tells of which commit it is


def asked(top: str, *words: str) -> str:
    """What git answers for a folder; nothing where it isn't there or refuses. It writes nothing there, and takes the
    folder also where another user owns it."""
    environment = {key: value for key, value in os.environ.items() if not key.startswith("GIT_")}
    try:
        done = subprocess.run(["git", "--no-optional-locks", "-c", f"safe.directory={top}", "-C", top, *words],
                              env=environment, stdin=subprocess.DEVNULL, capture_output=True, check=False)
    except OSError:
        return ""
    return done.stdout.decode("utf-8", "replace").removesuffix("\n") if done.returncode == 0 else ""


def is_checkout(top: str) -> bool:
    """Whether a folder is the top of a checkout."""
    top = os.path.realpath(top)
    return asked(top, "rev-parse", "--show-toplevel") == top


def told(top: str) -> str:
    """The commit that a tree which is no checkout tells."""
    text = (stamp.text_of(os.path.join(top, COMMIT)) or "").removesuffix("\n")
    return text if re.fullmatch(stamp.KEYS["commit"], text) else UNKNOWN


def commit(top: str) -> str:
    """The commit that a folder has checked out, with `-changed` where files that git knows are others; `unknown` where
    the folder isn't the top of a checkout, and doesn't tell either of which it was made."""
    if not is_checkout(top):
        return told(top)
    told_by_git = asked(os.path.realpath(top), "describe", "--always", "--abbrev=64", "--exclude=*", "--dirty=-changed")
    return told_by_git or UNKNOWN


def of(top: str) -> Tree:
    """The tree of a folder. OSError where a source can't be read."""
    return Tree(VERSION, commit(top), sources.sum_of(top))


def own() -> Tree | None:
    """The tree that these commands are of: the checkout's, or the one that `make install` wrote down. None where
    neither can be read."""
    try:
        if places.in_checkout():
            return of(places.CHECKOUT)
        text = stamp.text_of(os.path.join(places.LIBRARY, places.TREE))
        return stamp.read_tree(text) if text is not None else None
    except (OSError, ValueError):
        return None
