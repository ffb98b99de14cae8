#!/usr/bin/env python3
"""Makes this tree in two folders by two users, and compares the programs byte for byte.

  same_program.py [--try] [--users NAME,NAME] [--side-by-side] [--keep FILE] [--below FOLDER] [--top FOLDER]

As root, with the kit. The tree is copied without what was built and without git's folder, once to a folder of a short
path and once to one of a longer path, each below FOLDER (else below that of temporary files) and owned by its user
(nobody and daemon, where none are named). Each user runs `make` in his own, with an environment that has nothing but a
path and a home: one after the other, by all processors each, or with --side-by-side both at once, by half of them each.
From nothing that proves all twice; but what root checked in other checkouts, the kit may take from there. As soon as
the first program is there, it is copied to FILE, and its stamp to FILE.build. With --try it is `make try`, of the build
that isn't proved. Status 0: both programs are the same; 1: they aren't, or one isn't there.
"""
import argparse
import os
import pwd
import shutil
import subprocess
import sys
import tempfile
from collections.abc import Sequence
from concurrent.futures import ThreadPoolExecutor
from typing import NamedTuple

import tools_path
from credaudit_tools.provenance import places
from credaudit_tools.provenance.sources import sum_of_file
from make import kit, machine
from make.kit import Failed

LEFT_OUT = shutil.ignore_patterns("out", ".git", "__pycache__", ".mypy_cache")
PLACES = ("a", os.path.join("another", "longer", "path"))
PATH = "/usr/local/sbin:/usr/local/bin:/usr/sbin:/usr/bin:/sbin:/bin"
PROVED, TRIED = ("all", "credaudit"), ("try", "credaudit-unproved")     # the target, and the program that it leaves
EVERYONE = 0o755


class Asked(NamedTuple):
    """What is made of which tree, where, and how."""

    top: str
    below: str | None = None
    what: tuple[str, str] = PROVED
    at_once: bool = False
    keep: str | None = None


def own(folder: str, user: str | None) -> None:
    """Gives a folder and all below it to a user."""
    if user is None:
        return
    entry = pwd.getpwnam(user)
    for found, folders, names in os.walk(folder):
        for path in (found, *(os.path.join(found, name) for name in (*folders, *names))):
            os.lchown(path, entry.pw_uid, entry.pw_gid)


def made(folder: str, target: str, user: str | None, lanes: int) -> int:
    """Makes a target in a tree, as a user, by so many processors; the status of make."""
    home = os.path.join(folder, "home")
    os.mkdir(home)
    own(folder, user)
    rt = shutil.which("rt")
    path = f"{os.path.dirname(rt)}:{PATH}" if rt else PATH
    environment = {"PATH": path, "HOME": home, "TMPDIR": home}
    tree = os.path.join(folder, "tree")
    words = ["make", "-C", tree, f"JOBS={lanes}", target]
    if user is None:
        return subprocess.run(words, env=environment, stdin=subprocess.DEVNULL, check=False).returncode
    group = pwd.getpwnam(user).pw_gid
    return subprocess.run(words, env=environment, stdin=subprocess.DEVNULL, check=False, user=user, group=group,
                          extra_groups=[]).returncode


def program_of(asked: Asked, folder: str, user: str | None) -> str:
    """The program that a user makes of a copy of the tree. Fails where none is left."""
    target, name = asked.what
    os.makedirs(folder, EVERYONE)
    tree = os.path.join(folder, "tree")
    shutil.copytree(asked.top, tree, symlinks=True, ignore=LEFT_OUT)
    print(f"{user or 'you'}: make {target} in {tree}", flush=True)
    lanes = machine.processors()
    status = made(folder, target, user, -(-lanes // 2) if asked.at_once else lanes)
    path = os.path.join(tree, "crates", "credaudit", "out", name)
    if status or not os.path.isfile(path):
        raise Failed(f"make {target} ended with status {status}" if status else f"make {target} left no program")
    print(f"{sum_of_file(path)}  {path}", flush=True)
    return path


def kept(program: str, keep: str | None) -> None:
    """Copies a program and its stamp, where no other one did so yet. The program comes last, so its stamp is there."""
    if keep is None or os.path.exists(keep):
        return
    shutil.copy(program + places.BUILD, keep + places.BUILD)
    shutil.copy(program, keep + ".new")
    os.replace(keep + ".new", keep)


def same(first: str, second: str) -> bool:
    """Whether two files have the same bytes."""
    with open(first, "rb") as one, open(second, "rb") as other:
        return one.read() == other.read()


def both(asked: Asked, outer: str, users: Sequence[str | None]) -> list[str]:
    """Both programs."""
    def one(place: str, user: str | None) -> str:
        program = program_of(asked, os.path.join(outer, place), user)
        kept(program, asked.keep)
        return program

    if not asked.at_once:
        return [one(place, user) for place, user in zip(PLACES, users)]
    with ThreadPoolExecutor(len(users)) as pool:
        return list(pool.map(one, PLACES, users))


def compared(asked: Asked, users: Sequence[str | None]) -> int:
    """Makes both, and compares them; the status."""
    with tempfile.TemporaryDirectory(prefix="credaudit-same-", dir=asked.below) as outer:
        os.chmod(outer, EVERYONE)
        is_same = same(*both(asked, outer, users))
    print("the programs are the same byte for byte" if is_same else "the programs differ")
    return 0 if is_same else 1


def main() -> int:
    """The words of the script."""
    ask = argparse.ArgumentParser(description="Makes this tree in two folders by two users, and compares the programs.")
    ask.add_argument("--try", action="store_true", dest="tries", help="the build that isn't proved")
    ask.add_argument("--users", default="nobody,daemon", metavar="NAME,NAME", help="who makes them")
    ask.add_argument("--side-by-side", action="store_true", dest="at_once", help="both at once")
    ask.add_argument("--keep", metavar="FILE", help="where the first program is copied to, with its stamp beside it")
    ask.add_argument("--below", metavar="FOLDER", help="where the copies go")
    ask.add_argument("--top", default=tools_path.TOP, metavar="FOLDER", help="the repository, if it isn't this one")
    asked = ask.parse_args()
    users = asked.users.split(",")
    if asked.keep and os.path.exists(asked.keep):
        ask.error(f"{asked.keep} is there already")
    if len(users) != 2:
        ask.error("--users takes two names")
    if os.geteuid() != 0:
        ask.error("only root may make as other users")
    what = TRIED if asked.tries else PROVED
    return kit.carried_out(lambda: compared(Asked(asked.top, asked.below, what, asked.at_once, asked.keep), users))


if __name__ == "__main__":
    sys.exit(main())
