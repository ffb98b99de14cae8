#!/usr/bin/env python3
"""Tries the package for Debian as a new user would, in an empty root that debootstrap makes: `sudo
tools/release/try_deb.py DEB`.

  try_deb.py [--suite NAME] [--mirror URL] [--keep FOLDER] DEB

Needs root, debootstrap and a network, and takes some minutes. In the root stand Debian's essential packages and apt
alone. There apt installs the package, with what it depends on, sudo and a C compiler. An ordinary user, who may use
sudo, pastes each block with a `$ ` of README.md and of other documents (pages/blocks.py, PASTED), as the package brings
them, and does what three readers do (release/readers); each command has to write what stands below it. dpkg then has to
find each file as it was, and once the package is removed nothing of it may be left. Each step tells how long it took.
FOLDER is made, and stays; else the root goes at the end. Status 0: all held.
"""
import os
import shutil
import sys
from collections.abc import Iterator

import tools_path  # noqa: F401
from make.kit import Failed
from pages.blocks import PASTED
from release import roots
from release.roots import READERS, USER, Root

DOCUMENTS = "usr/share/doc/credaudit"
NAME = "credaudit"
# What apt and dpkg write down of all packages, and what the user made.
RECORDS = ("var/lib/dpkg", "var/lib/apt", "var/cache", "var/log", "tmp", "home", "proc", "deb")
MOST = 20
COMPILER = ("gcc", "libc6-dev")     # for the daemon of TUTORIAL.md, step 9
WHO = ("daemon.md", "sandbox.md", "reviewer.md")


def installed(root: Root, deb: str) -> None:
    """Installs the package, with what it depends on, and for the user sudo and what TUTORIAL.md names."""
    os.mkdir(root.within("deb"))
    shutil.copy(deb, root.within("deb/credaudit.deb"))
    root.run("apt-get", "install", "--yes", "--no-install-recommends", "sudo", *COMPILER)
    root.put(f"etc/sudoers.d/{USER}", f"{USER} ALL=(ALL) NOPASSWD: ALL\n", 0o440)
    root.told(" ".join(("sudo", *COMPILER)))
    root.run("apt-get", "install", "--yes", "--no-install-recommends", "/deb/credaudit.deb")
    root.told("installed, with what it depends on: apt-get install ./credaudit.deb")


def texts(root: Root) -> Iterator[tuple[str, str]]:
    """The documents of the package that are pasted, and what readers do, each with its name."""
    for name in PASTED:
        yield name, root.within(os.path.join(DOCUMENTS, name))
    for name in WHO:
        yield name, os.path.join(READERS, name)


def used(root: Root) -> None:
    """The commands of all documents."""
    for name, path in texts(root):
        root.told(f"{root.pasted(path, '/' + DOCUMENTS)} commands of {name}, as {USER}")


def files(top: str) -> set[str]:
    """The paths of all files within, but records of packages and what users made."""
    found = set()
    for folder, folders, names in os.walk(top):
        inner = os.path.relpath(folder, top)
        folders[:] = [name for name in folders if os.path.normpath(os.path.join(inner, name)) not in RECORDS]
        found |= {os.path.normpath(os.path.join(inner, name)) for name in (*folders, *names)}
    return found


def compiled(path: str) -> bool:
    """Whether a file is a module that Python compiled, of any package."""
    return "__pycache__" in path


def gone(root: Root, before: set[str], own: set[str]) -> None:
    """Removes the package, which brought these own paths. Fails where something is left that wasn't there before, or
    something else is gone."""
    changed = root.run("dpkg", "--verify", NAME).stdout
    if changed:
        raise Failed(f"files of the package were changed:\n{changed}")
    root.run("apt-get", "purge", "--yes", NAME)
    after = {path for path in files(root.top) if not compiled(path) or NAME in path}
    left = [path for path in after if NAME in path or path not in before or path in own and is_plain(root, path)]
    lost = [path for path in before - after - own if not compiled(path)]
    if left or lost:
        raise Failed(f"left: {sorted(left)[:MOST]}\ngone: {sorted(lost)[:MOST]}")
    root.told("removed, and nothing is left: apt-get purge credaudit")


def is_plain(root: Root, path: str) -> bool:
    """Whether a path within is no folder, which packages share."""
    return not os.path.isdir(root.within(path))


def main() -> int:
    """The words of the script."""
    ask = roots.asking("Tries the package for Debian in an empty root.")
    ask.add_argument("deb", metavar="DEB")
    asked = ask.parse_args()

    def job(top: str) -> None:
        with roots.empty(asked, top) as root:
            installed(root, asked.deb)
            own = {path.removeprefix("/") for path in root.run("dpkg", "--listfiles", NAME).stdout.split("\n")}
            before = files(top)
            used(root)
            gone(root, before, own)
    return roots.tried(asked, job)


if __name__ == "__main__":
    sys.exit(main())
