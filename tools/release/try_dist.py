#!/usr/bin/env python3
"""Tries the tarball as somebody would who wants to send a change, in an empty root that debootstrap makes: `sudo
tools/release/try_dist.py --kit FOLDER TARBALL`.

  try_dist.py [--suite NAME] [--mirror URL] [--keep FOLDER] --kit FOLDER TARBALL

Needs root, debootstrap, a network and the kit that README.md names, and takes a quarter of an hour. The kit's FOLDER is
shown in the root by the same path, where nothing can be written to it; its bin stands in the PATH. In the root stand
Debian's essential packages and apt alone; there apt installs what CONTRIBUTING.md names. An ordinary user unpacks the
tarball, and does in its folder what release/readers/contributor.md says: each command has to write what stands below
it. Each step tells how long it took. The root goes at the end, but for --keep. Status 0: all held.
"""
import os
import re
import shutil
import sys

import tools_path
from make.kit import Failed
from release import roots
from release.roots import NUMBER, READERS, USER, Root

WHO = "contributor.md"
PAGE = os.path.join(tools_path.TOP, "CONTRIBUTING.md")
INSTALL = re.compile(r"`(?:sudo )?(apt-get install [^`]*)`")


def needed() -> list[str]:
    """The command by which CONTRIBUTING.md has Debian's packages installed."""
    with open(PAGE, encoding="utf-8") as file:
        found = INSTALL.search(file.read())
    if found is None:
        raise Failed("CONTRIBUTING.md names no packages of Debian")
    return found[1].split()


def unpacked(root: Root, tarball: str) -> str:
    """Installs what is needed, and unpacks the tarball at the user's; its folder within."""
    words = needed()
    root.run(*words[:2], "--yes", "--no-install-recommends", *words[2:])
    root.told(" ".join(words))
    home = f"/home/{USER}"
    name = os.path.basename(tarball)
    shutil.copy(tarball, root.within(home))
    root.run("tar", "-xf", f"{home}/{name}", "-C", home, user=NUMBER)
    root.told(f"unpacked: tar -xf {name}")
    return os.path.join(home, name.removesuffix(".tar.xz"))


def main() -> int:
    """The words of the script."""
    ask = roots.asking("Tries the tarball in an empty root.")
    ask.add_argument("--kit", required=True, metavar="FOLDER", help="the kit's folder, in which bin/rt is")
    ask.add_argument("tarball", metavar="TARBALL")
    asked = ask.parse_args()
    folder = os.path.abspath(asked.kit)

    def job(top: str) -> None:
        with roots.empty(asked, top, os.path.join(folder, "bin")) as root, roots.shown(folder, root.within(folder)):
            tree = unpacked(root, asked.tarball)
            root.told(f"{root.pasted(os.path.join(READERS, WHO), tree)} commands of {WHO}, as {USER}")
    return roots.tried(asked, job)


if __name__ == "__main__":
    sys.exit(main())
