"""The texts of Debian's package: its control file and its changelog, of the tree's own texts (deb-control(5),
deb-changelog(5), deb-md5sums(5))."""
import email.utils
import hashlib
import os
import textwrap
from collections.abc import Iterator
from typing import NamedTuple

from .changes import Version

HERE = os.path.dirname(os.path.abspath(__file__))
NO_HOME = "Homepage: \n"
BLOCK, WIDTH = 1024, 78


class Named(NamedTuple):
    """What a package says of itself: its version and architecture, and who made it, where."""

    version: str
    architecture: str
    maintainer: str
    homepage: str


def template(name: str) -> str:
    """A text of this folder's debian/."""
    with open(os.path.join(HERE, "debian", name), encoding="ascii") as file:
        return file.read()


def files(root: str) -> Iterator[str]:
    """What a package installs, by the paths from its root on; links too."""
    for folder, folders, names in os.walk(root):
        folders.sort()
        links = [name for name in folders if os.path.islink(os.path.join(folder, name))]
        yield from (os.path.relpath(os.path.join(folder, name), root) for name in sorted(names + links))


def size(root: str) -> int:
    """The size that a package tells: of each file its blocks of 1024 bytes, and one for all else."""
    total = 0
    for folder, folders, names in os.walk(root):
        plain = [path for path in (os.path.join(folder, name) for name in names) if not os.path.islink(path)]
        total += len(folders) + len(names) - len(plain) + sum(-(-os.path.getsize(path) // BLOCK) for path in plain)
    return total


def control(named: Named, root: str, libraries: str) -> str:
    """The control file of what stands in a folder."""
    return template("control").format(**named._asdict(), size=size(root), libraries=libraries).replace(NO_HOME, "")


def sums(root: str) -> str:
    """The sums of all plain files, as dpkg keeps them."""
    found = []
    for path in files(root):
        if not os.path.islink(os.path.join(root, path)):
            with open(os.path.join(root, path), "rb") as file:
                found.append(f"{hashlib.file_digest(file, 'md5').hexdigest()}  {path}\n")
    return "".join(found)


def changelog(versions: list[Version], named: Named) -> str:
    """CHANGELOG.md's versions as Debian's changelog has them. The newest has the package's name."""
    found = []
    for version in versions:
        items = "\n".join(textwrap.fill(item, WIDTH, initial_indent="  * ", subsequent_indent="    ",
                                        break_long_words=False, break_on_hyphens=False) for item in version.items)
        name = named.version if version is versions[0] else version.name
        found.append(f"credaudit ({name}) unstable; urgency=medium\n\n{items}\n\n"
                     f" -- {named.maintainer}  {email.utils.format_datetime(version.day())}\n")
    return "\n".join(found)
