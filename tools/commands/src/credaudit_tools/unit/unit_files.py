"""The files of a unit: the unit's own, and its drop-ins, looked for as systemd.unit(5) has it."""
import os
from dataclasses import dataclass, field

from ..command_line.command import Broken, Failure
from ..command_line.files import read_regular
from ..command_line.printable import quoted
from .unit_text import Assignment, assignments

PATH = ("/etc/systemd/system.control", "/run/systemd/system.control", "/run/systemd/transient",
        "/run/systemd/generator.early", "/etc/systemd/system", "/etc/systemd/system.attached", "/run/systemd/system",
        "/run/systemd/system.attached", "/run/systemd/generator", "/usr/local/lib/systemd/system",
        "/usr/lib/systemd/system", "/lib/systemd/system", "/run/systemd/generator.late")
SUFFIX, MOST, LINKS = ".service", 1 << 24, 40


@dataclass
class Unit:
    """A unit: its name, its names as systemd knows them, its files in the order in which they are read, and all
    assignments of theirs."""
    name: str
    files: list[str] = field(default_factory=list)
    given: list[Assignment] = field(default_factory=list)

    def values(self, key: str) -> list[str]:
        """The values of a key of the section [Service], in their order."""
        return [each.value for each in self.given if each.section == "Service" and each.key == key]

    def keys(self) -> list[str]:
        """The keys of the section [Service], each once, in their order."""
        return list(dict.fromkeys(each.key for each in self.given if each.section == "Service"))

    def prefix(self) -> str:
        """The name without suffix and instance (specifier %p)."""
        return self.name.removesuffix(SUFFIX).partition("@")[0]

    def instance(self) -> str:
        """What stands behind the first @ (specifier %i)."""
        return self.name.removesuffix(SUFFIX).partition("@")[2]


def read(unit: Unit, path: str) -> None:
    """Adds the assignments of a file. One that is masked, as a link to /dev/null, has none."""
    unit.files.append(path)
    if os.path.realpath(path) == os.devnull:
        return
    unit.given += assignments(read_regular(path, MOST, follow=True).decode("utf-8", "replace"), path)


def of_file(path: str) -> Unit:
    """The unit of a file, without drop-ins."""
    unit = Unit(os.path.basename(path))
    read(unit, path)
    return unit


def below(root: str, path: str) -> str:
    """A path of another root directory."""
    return os.path.normpath(root + path) if root != "/" else path


def template(name: str) -> str | None:
    """The template of an instance's name."""
    stem, at, _ = name.removesuffix(SUFFIX).partition("@")
    return f"{stem}@{SUFFIX}" if at and stem + "@" + SUFFIX != name else None


def placed(root: str, name: str) -> str | None:
    """The file of a name, or of its template, in the first folder that has one; None where none has."""
    return next((path for each in (name, template(name)) if each is not None for folder in PATH
                 if os.path.lexists(path := os.path.join(below(root, folder), each))), None)


def find(root: str, name: str) -> tuple[str, list[str]]:
    """The file of a unit, and all its names: a link to another unit is an alias. Fails where there is none."""
    found, names = placed(root, name), [name]
    if found is None:
        raise Failure(f"there is no unit {quoted(name)}", "name a unit of the system, or the file of one")
    for _ in range(LINKS):
        target = os.path.basename(os.readlink(found)) if os.path.islink(found) else names[-1]
        further = placed(root, target)
        if target in (*names, template(names[-1])) or not target.endswith(SUFFIX) or further is None:
            return found, names
        names.append(target)
        found = further
    raise Failure(f"the unit {quoted(name)} is an alias of an alias, too often")


def aliases(root: str, names: list[str]) -> list[str]:
    """The names with those of all links that lead to one of them."""
    links = dict[str, str]()
    for folder in PATH:
        place = below(root, folder)
        for file in sorted(os.listdir(place)) if os.path.isdir(place) else []:
            path = os.path.join(place, file)
            if file.endswith(SUFFIX) and os.path.islink(path):
                links.setdefault(file, os.path.basename(os.readlink(path)))
    found = list(names)
    while more := [file for file, target in links.items() if target in found and file not in found]:
        found += more
    return found


def folders(name: str) -> list[str]:
    """The folders of drop-ins of a name, the most specific first: its own, its template's, and those of each front of
    it that ends in a dash."""
    found = [f"{name}.d"]
    general = template(name)
    if general is not None:
        found.append(f"{general}.d")
    stem = (general or name).removesuffix(SUFFIX)
    at = "@" if stem.endswith("@") else ""
    stem = stem.removesuffix("@").removesuffix("-")
    while "-" in stem:
        stem = stem.rpartition("-")[0].rstrip("-")
        if stem:
            found.append(f"{stem}-{at}{SUFFIX}.d")
    return found


def drop_ins(root: str, names: list[str]) -> list[str]:
    """The drop-ins of all names, by their file names; of two with one name the first folder's counts. Folders of type
    come last."""
    places = [os.path.join(below(root, folder), each) for folder in PATH for name in names for each in folders(name)]
    places += [os.path.join(below(root, folder), "service.d") for folder in PATH]
    found = dict[str, str]()
    for place in places:
        for file in sorted(os.listdir(place)) if os.path.isdir(place) else []:
            if file.endswith(".conf"):
                found.setdefault(file, os.path.join(place, file))
    return [found[file] for file in sorted(found)]


def named(name: str, root: str = "/") -> Unit:
    """The unit of a name, with its drop-ins. Fails where there is none, or it is masked."""
    path, names = find(root, name)
    if os.path.realpath(path) == os.devnull:
        raise Broken(f"the unit {quoted(name)} is masked: {path} leads to /dev/null")
    unit = Unit(name)
    for each in (path, *drop_ins(root, aliases(root, names))):
        read(unit, each)
    return unit
