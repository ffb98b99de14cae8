"""Who may import whom in tools/, bench/ and examples/: the table of tools/layers.txt, and what the files import.

A part is a folder, or a subpackage of the two packages. Beside itself and the standard library a part imports what its
line names, and a line names only parts of lines above it, so nothing goes in a circle.
"""
import ast
import functools
import os
import sys
from collections.abc import Iterator

TOOLS = os.path.dirname(os.path.dirname(os.path.abspath(__file__)))
TABLE = os.path.join(TOOLS, "layers.txt")
PACKAGES = {"credaudit_tools": os.path.join("commands", "src"), "credaudit_check": os.path.join("checker", "src")}
MOST_MODULES = 15
COPIED = "tools_path.py"    # beside scripts that are run by their own path, a copy in each folder; it imports nothing


def table(text: str) -> dict[str, list[str]]:
    """By part what it may import, in the order of the lines; one that begins with a blank goes on with the line before.
    ValueError where a line is none."""
    found, part, front = dict[str, list[str]](), "", ""
    for line in text.splitlines():
        if line.startswith(" "):
            found[part] += [front + each if each.startswith(".") else each for each in line.split()]
        elif line and not line.startswith("#"):
            part, colon, others = line.partition(":")
            if not colon or part in found:
                raise ValueError(line)
            front = part.split(".")[0]
            found[part] = [front + each if each.startswith(".") else each for each in others.split()]
    return found


def part_of(path: str) -> str:
    """The part to which a file belongs, by its path from tools/ on."""
    folders = path.split(os.sep)[:-1]
    if folders[:1] == [".."]:
        return folders[1]
    if folders[1:2] == ["src"]:
        return ".".join(folders[2:4]) or path.split(os.sep)[-1].replace("-", "_")
    return ".".join(folders[:2]) if "tests" in folders[:2] else ".".join(folders[:1])


@functools.cache
def file_of(module: str) -> str | None:
    """The file of a module that is imported, by its path from tools/ on; None where it is none of tools/."""
    first, path = module.split(".")[0], module.replace(".", os.sep)
    base = os.path.join(PACKAGES.get(first, ""), path)
    for each in (base + ".py", os.path.join(base, "__init__.py")):
        if os.path.isfile(os.path.join(TOOLS, each)):
            return each
    return None


def is_python(path: str) -> bool:
    """Whether a file is one of Python."""
    if path.endswith(".py"):
        return True
    with open(path, "rb") as file:
        return "." not in os.path.basename(path) and file.readline() == b"#!/usr/bin/env python3\n"


def files() -> Iterator[str]:
    """The files of Python of tools/, bench/ and examples/, by their paths from tools/ on."""
    for top in (TOOLS, os.path.join(TOOLS, "..", "bench"), os.path.join(TOOLS, "..", "examples")):
        for folder, folders, names in os.walk(top):
            folders[:] = sorted(each for each in folders if each not in ("build", "data", "__pycache__", ".mypy_cache"))
            for path in (os.path.join(folder, name) for name in sorted(names)):
                if os.path.isfile(path) and is_python(path):
                    yield os.path.relpath(path, TOOLS)


@functools.cache
def modules(path: str) -> tuple[str, ...]:
    """The files of tools/ that a file imports. ImportError where a name is neither of tools/ nor of Python's
    own library nor of the file's folder."""
    with open(os.path.join(TOOLS, path), encoding="utf-8") as file:
        tree = ast.parse(file.read())
    here = path.split(os.sep)[:-1]
    package = here[2:] if here[1:2] == ["src"] else here
    found_files = list[str]()
    for node in ast.walk(tree):
        names = [each.name for each in node.names] if isinstance(node, ast.Import) else []
        if isinstance(node, ast.ImportFrom):
            front = package[:len(package) - node.level + 1] if node.level else []
            module = ".".join([*front, *filter(None, [node.module])])
            full = [f"{module}.{each.name}" for each in node.names]
            names = [each if file_of(each) else module for each in full]
        for name in names:
            found, first = file_of(name), name.split(".")[0]
            if found is not None:
                found_files.append(found)
            elif first not in sys.stdlib_module_names and not os.path.isfile(
                    os.path.join(TOOLS, *here, first + ".py")):
                raise ImportError(f"{path} imports {name}")
    return tuple(found_files)


def reached(paths: list[str]) -> set[str]:
    """These files, and all that they import, over any others."""
    found, waiting = set[str](), list(paths)
    while waiting:
        path = waiting.pop()
        if path not in found:
            found.add(path)
            waiting += modules(path)
    return found


def seen() -> dict[str, set[str]]:
    """By part the others that its files import."""
    found = dict[str, set[str]]()
    for path in files():
        parts = {part_of(each) for each in modules(path) if os.path.basename(each) != COPIED}
        found.setdefault(part_of(path), set()).update(parts - {part_of(path)})
    return found
