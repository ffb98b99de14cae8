"""The sum of a tree's sources: of crates.txt, and of all files below src, specs and proofs of the crates that it
lists. The sum of each and its path, in the order of the paths' bytes, are the text whose SHA-256 it is, as these write:

  { echo crates.txt; find crates/*/src crates/*/specs crates/*/proofs -type f; } | LC_ALL=C sort |
    xargs sha256sum | sha256sum
"""
import hashlib
import os
from collections.abc import Iterator

LIST, PARTS = "crates.txt", ("src", "specs", "proofs")


def sum_of_file(path: str) -> str:
    """The SHA-256 of a file."""
    with open(path, "rb") as file:
        return hashlib.file_digest(file, "sha256").hexdigest()


def crates(text: str) -> list[str]:
    """The crates of the list: the first word of each line, without its remark."""
    lines = (line.partition("#")[0].replace(":", " ").split() for line in text.splitlines())
    return [words[0] for words in lines if words]


def raised(error: OSError) -> None:
    """Passes on that a folder can't be read."""
    raise error


def below(top: str, folder: str) -> Iterator[str]:
    """The files below a folder of a tree, by their paths from its top on."""
    for found, _, names in os.walk(os.path.join(top, folder), onerror=raised):
        for name in names:
            yield os.path.relpath(os.path.join(found, name), top)


def files(top: str) -> list[str]:
    """The sources of a tree, in order, by their paths from its top on. OSError where the list, or a crate that it
    names, isn't there."""
    with open(os.path.join(top, LIST), encoding="utf-8") as file:
        listed = crates(file.read())
    found = [LIST]
    for name in listed:
        crate = os.path.join("crates", name)
        there = set(os.listdir(os.path.join(top, crate)))
        for part in PARTS:
            if part in there:
                found += below(top, os.path.join(crate, part))
    return sorted(found, key=os.fsencode)


def sum_of(top: str) -> str:
    """The sum of a tree's sources. OSError where one can't be read."""
    whole = hashlib.sha256()
    for path in files(top):
        whole.update(f"{sum_of_file(os.path.join(top, path))}  ".encode() + os.fsencode(path) + b"\n")
    return whole.hexdigest()
