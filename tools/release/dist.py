#!/usr/bin/env python3
"""Makes the tarball of a version, with its sources and the built program: `make dist` calls it.

  dist.py [--top FOLDER] [--into FOLDER] PROGRAM

The tarball is credaudit-VERSION.tar.xz, in `build` of the repository if --into names no other folder. In it the program
stands where `make` leaves it, with its stamp, so that `make install` takes it from there without the kit. From one tree
and one program it is the same byte for byte: all files have the date that the version says, one of two modes, and root
for their owner. Its last line tells its sum.
"""
import argparse
import lzma
import os
import sys
import tarfile
import tempfile

import tools_path
from credaudit_tools.provenance.sources import sum_of_file
from make import kit
from make.kit import Failed
from release import built, changes, tree_files
from release.built import Program

PLACE = os.path.join("crates", "credaudit", "out", "credaudit")


def laid_out(top: str, program: Program, into: str) -> None:
    """Copies a tree and its program into a folder."""
    tree_files.copied(top, into)
    tree_files.copy_file(program.path, os.path.join(into, PLACE), tree_files.RUN)
    if os.path.isfile(program.stamp):
        tree_files.copy_file(program.stamp, os.path.join(into, PLACE + ".build"), tree_files.PLAIN)


def plain(entry: tarfile.TarInfo) -> tarfile.TarInfo:
    """An entry of the tarball, whose owner is root."""
    entry.uid = entry.gid = 0
    entry.uname = entry.gname = "root"
    return entry


def packed(folder: str, path: str) -> None:
    """Packs a folder. tarfile takes the entries of a folder in the order of their names."""
    with lzma.open(path + ".new", "wb") as file:
        with tarfile.open(fileobj=file, mode="w", format=tarfile.GNU_FORMAT) as tarball:
            tarball.add(folder, os.path.basename(folder), filter=plain)
    os.replace(path + ".new", path)


def made(top: str, program: Program, into: str) -> str:
    """Makes the tarball; its path."""
    newest = changes.of(top)[0]
    name = f"credaudit-{newest.named(program.architecture, program.sum)}"
    with tempfile.TemporaryDirectory() as work:
        folder = os.path.join(work, name)
        laid_out(top, program, folder)
        tree_files.settled(folder, int(newest.day().timestamp()))
        os.makedirs(into, exist_ok=True)
        path = os.path.join(into, name + ".tar.xz")
        packed(folder, path)
    return path


def told(path: str) -> int:
    """Tells the sum of what was made; the status."""
    print(f"{sum_of_file(path)}  {path}")
    return 0


def main() -> int:
    """The words of the script."""
    ask = argparse.ArgumentParser(description="Makes the tarball of a version.")
    ask.add_argument("--top", default=tools_path.TOP, metavar="FOLDER", help="the repository, if it isn't this one")
    ask.add_argument("--into", metavar="FOLDER", help="where the tarball is put")
    ask.add_argument("program", metavar="PROGRAM")
    asked = ask.parse_args()

    def job() -> int:
        try:
            return told(made(asked.top, built.look(asked.program), asked.into or os.path.join(asked.top, "build")))
        except ValueError as error:
            raise Failed(str(error)) from error
    return kit.carried_out(job)


if __name__ == "__main__":
    sys.exit(main())
