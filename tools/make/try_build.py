#!/usr/bin/env python3
"""Builds the program without a proof, compares what it writes, and leaves it: `make try` calls it.

  try_build.py [--top FOLDER] [WORD ..]

The kit builds crates/credaudit with checks, proves nothing, and runs it with these words (`rt try`). What it writes
must be what crates/credaudit/stdout has. The build lies in a temporary folder, which the kit removes: it is taken from
there while the program waits for its first file, which it gets as a FIFO. If the copy then writes the same without the
kit, it is left as out/credaudit-unproved, with a stamp beside it (docs/STAMPS.md) that says `proved: no`.
FOLDER is the repository, if it isn't this one. Status 0: the report is the stored one; 1: it isn't, or the kit failed.
"""
import argparse
import os
import shutil
import stat
import subprocess
import sys
import tempfile
import threading
import time
from collections.abc import Iterator, Sequence

import tools_path
from credaudit_tools.provenance import trees
from make import kit, stamps
from make.kit import Failed

NAME, PAUSE = "credaudit-unproved", 0.05
EVERYONE = 0o755


def executables(room: str) -> Iterator[str]:
    """The executable files below a folder. What vanishes meanwhile is none."""
    for folder, _, names in os.walk(room):
        for path in (os.path.join(folder, name) for name in names):
            try:
                found = os.lstat(path)
            except FileNotFoundError:
                continue
            if stat.S_ISREG(found.st_mode) and found.st_mode & stat.S_IXUSR:
                yield path


class Given:
    """A file of the program's words, which it gets as a FIFO: so it can be seen that it runs."""

    def __init__(self, room: str, path: str) -> None:
        self.fifo, self.waits = os.path.join(room, "given"), True
        with open(path, "rb") as file:
            self.text = file.read()
        os.mkfifo(self.fifo)

    def opened(self) -> int | None:
        """The FIFO, to be written to, once for each time that somebody opens it to read it."""
        try:
            descriptor = os.open(self.fifo, os.O_WRONLY | os.O_NONBLOCK)
        except OSError:
            self.waits = True
            return None
        if self.waits:
            self.waits = False
            return descriptor
        os.close(descriptor)
        return None

    def feed(self, descriptor: int) -> None:
        """Gives the whole text. Who closes the FIFO before its end doesn't get it."""
        os.set_blocking(descriptor, True)
        try:
            with open(descriptor, "wb") as file:
                file.write(self.text)
        except BrokenPipeError:
            pass


def taken(running: "subprocess.Popen[str]", given: Given, room: str, to: str) -> bool:
    """Takes a copy of the program while it waits for its file, and gives it the file; ends with the kit. Whether
    there was one program to be taken."""
    found = list[str]()
    while running.poll() is None:
        descriptor = given.opened()
        if descriptor is not None:
            found = list(executables(room))
            if len(found) == 1:
                shutil.copyfile(found[0], to)
                os.chmod(to, EVERYONE)
            given.feed(descriptor)
        time.sleep(PAUSE)
    return len(found) == 1 and os.path.exists(to)


def tried(crate: str, words: Sequence[str], to: str) -> tuple[bytes, str, bool]:
    """What the program writes without a proof, what the kit says of it, and whether a copy was taken of it."""
    files = [number for number, word in enumerate(words) if os.path.isfile(os.path.join(crate, word))]
    if not files:
        raise Failed("no word of the example names a file")
    with tempfile.TemporaryDirectory(prefix="credaudit-try-") as outer, tempfile.TemporaryFile() as output:
        os.chmod(outer, EVERYONE)
        room = os.path.join(outer, "room")
        os.mkdir(room, EVERYONE)
        given = Given(outer, os.path.join(crate, words[files[0]]))
        own = [*words[:files[0]], given.fifo, *words[files[0] + 1:]]
        said = list[str]()
        with kit.started(["try", "--", *own], crate, output, room) as running:
            assert running.stderr is not None
            telling = threading.Thread(target=lambda stream: said.append(kit.passed_on(stream)), args=(running.stderr,))
            telling.start()
            is_taken = taken(running, given, room, to)
            telling.join()
        output.seek(0)
        return output.read(), "".join(said) if running.returncode == 0 else "", is_taken


def alone(program: str, crate: str, words: Sequence[str]) -> bytes | None:
    """What a program writes in a crate's folder, without the kit and without an environment; None where it doesn't
    start, or fails."""
    try:
        done = subprocess.run([program, *words], cwd=crate, env=dict[str, str](), stdin=subprocess.DEVNULL,
                              stdout=subprocess.PIPE, stderr=subprocess.DEVNULL, check=False)
    except OSError:
        return None
    return done.stdout if done.returncode == 0 else None


def built(top: str, words: Sequence[str]) -> int:
    """Tries the program of a repository, and leaves the build; the status."""
    crate = os.path.join(top, "crates", "credaudit")
    program = os.path.join(crate, "out", NAME)
    logic, tree = kit.logic(), trees.of(top)
    with open(os.path.join(crate, "stdout"), "rb") as file:
        stored = file.read()
    os.makedirs(os.path.dirname(program), exist_ok=True)
    for path in (program, stamps.of(program)):
        stamps.removed(path)
    written, said, is_taken = tried(crate, words, program + ".new")
    sys.stdout.buffer.write(written)
    line = kit.TRIED.search(said)
    if line is None or written != stored:
        stamps.removed(program + ".new")
        raise Failed("rt tried nothing" if line is None else "the report isn't the stored one")
    print("tried: the report is the stored one. This proves nothing")
    if not is_taken or alone(program + ".new", crate, words) != stored:
        stamps.removed(program + ".new")
        print("no program is left: this kit's build can't be taken, or doesn't run without the kit")
        return 0
    os.replace(program + ".new", program)
    stamps.write(program, stamps.same_tree(top, tree), logic, False, line[1])
    path = os.path.relpath(program, top)
    print(f"left: {path}. It isn't proved, checks itself and is slower. To install it: make install PROGRAM={path}")
    return 0


def main() -> int:
    """The words of the script."""
    ask = argparse.ArgumentParser(description="Builds the program without a proof, and leaves it.")
    ask.add_argument("--top", default=tools_path.TOP, metavar="FOLDER", help="the repository, if it isn't this one")
    ask.add_argument("words", nargs="*", metavar="WORD", help="words of the program, of which one names a file")
    asked = ask.parse_args()
    return kit.carried_out(lambda: built(asked.top, asked.words))


if __name__ == "__main__":
    sys.exit(main())
