"""An empty root, as debootstrap makes it, in which what users take is tried; and an ordinary user there, who pastes
what documents say.
"""
import argparse
import os
import subprocess
import tempfile
import time
from collections.abc import Callable, Iterator
from contextlib import contextmanager

from make import kit
from make.kit import Failed
from pages.blocks import PROGRESS, blocks

USER, NUMBER = "reader", 1000
PATH = "/usr/local/sbin:/usr/local/bin:/usr/sbin:/usr/bin:/sbin:/bin"
READERS = os.path.join(os.path.dirname(os.path.abspath(__file__)), "readers")


class Root:
    """The root in which it is tried. Further folders of its PATH are named by `first`."""

    def __init__(self, top: str, first: str = "") -> None:
        self.top = top
        self.path = f"{first}:{PATH}" if first else PATH
        self.begun = time.monotonic()

    def told(self, step: str) -> None:
        """Tells that a step is done, and how long it took."""
        now = time.monotonic()
        print(f"{now - self.begun:6.1f} s  {step}", flush=True)
        self.begun = now

    def within(self, path: str) -> str:
        """Where a path of the root stands outside."""
        return os.path.join(self.top, path.lstrip("/"))

    def run(self, *words: str, user: int | None = None, check: bool = True) -> subprocess.CompletedProcess[str]:
        """Runs a command within, as root or as a user. Fails where it fails, with what it wrote."""
        home = "/root" if user is None else f"/home/{USER}"
        whose = [] if user is None else [f"--userspec={user}:{user}"]
        done = subprocess.run(["chroot", *whose, self.top, *words], stdin=subprocess.DEVNULL, stdout=subprocess.PIPE,
                              stderr=subprocess.STDOUT, text=True, check=False, errors="backslashreplace",
                              env={"PATH": self.path, "HOME": home, "LC_ALL": "C.UTF-8",
                                   "DEBIAN_FRONTEND": "noninteractive"})
        if check and done.returncode:
            raise Failed(f"{' '.join(words)}: status {done.returncode}\n{done.stdout}")
        return done

    def put(self, path: str, text: str, mode: int = 0o644) -> None:
        """Writes a text within."""
        with open(self.within(path), "w", encoding="ascii") as file:
            file.write(text)
        os.chmod(self.within(path), mode)

    def pasted(self, path: str, folder: str) -> int:
        """The commands of a document outside, as the user pastes them in a folder; how many. Fails where one writes
        something else, and where there is none."""
        with open(path, encoding="utf-8") as file:
            commands = [pair for block in blocks(file.read()) for pair in block.commands()]
        for command, wanted in commands:
            told = self.run("bash", "-c", f"cd {folder} && {command}", user=NUMBER, check=False).stdout
            told = PROGRESS.sub("", told)
            if told != wanted:
                raise Failed(f"$ {command}\nwrote\n{told}and this is to be\n{wanted}")
        if not commands:
            raise Failed(f"{path} has no command")
        return len(commands)


def outside(*words: str) -> None:
    """Runs a command. Fails where it fails."""
    done = subprocess.run(words, stdin=subprocess.DEVNULL, stdout=subprocess.PIPE, stderr=subprocess.STDOUT, text=True,
                          check=False)
    if done.returncode:
        raise Failed(f"{' '.join(words)}: status {done.returncode}\n{done.stdout}")


@contextmanager
def mounted(place: str, *how: str) -> Iterator[None]:
    """Something is mounted at a folder, by these words of mount(8)."""
    outside("mount", *how, place)
    try:
        yield
    finally:
        outside("umount", "--lazy", place)


@contextmanager
def shown(folder: str, place: str) -> Iterator[None]:
    """A folder is shown at another place, where nothing can be written to it."""
    os.makedirs(place)
    with mounted(place, "--bind", folder):
        outside("mount", "-o", "remount,bind,ro", place)
        yield


@contextmanager
def empty(asked: argparse.Namespace, top: str, first: str = "") -> Iterator[Root]:
    """An empty root in a folder, with /proc, what apt knows, and the user."""
    root = Root(top, first)
    outside("debootstrap", "--variant=minbase", asked.suite, top, asked.mirror)
    with mounted(root.within("proc"), "-t", "proc", "proc"):
        root.put("etc/hosts", f"127.0.0.1 localhost {os.uname().nodename}\n")
        root.put("etc/apt/sources.list", f"deb {asked.mirror} {asked.suite} main\n")
        root.run("useradd", "--create-home", "--shell", "/bin/bash", "--uid", str(NUMBER), USER)
        root.run("apt-get", "update")
        root.told(f"an empty root of {asked.suite}")
        yield root


def asking(about: str) -> argparse.ArgumentParser:
    """The words of a script that tries something in such a root."""
    ask = argparse.ArgumentParser(description=about)
    ask.add_argument("--suite", default="bookworm", metavar="NAME", help="of which Debian the root is")
    ask.add_argument("--mirror", default="http://deb.debian.org/debian", metavar="URL")
    ask.add_argument("--keep", metavar="FOLDER", help="makes the root there, and leaves it")
    return ask


def tried(asked: argparse.Namespace, job: Callable[[str], None]) -> int:
    """The status of a job that needs root, and is given the folder where its root is to be made."""
    def done(top: str) -> int:
        if os.geteuid():
            raise Failed("it needs root")
        job(top)
        print("all held")
        return 0
    if asked.keep:
        os.makedirs(asked.keep)
        return kit.carried_out(lambda: done(asked.keep))
    with tempfile.TemporaryDirectory(prefix="credaudit-root-") as top:
        os.chmod(top, 0o755)
        return kit.carried_out(lambda: done(top))
