"""The logs that bench.py measures with, the plain program that draws them, and the commands that replay them.
"""
import os
import subprocess
import sys
import time
from collections.abc import Iterable

from times import Commands
from worlds import LOG_WORLDS

import tools_path  # noqa: F401
from credaudit_tools.formats.strace_lines import parted

HERE = os.path.dirname(os.path.abspath(__file__))
MIB = 1 << 20
SIZES, STRACE_SIZES = (1, 4, 16, 64), (32, 64)
# Of each kind of log the number of events, of strace and comments that of lines, which are more than fill 64 MiB.
STRACE = {"strace": 1000000, "strace-few": 1000000, "strace-held": 1150000, "strace-held-quarter": 1150000}
KINDS = {"setresuid": 2700000, "setuid": 3400000, "mixed": 3100000, "turns": 4600000, "turns-many": 4300000,
         "spaces": 3300000, "execve": 2100000, "comments": 66000, **STRACE}
# Where a log may be cut: after a LF; one of strace after a line before which no line is held.
CUT, STRACE_CUT = b"\n", b"\n100 gettid() = 100\n"


def sources() -> list[str]:
    """The files of the plain program, the first one for rustc."""
    folder = os.path.join(HERE, "plain")
    return [os.path.join(HERE, "plain_replay.rs"), *(os.path.join(folder, name) for name in os.listdir(folder))]


def plain_program(work: str) -> str:
    """The plain program in that folder, built where it isn't there or is older than its files."""
    plain = os.path.join(work, "plain_replay")
    if not os.access(plain, os.X_OK) or os.path.getmtime(plain) < max(map(os.path.getmtime, sources())):
        subprocess.run(["rustc", "-O", sources()[0], "-o", plain], check=True)
    return plain


def write(name: str, text: str) -> str:
    """Writes a file, and gives its name."""
    with open(name, "w") as file:
        file.write(text)
    return name


def commands_for(world: str, log: str, plain: str, program: str | None, modes: Iterable[str] = ("tuned",)) -> Commands:
    """What replays a log in a world: the plain program in these modes, and credaudit where there is one."""
    every = {mode: [plain, mode, world, log] for mode in modes}
    if program:
        every["credaudit"] = [program, "replay", world, log]
    return every


class Logs:
    """The world and the logs of one kind, these by MiB, and the commands that replay them."""

    def __init__(self, kind: str, plain: str, program: str | None, work: str) -> None:
        self.kind, self.plain, self.program = kind, plain, program
        self.sizes: tuple[int, ...] = STRACE_SIZES if kind in STRACE else SIZES
        self.cut = STRACE_CUT if kind in STRACE else CUT
        self.world = write(os.path.join(work, f"{kind}.toml"), LOG_WORLDS[kind]())
        self.files = {size: os.path.join(work, f"{kind}{size}.log") for size in self.sizes}
        if not all(map(os.path.exists, self.files.values())):
            self.make(kind)

    def make(self, kind: str) -> None:
        """Makes the logs: the largest one, and fronts of it."""
        words = [self.plain, "gen", kind, str(KINDS[kind]), "7", self.world]
        text = subprocess.run(words, stdout=subprocess.PIPE, check=True).stdout
        if len(text) < self.sizes[-1] * MIB:
            sys.exit(f"bench.py: a log of {len(text)} bytes of {kind} lines")
        ends = {size: text.rindex(self.cut, 0, size * MIB) + len(self.cut) for size in self.sizes}
        for size, name in self.files.items():
            with open(name, "wb") as log:
                log.write(text[:ends[size]])

    def commands(self, size: int, modes: Iterable[str] = ("tuned",)) -> Commands:
        """What replays the log of so many MiB."""
        return commands_for(self.world, self.files[size], self.plain, self.program, modes)

    def length(self) -> int:
        """The bytes of the log of 64 MiB."""
        return os.path.getsize(self.files[64])


class Recorded:
    """64 MiB of a recording of find(1), which reads names and states of files below /, and the world of its process. It
    is made anew, by the options that docs/STRACE.md names, where FOLDER has none."""

    def __init__(self, plain: str, program: str | None, work: str) -> None:
        self.kind, self.plain, self.program = "recorded", plain, program
        self.files = {64: os.path.join(work, "recorded.log")}
        if not os.path.exists(self.files[64]):
            self.make(self.files[64])
        with open(self.files[64], "rb") as log:
            first = parted(log.readline().rstrip(b"\n"))
        if first is None:
            sys.exit(f"bench.py: {self.files[64]} begins with no line of strace")
        keys = f'pid = {first[0]}\nuid = {os.getuid()}\ngid = {os.getgid()}\n'
        self.world = write(os.path.join(work, "recorded.toml"), f'log = "strace"\n[[process]]\n{keys}')

    def make(self, name: str) -> None:
        """Records find until there is enough."""
        whole = name + ".whole"
        words = ["strace", "-f", "-v", "-s", "65535", "-o", whole, "find", "/", "-xdev", "-type", "f", "-size", "-1k"]
        with subprocess.Popen(words, stdout=subprocess.DEVNULL, stderr=subprocess.DEVNULL) as child:
            while child.poll() is None and (not os.path.exists(whole) or os.path.getsize(whole) <= 64 * MIB):
                time.sleep(0.1)
            child.terminate()
        with open(whole, "rb") as log:
            text = log.read(64 * MIB)
        os.remove(whole)
        with open(name, "wb") as log:
            log.write(text[:text.rindex(b"\n") + 1])

    def commands(self, size: int, modes: Iterable[str] = ("tuned",)) -> Commands:
        """What replays it."""
        return commands_for(self.world, self.files[size], self.plain, self.program, modes)

    def length(self) -> int:
        """Its bytes."""
        return os.path.getsize(self.files[64])
