"""The one runner of credaudit: it is found, called, and its report read."""
import os
import subprocess
import sys
import tempfile
from collections.abc import Iterable, Iterator, Sequence
from typing import IO

from ..command_line.command import Failure
from ..formats import report
from ..provenance import places

PIECE, END = 1 << 16, b"\nend "
# What each status of the program means (docs/FORMATS.md, "Report").
STATUSES = {0: "accepted", 1: "no", 2: "undecided", 3: "impossible", 4: "bad world", 5: "bad log", 6: "wrong words",
            7: "a file can't be read", 8: "a write failed", 9: "a limit", 10: "no memory", 11: "refused",
            12: "bad query"}


def find() -> str:
    """The program, by its path. Fails where there is none."""
    found = places.find()
    if found is not None:
        return found
    raise Failure(f"credaudit isn't there: {places.named() or places.BUILT}",
                  "build it with make, put it into the PATH, or name it by the variable CREDAUDIT")


def is_text(word: str) -> bool:
    """Whether a word is UTF-8."""
    try:
        os.fsencode(word).decode("utf-8")
    except UnicodeDecodeError:
        return False
    return True


def pieces_of(stream: IO[bytes] | None) -> Iterator[bytes]:
    """A stream in pieces."""
    while stream is not None and (piece := stream.read(PIECE)):
        yield piece


def tail_of(pieces: Iterable[bytes]) -> bytes:
    """Of a text in pieces what stands from its last line `end N` on; where it has none, its last part."""
    kept, found = bytearray(b"\n"), False
    for piece in pieces:
        known = len(kept)
        kept += piece
        place = kept.rfind(END, max(known - len(END), 0))
        if place >= 0:
            del kept[:place]
            found = True
        elif not found:
            del kept[:-PIECE]
    return bytes(kept.removeprefix(b"\n"))


class Program:
    """credaudit, ready to be called."""

    def __init__(self, path: str | None = None) -> None:
        self.path = path or find()

    def answer(self, *words: str) -> tuple[str, int]:
        """What a call writes, and its status. Fails where the program was killed or can't be started."""
        try:
            done = subprocess.run([self.path, *words], stdin=subprocess.DEVNULL, stdout=subprocess.PIPE,
                                  stderr=subprocess.PIPE, check=False)
        except OSError as error:
            raise Failure(f"{self.path} can't be started: {error.strerror}") from error
        if done.returncode < 0:
            raise Failure(f"{self.path} was killed by signal {-done.returncode}")
        return done.stdout.decode("ascii", "backslashreplace"), done.returncode

    def tail(self, *words: str) -> tuple[bytes, int]:
        """What a call writes from its line `end N` on, or, where it has none, the last of it; and its status. What
        stands before isn't kept: a report of a long log is longer than the log."""
        try:
            with subprocess.Popen([self.path, *words], stdin=subprocess.DEVNULL, stdout=subprocess.PIPE,
                                  stderr=subprocess.DEVNULL) as done:
                kept = tail_of(pieces_of(done.stdout))
        except OSError as error:
            raise Failure(f"{self.path} can't be started: {error.strerror}") from error
        if done.returncode < 0:
            raise Failure(f"{self.path} was killed by signal {-done.returncode}")
        return kept, done.returncode

    def passed_on(self, words: Sequence[str]) -> tuple[int, str]:
        """Has a call write to the standard output of this process; its status, which is negative where a signal ended
        it, and, of a check and a confirmation, which write a line alone, that line."""
        keeps = words[:1] in (["check"], ["confirm"])
        try:
            done = subprocess.run([self.path, *words], stdout=subprocess.PIPE if keeps else None, check=False)
        except OSError as error:
            raise Failure(f"{self.path} can't be started: {error.strerror}") from error
        text = done.stdout or b""
        if text:
            sys.stdout.buffer.write(text)
            sys.stdout.flush()
        return done.returncode, text.decode("ascii", "backslashreplace").removesuffix("\n").rpartition("\n")[2]

    def run(self, *words: str) -> report.Report:
        """The report and the status of a call."""
        return report.read(*self.answer(*words))

    def replay(self, world: str, log: str) -> report.Report:
        """The replay of two files. The program takes words in UTF-8 alone: files of other names are named by links."""
        if is_text(world) and is_text(log):
            return self.run("replay", world, log)
        with tempfile.TemporaryDirectory(prefix="credaudit-") as work:
            links = [os.path.join(work, name) for name in ("world.toml", "log")]
            for link, path in zip(links, (world, log)):
                os.symlink(os.path.abspath(path), link)
            return self.run("replay", *links)

    def replay_texts(self, world: bytes, log: bytes) -> report.Report:
        """The replay of two texts."""
        return report.read(*self.answer_to_texts(world, log))

    def answer_to_texts(self, world: bytes, log: bytes) -> tuple[str, int]:
        """What the replay of two texts writes, and its status."""
        with tempfile.TemporaryDirectory(prefix="credaudit-") as work:
            paths = [os.path.join(work, name) for name in ("world.toml", "log")]
            for path, data in zip(paths, (world, log)):
                with open(path, "wb") as file:
                    file.write(data)
            return self.answer("replay", *paths)
