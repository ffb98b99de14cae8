"""Many questions to the program, side by side: the audits of rights, the checks of certificates, the runs that it
confirms. Each answer is the program's; what stands here puts them together.
"""
import itertools
import os
import tempfile
from collections.abc import Callable, Iterable, Iterator, Sequence
from concurrent.futures import ThreadPoolExecutor
from contextlib import contextmanager
from dataclasses import dataclass, field
from typing import TypeVar

from ..command_line.command import Failure, Says, silent
from ..formats import verdicts, worlds
from ..formats.rights import Right
from ..formats.verdicts import Verdict
from ..formats.worlds import World
from ..replay.program import STATUSES, Program, is_text

WORKERS = max(os.cpu_count() or 1, 1)     # calls of the program at a time
HOLDS, CONFIRMED, REFUSED = b"holds\n", b"confirmed ", 11
Asked = TypeVar("Asked")
Told = TypeVar("Told")


@dataclass(frozen=True)
class Files:
    """A world and a log by their paths, as the program is to read them."""
    world: str
    log: str


@dataclass(frozen=True)
class Answer:
    """An audit's answer: the verdict, and the bytes of its lines: those of the run. `checked` says that the program's
    check accepted the certificate for this right."""
    verdict: Verdict
    run: tuple[bytes, ...] = ()
    checked: bool = False


@dataclass
class Asking:
    """The program with a folder for the files that it is to read."""
    program: Program
    folder: str
    says: Says = silent
    count: Iterator[int] = field(default_factory=lambda: itertools.count(1))
    notes: list[str] = field(default_factory=list)

    def put(self, name: str, data: bytes) -> str:
        """A file of the folder."""
        path = os.path.join(self.folder, name)
        with open(path, "wb") as file:
            file.write(data)
        return path

    def files(self, name: str, world: World, log: bytes = b"") -> Files:
        """A world and a log of the folder."""
        return Files(self.put(name + ".toml", worlds.written(world)), self.put(name + ".log", log))

    def named(self, name: str, world: str, log: str) -> Files:
        """Files of the user. The program takes words in UTF-8 alone: others are named by links."""
        if is_text(world) and is_text(log):
            return Files(world, log)
        links = [os.path.join(self.folder, f"{name}-{each}") for each in ("world", "log")]
        for link, path in zip(links, (world, log)):
            os.symlink(os.path.abspath(path), link)
        return Files(*links)

    def audit(self, files: Files, pid: int, right: str) -> Answer:
        """The verdict on a right. Fails where the program gives none."""
        text, status = self.program.tail("audit", files.world, files.log, str(pid), right)
        lines = text.split(b"\n")[:-1]
        told = [line.decode("ascii", "backslashreplace") for line in lines]
        verdict = verdicts.verdict_of(told[1:]) if status in (0, 1, 2) and told else None
        if verdict is None or verdicts.STATUS[verdict.word] != status:
            last = f": {told[-1]}" if told else ""
            raise Failure(f"credaudit gives no verdict on {right} (status {status}, {STATUSES.get(status, 'unknown')})"
                          + last)
        run = tuple(lines[2:-1]) if verdict.word == verdicts.NO else ()
        return Answer(verdict, run)

    def confirms(self, files: Files, pid: int, right: str, run: Sequence[bytes]) -> int | None:
        """Who holds the right after a run that the program confirms; None where it doesn't."""
        path = self.put(f"run-{next(self.count)}", b"".join(line + b"\n" for line in run))
        text, status = self.program.tail("confirm", files.world, files.log, str(pid), right, path)
        os.remove(path)
        if status == REFUSED:
            return None
        if status != 0 or not text.startswith(CONFIRMED) or not text[len(CONFIRMED):].strip().isdigit():
            raise Failure(f"credaudit confirm ends with status {status}: {text[:200]!r}")
        return int(text[len(CONFIRMED):])

    def holds(self, files: Files, pid: int, right: str, certificate: bytes) -> bool:
        """Whether the program's check says that a certificate holds."""
        path = self.put(f"certificate-{next(self.count)}", certificate + b"\n")
        text, status = self.program.tail("check", files.world, files.log, str(pid), right, path)
        os.remove(path)
        return status == 0 and text == HOLDS

    def side_by_side(self, what: str, ask: Callable[[Asked], Told], items: Iterable[Asked], done: int = 0,
                     of: int = 0) -> list[Told]:
        """The answers to many questions, in their order; several calls of the program run at a time. Where they are a
        part of more questions, `done` of which are answered, these are `of`."""
        every, found = list(items), list[Told]()
        with ThreadPoolExecutor(max_workers=WORKERS) as workers:
            for answer in workers.map(ask, every):
                found.append(answer)
                self.says(f"{what}: {done + len(found)} of {of or len(every)}")
        return found

    def audits(self, what: str, files: Files, pid: int, rights: Iterable[str]) -> list[Answer]:
        """The verdicts on rights. First a few of them are audited; where one is gone, its certificate is tried on all
        others: a family has one for all its rights, and the check of it, which is a `yes` of the program too, takes
        less than an audit."""
        every, found = list(rights), dict[str, Answer]()
        asked = list(dict.fromkeys(every))

        def audits(some: list[str]) -> None:
            found.update(zip(some, self.side_by_side(what, lambda right: self.audit(files, pid, right), some,
                                                     len(found), len(asked))))
        audits(asked[::max(len(asked) // WORKERS, 1)][:WORKERS])
        certificate = next((each.verdict.certificate for each in found.values() if each.verdict.word == verdicts.YES),
                           None)
        left = [right for right in asked if right not in found]
        if certificate is not None:
            text, same = certificate.encode("ascii"), Verdict(verdicts.YES, certificate=certificate)
            holds = self.side_by_side(what, lambda right: self.holds(files, pid, right, text), left, len(found),
                                      len(asked))
            found.update((right, Answer(same, checked=True)) for right, good in zip(left, holds) if good)
        audits([right for right in left if right not in found])
        return [found[right] for right in every]


@contextmanager
def asking(program: Program, says: Says = silent) -> Iterator[Asking]:
    """Asks within a folder of its own, which goes again."""
    with tempfile.TemporaryDirectory(prefix="credaudit-") as folder:
        yield Asking(program, folder, says)


def shortened(run: Sequence[bytes],
              confirms: Callable[[Sequence[bytes]], int | None]) -> tuple[list[bytes], int | None]:
    """A run without the calls that the program confirms it without, and who holds the right then. One call after
    another is left out, from the first on, until none can be. The last one stays: where it weren't needed the program
    would have given no call, since the first run that it tries has none (docs/PLANS.md)."""
    kept, holder, at = list(run), None, 0
    while at < len(kept) > 1:
        fewer = kept[:at] + kept[at + 1:]
        told = confirms(fewer)
        if told is None:
            at += 1
        else:
            kept, holder, at = fewer, told, 0
    return kept, holder


def right_in(right: Right, token: Callable[[str], str]) -> str:
    """A right's text with another name of its namespace."""
    return right.text() if right.space is None else Right(right.kind, right.number, token(right.space)).text()
