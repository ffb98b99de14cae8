"""Questions to the program about many moments, each asked once: worlds that differ in their pids alone are equal, and
an answer about one of them is told of the other with its own pids.

Worlds are those of families at a moment (end_world.py). In answers user namespaces have the names of the log's report.
"""
import re
from collections.abc import Mapping, Sequence
from dataclasses import dataclass, field, replace

from ..command_line.command import Failure
from ..formats import worlds
from ..formats.report import Standing
from ..formats.worlds import World
from ..judge.classify import back
from ..judge.program_questions import Answer, Asking, Files
from ..replay.end_world import End

ROW = re.compile(r"(?P<front>fresh\()?(?P<name>[^()]+)(?P<end>\)?)")


@dataclass(frozen=True)
class Known:
    """A world that was asked about: its number among those that are equal, its pids in ascending order, and the log's
    names of the namespaces that it had to name anew."""
    number: int
    pids: tuple[int, ...]
    names: Mapping[str, str]

    def rank(self, pid: int) -> int:
        """The place of a pid, by which equal worlds know it; one that no process has stays, as a pid of its own."""
        return self.pids.index(pid) if pid in self.pids else -pid

    def pid(self, rank: int) -> int:
        """The pid at a place."""
        return self.pids[rank] if rank >= 0 else -rank


def ranked(world: World) -> bytes:
    """A world's text with places for pids: it is that of each world that differs in pids alone."""
    places = {pid: at for at, pid in enumerate(sorted(row.pid for row in world.processes), 1)}
    return worlds.written(replace(world, remarks=[], processes=[
        replace(row, pid=places[row.pid], parent=None if row.parent is None else places[row.parent])
        for row in world.processes]))


def with_pid(line: bytes, pid: int) -> bytes:
    """A line of a run by another process."""
    return b"%d %s" % (pid, line.partition(b" ")[2])


def caller(line: bytes) -> int:
    """Who makes the call of a run's line."""
    return int(line.partition(b" ")[0])


def row_in(row: str | None, names: Mapping[str, str]) -> str | None:
    """The name of a row of bounds with another name of its namespace."""
    found = ROW.fullmatch(row or "")
    return row if found is None else f"{found['front'] or ''}{names.get(found['name'], found['name'])}{found['end']}"


@dataclass
class Remembering(Asking):
    """The program, with what it answered already."""
    numbers: dict[bytes, int] = field(default_factory=dict)
    known: dict[str, Known] = field(default_factory=dict)
    answers: dict[tuple[int, int, str], Answer] = field(default_factory=dict)
    held: dict[tuple[int, int, str, bytes], bool] = field(default_factory=dict)
    confirmed: dict[tuple[int, int, str, tuple[bytes, ...]], int | None] = field(default_factory=dict)
    made: dict[tuple[str, int, tuple[int, ...]], Files] = field(default_factory=dict)
    names: dict[str, str] = field(default_factory=dict)

    def about(self, end: End) -> Files:
        """The files of a family's world. Fails where a member isn't in it what it is in the replay; of equal worlds one
        is looked at."""
        self.names = {word: name for name, word in end.names.items()}
        before = len(self.numbers)
        files = self.files("moment", end.world)
        if len(self.numbers) > before:
            self.same_as(files, end)
        return files

    def same_as(self, files: Files, end: End) -> None:
        """Has the program replay the world, and fails where a process isn't what it is at that moment of the log."""
        read = self.program.run("replay", files.world, files.log)
        wanted = [Standing(one.pid, end.token(one.space), one.credential) for one in end.family]
        if read.status != 0 or sorted(read.start, key=pid_of) != sorted(wanted, key=pid_of):
            raise Failure("the world of a moment isn't what the replay shows then: "
                          + (read.ending[-1] if read.ending else "no report"))

    def files(self, name: str, world: World, log: bytes = b"") -> Files:
        """A world and a log of the folder; the same ones again for the same world."""
        number = self.numbers.setdefault(ranked(world) + b"\0" + log, len(self.numbers))
        pids = tuple(sorted(row.pid for row in world.processes))
        place = name, number, pids
        if place not in self.made:
            self.made[place] = super().files(f"{name}-{len(self.made)}", world, log)
            self.known[self.made[place].world] = Known(number, pids, dict(self.names))
        return self.made[place]

    def audit(self, files: Files, pid: int, right: str) -> Answer:
        """The verdict on a right. A question that says more than an undecided audit belongs into Asking.audit, for
        summaries too: here it is remembered with the verdict, and whatever its answer has by pids, in a certificate
        too, goes through `ranks` and `told`."""
        known = self.known.get(files.world)
        if known is None:
            return super().audit(files, pid, right)
        key = known.number, known.rank(pid), right
        if key not in self.answers:
            self.answers[key] = ranks(super().audit(files, pid, right), known)
        return told(self.answers[key], known)

    def confirms(self, files: Files, pid: int, right: str, run: Sequence[bytes]) -> int | None:
        """Who holds the right after a run that the program confirms; None where it doesn't."""
        known = self.known.get(files.world)
        if known is None:
            return super().confirms(files, pid, right, run)
        key = known.number, known.rank(pid), right, tuple(with_pid(line, known.rank(caller(line))) for line in run)
        if key not in self.confirmed:
            holder = super().confirms(files, pid, right, run)
            self.confirmed[key] = None if holder is None else known.rank(holder)
        found = self.confirmed[key]
        return None if found is None else known.pid(found)

    def holds(self, files: Files, pid: int, right: str, certificate: bytes) -> bool:
        """Whether the program's check says that a certificate holds."""
        known = self.known.get(files.world)
        if known is None:
            return super().holds(files, pid, right, certificate)
        key = known.number, known.rank(pid), right, certificate
        if key not in self.held:
            self.held[key] = super().holds(files, pid, right, certificate)
        return self.held[key]


def pid_of(one: Standing) -> int:
    """The order of processes."""
    return one.pid


def ranks(answer: Answer, known: Known) -> Answer:
    """An answer with places for pids, and the log's names of namespaces."""
    verdict = answer.verdict
    holder = None if verdict.holder is None else known.rank(verdict.holder)
    run = tuple(with_pid(back(line, dict(known.names)), known.rank(caller(line))) for line in answer.run)
    return replace(answer, run=run, verdict=replace(verdict, holder=holder, row=row_in(verdict.row, known.names)))


def told(answer: Answer, known: Known) -> Answer:
    """An answer with the pids of a world."""
    verdict = answer.verdict
    holder = None if verdict.holder is None else known.pid(verdict.holder)
    run = tuple(with_pid(line, known.pid(caller(line))) for line in answer.run)
    lines = tuple(line.decode("ascii", "backslashreplace") for line in run)
    return replace(answer, run=run, verdict=replace(verdict, holder=holder, run=lines))
