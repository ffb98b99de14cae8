"""The one reader and writer of recordings: folders with

  world.toml      the processes before the log, and the files that it executes (docs/FORMATS.md)
  log             what strace wrote, made plain (docs/STRACE.md)
  status.txt      what the kernel showed of each thread that lived at the log's end, a line for each
  spaces.txt      their user namespaces, with owner, maps and setgroups word, a line for each but the initial one
  recording.toml  how and with what it was recorded, what is established and what is in doubt, and sums of all files
  changes.txt     what was changed in the log or left out, with counts
  filters.txt     the filters of system calls that were installed meanwhile
  times.txt       when each line of the log was written, in seconds, where that was asked for

Of an older recording only the first three stand.
"""
import os
import re
from dataclasses import dataclass, field

from ..command_line.command import Failure
from ..command_line.files import read_regular, write_new
from ..command_line.printable import quoted
from ..evidence import premises
from ..evidence.evidence import Doubt, Evidence
from ..evidence.evidence_text import SUMS, evidence_lines, evidence_of, is_whole, sealed, sum_of
from ..formats import worlds
from ..formats.statuses import Status, from_line, line_of
from ..formats.world_remarks import UNSCANNED
from ..system.namespaces import Extents
from .scan_fits import ENDED

WORLD, LOG, STATUS, SPACES, MADE, CHANGES, FILTERS, TIMES = (
    "world.toml", "log", "status.txt", "spaces.txt", "recording.toml", "changes.txt", "filters.txt", "times.txt")
ALL = (WORLD, LOG, STATUS, SPACES, MADE, CHANGES, FILTERS, TIMES)
TIME = re.compile(r"[0-9]{1,15}(?:\.[0-9]{1,9})?")
FORMAT, OLDER = 2, 1        # of recording.toml; an older one tells no evidence


@dataclass(frozen=True)
class SpaceSeen:
    """A user namespace as the kernel showed it; `number` and `parent` as status.txt numbers them, 0 the initial one. A
    parent that lies between and in which nothing lived is None."""
    number: int
    parent: int | None
    owner: int
    uid_map: Extents
    gid_map: Extents
    setgroups: str


@dataclass
class Made:
    """How a recording was made. `end` is why it ended: program, line, time, signal, stopped. `evidence` is what the
    recorder established, and its doubts; a recording with one gets no clean bill. `notes` are what isn't known and does
    no harm; `sums` are the SHA-256 sums of its files. `whole` says whether its own last line fits it."""
    strace: str = ""
    kernel: str = ""
    end: str = ""
    evidence: Evidence = field(default_factory=Evidence)
    notes: list[str] = field(default_factory=list)
    sums: dict[str, str] = field(default_factory=dict)
    format: int = FORMAT
    whole: bool = True

    @property
    def doubts(self) -> list[Doubt]:
        """The recorder's doubts."""
        return self.evidence.doubts

    def remarks(self) -> list[str]:
        """What a world tells of its recording, as comments, which nobody reads but people."""
        return [f"recorded by credaudit-trace: strace {self.strace}, Linux {self.kernel}", UNSCANNED, *self.notes]


@dataclass
class Recording:
    """A recording in memory. `spaces` and `made` are None where an older one doesn't tell them."""
    world: bytes
    log: bytes
    statuses: list[Status]
    spaces: list[SpaceSeen] | None = None
    made: Made | None = None
    changes: str = ""
    filters: str = ""
    times: str = ""


def is_folder(path: str) -> bool:
    """Whether a path is a recording's folder: what it has more than a world or a log."""
    return os.path.isdir(path) and os.path.exists(os.path.join(path, STATUS))


def names_in(path: str) -> list[str]:
    """The files of a folder that have names of a recording's."""
    return [name for name in ALL if os.path.lexists(os.path.join(path, name))]


def space_line(space: SpaceSeen) -> str:
    """The line of a namespace."""
    extents = ["-" if not own else ",".join(" ".join(map(str, each)) for each in own)
               for own in (space.uid_map, space.gid_map)]
    parent = "-" if space.parent is None else space.parent
    return (f"Space: {space.number}; Parent: {parent}; Owner: {space.owner}; Uid_map: {extents[0]};"
            f" Gid_map: {extents[1]}; Setgroups: {space.setgroups}")


def extents_of(text: str) -> Extents:
    """The map of a line's part."""
    found = []
    for part in [] if text == "-" else text.split(","):
        inside, outside, length = map(int, part.split())
        found.append((inside, outside, length))
    return tuple(found)


def space_of(line: str) -> SpaceSeen:
    """The namespace of a line."""
    parts = {name: told for name, _, told in (part.partition(": ") for part in line.split("; "))}
    parent = None if parts["Parent"] == "-" else int(parts["Parent"])
    return SpaceSeen(int(parts["Space"]), parent, int(parts["Owner"]), extents_of(parts["Uid_map"]),
                     extents_of(parts["Gid_map"]), parts["Setgroups"])


def made_of(data: bytes) -> Made:
    """What recording.toml tells. Of an older form the doubts are of the whole log, and nothing is established."""
    import tomllib          # a recording that is made reads none
    table = tomllib.loads(data.decode())
    made = Made(strace=str(table["strace"]), kernel=str(table["kernel"]), end=str(table["end"]),
                notes=[str(each) for each in table["notes"]], format=int(table.get("format", OLDER)),
                sums={str(name): str(told) for name, told in table[SUMS].items()})
    if made.format == OLDER:
        for each in table.get("doubts", []):
            made.evidence.doubt(premises.BIRTHS, str(each))
    elif made.format == FORMAT:
        made.evidence, made.whole = evidence_of(table), is_whole(data, MADE)
        made.sums.pop(MADE, None)
    else:
        raise ValueError(f"its format {made.format} isn't known")
    return made


def made_text(made: Made) -> bytes:
    """The text of recording.toml."""
    lines = [f"format = {made.format}"]
    lines += [f"{key} = {worlds.text(told)}" for key, told in
              (("strace", made.strace), ("kernel", made.kernel), ("end", made.end))]
    lines += ["notes = [", *(f"    {worlds.text(each)}," for each in made.notes), "]"] if made.notes else ["notes = []"]
    return sealed([*lines, *evidence_lines(made.evidence)], MADE, made.sums)


def texts_of(kept: Recording) -> dict[str, bytes]:
    """All files but recording.toml, as they are written."""
    texts = {WORLD: kept.world, LOG: kept.log,
             STATUS: "".join(line_of(each) + "\n" for each in kept.statuses).encode()}
    if kept.spaces is not None:
        texts[SPACES] = "".join(space_line(each) + "\n" for each in kept.spaces).encode()
    rest = (CHANGES, kept.changes), (FILTERS, kept.filters), (TIMES, kept.times)
    return {**texts, **{name: told.encode() for name, told in rest if told}}


def sums_of(kept: Recording) -> dict[str, str]:
    """The sums of all files but recording.toml."""
    return {name: sum_of(data) for name, data in texts_of(kept).items()}


def altered(kept: Recording) -> list[str]:
    """Which of its files aren't as they were recorded. An older form has the sums of some alone."""
    if kept.made is None:
        return []
    now, told = sums_of(kept), kept.made.sums
    names = set(told) | (set(now) if kept.made.format != OLDER else {LOG, STATUS})
    found = [f"{name} isn't as it was recorded: its sum differs" for name in sorted(names)
             if now.get(name) != told.get(name)]
    return found if kept.made.whole else [*found, f"{MADE} isn't as it was written: its last line doesn't fit it"]


def optional(folder: str, name: str) -> bytes | None:
    """A file that an older recording doesn't have."""
    path = os.path.join(folder, name)
    return read_regular(path) if os.path.lexists(path) else None


def lines_of(data: bytes, name: str) -> list[str]:
    """The lines of one of the small files. Fails where the last is cut, or a byte isn't ASCII."""
    if data and not data.endswith(b"\n"):
        raise Failure(f"{name} ends within a line")
    try:
        return data.decode("ascii").split("\n")[:-1]
    except UnicodeDecodeError as error:
        raise Failure(f"{name} can't be read: {error}") from error


def read(folder: str) -> Recording:
    """A recording. Fails where a file is missing or can't be read, with the file and the line."""
    if not os.path.isdir(folder):
        raise Failure(f"{quoted(folder)} is no folder", "a recording is a folder with world.toml, log and status.txt")
    world, log, status = (read_regular(os.path.join(folder, name)) for name in (WORLD, LOG, STATUS))
    spaces, made = optional(folder, SPACES), optional(folder, MADE)
    kept: list[Status] = []
    for number, line in enumerate(lines_of(status, STATUS), 1):
        try:
            kept.append(from_line(line))
        except (KeyError, ValueError) as error:
            raise Failure(f"{STATUS} line {number} can't be read: {error}") from error
    seen: list[SpaceSeen] | None = None
    if spaces is not None:
        try:
            seen = [space_of(line) for line in lines_of(spaces, SPACES)]
        except (KeyError, ValueError) as error:
            raise Failure(f"{SPACES} can't be read: {error}") from error
    try:
        told = None if made is None else made_of(made)
    except (KeyError, ValueError, TypeError) as error:
        raise Failure(f"{MADE} can't be read: {error}") from error
    rest = [(optional(folder, name) or b"").decode("ascii", "backslashreplace") for name in (CHANGES, FILTERS, TIMES)]
    return Recording(world, log, kept, seen, told, *rest)


def clock_of(kept: Recording) -> tuple[tuple[float, ...], float | None]:
    """When each line of the log was written, in seconds, and when the recording ended; none and None where it doesn't
    tell it. Fails where there isn't a time for each line."""
    times = [float(line) if TIME.fullmatch(line) else None for line in lines_of(kept.times.encode(), TIMES)]
    told = tuple(each for each in times if each is not None)
    if times and (len(told) != len(times) or len(told) != kept.log.count(b"\n")):
        raise Failure(f"{TIMES} can't be read: it has no time for each line of the log")
    ended = None if kept.made is None else kept.made.evidence.seen.get(ENDED)
    return told, None if ended is None else float(ended)


def write(folder: str, recording: Recording, owner: tuple[int, int] | None = None) -> None:
    """Puts a recording into a folder, which is made where it isn't there; only its owner can read it then, who is that
    of the folder's maker, or `owner`. Of one that was there before nothing stays."""
    os.makedirs(folder, mode=0o700, exist_ok=True)
    texts = texts_of(recording)
    if recording.made is not None:
        recording.made.sums = sums_of(recording)
        texts[MADE] = made_text(recording.made)
    for name in ALL:
        if name in texts:
            write_new(folder, name, texts[name], owner=owner)
        elif os.path.lexists(os.path.join(folder, name)):
            os.remove(os.path.join(folder, name))
