"""A captured world: the rows of a family, its user namespaces and its files, and the remarks that say what isn't known.

Where something can't be known, what allows the family more is taken, so that a `yes` stays true; the remark says so.
What may be missing for a `yes` is a doubt.
"""
import os
import time
from dataclasses import dataclass, field

from ..command_line.command import Failure, Says
from ..command_line.printable import few, plural, quoted
from ..evidence.evidence import Evidence
from ..evidence.premises import ANSWERS, BIRTHS, CREDENTIALS, GROUPS, MAPS, RINGS, SCAN, SECUREBITS
from ..formats import worlds
from ..formats.world_remarks import SCANNED, UNSCANNED
from ..replay import scan_fits
from ..system import binfmt, program_rows, rings, space_rows
from ..system.kernel_questions import Kernel, Trouble
from .family import Family
from .members import heads, merged, process_notes, process_rows
from .scan import Scan

MOST_PROCESSES = 4096


@dataclass
class Capture:
    """A world, and what is told beside it: `evidence` has what was established, and the doubts of what a `yes` may have
    needed. `looked_at` counts files."""
    world: worlds.World
    notes: list[str] = field(default_factory=list)
    evidence: Evidence = field(default_factory=Evidence)
    looked_at: int = 0

    @property
    def doubts(self) -> list[str]:
        """The doubts."""
        return [each.why for each in self.evidence.doubts]


@dataclass(frozen=True)
class Wishes:
    """What the user asked for."""
    files: bool = True
    merge: bool = False
    own_spaces: bool = False
    skip: tuple[bytes, ...] = ()


def named_spaces(kernel: Kernel, family: Family, own: bool, capture: Capture) -> space_rows.Spaces:
    """The namespaces of the family, and of the system where they aren't left out."""
    keys = {thread.user for thread in family.threads.values()}
    troubles: list[Trouble] = []
    if own:
        capture.evidence.doubt(MAPS, "user namespaces in which no member stands aren't declared, as asked for; a"
                                     " member who owns one can join it")
    else:
        others, troubles = kernel.other_spaces()
        keys |= others
    for trouble in troubles:
        capture.evidence.doubt(MAPS, f"the user namespace of {os.fsdecode(trouble.path)} isn't shown: {trouble.why}")
    made = space_rows.rows(kernel, keys, troubles)
    if made.open_maps:
        capture.notes.append("not known: whether the makers of these user namespaces had CAP_SETFCAP; they are taken to"
                             f" have, which allows more maps: {few(made.open_maps)}")
    return made


def front(kernel: Kernel, family: Family) -> list[str]:
    """The remarks at the front of a captured world: of whom it is, and what goes with it."""
    name = heads(family)[family.root].status.name if family.root in heads(family) else b"?"
    return [f"Process {family.root} ({quoted(name)}) and all that descends from it, as they were at one instant:"
            f" {plural(len(family.processes()), 'process')}, {plural(len(family.threads), 'thread')}. Linux"
            f" {kernel.release}.",
            "It goes with an empty log: what happened before is over."]


def captured(kernel: Kernel, family: Family, wishes: Wishes, says: Says) -> Capture:
    """The world of a family that was read."""
    capture = Capture(worlds.World(log="script"))
    made = named_spaces(kernel, family, wishes.own_spaces, capture)
    world, evidence = capture.world, capture.evidence
    for premise in (BIRTHS, CREDENTIALS, GROUPS):
        evidence.establish(premise, f"the family was read from /proc until two of {family.readings} readings agreed")
    evidence.establish(MAPS, "the kernel showed the user namespaces of the system, with owners and maps")
    evidence.establish(ANSWERS, "nothing was followed: the family is as the kernel shows it")
    evidence.establish(SECUREBITS, "counted as 0, by which a member can get more")
    look_for_rings(kernel, family, evidence)
    world.spaces, world.processes = made.rows, process_rows(family, made.names)
    capture.notes += process_notes(kernel, family)
    if family.ran:
        evidence.doubt(BIRTHS, f"process {few([str(tid) for tid in family.ran])} ran at each reading: the readings"
                               " agree, and that the family was so at one instant isn't shown")
    if wishes.files:
        scan, began = Scan(kernel, family, wishes.skip, says), time.time()
        rows = scan.rows()
        world.files, world.mounts = rows.files, rows.mounts
        capture.notes += scan.notes
        evidence.establish(SCAN, f"{plural(scan.looked_at, 'file')} looked at, on all mounts of the family")
        for each in scan.doubts:
            evidence.doubt(SCAN, each)
        scan_fits.tell_scan(evidence, scan.seen, began, time.time())
        capture.notes += binfmt.tell(evidence, kernel.interpreters)
        capture.looked_at = scan.looked_at
    else:
        evidence.doubt(SCAN, "no files are declared: a `yes` holds by the family's own calls alone, without the"
                             " programs that it can run")
    if wishes.merge:
        world.processes, world.files = merged(world.processes), program_rows.merged(world.files)
        capture.notes.append("merged: equal members stand once, and equal programs by their shortest path")
    limits(world)
    world.remarks = [*front(kernel, family), SCANNED if wishes.files else UNSCANNED, *capture.notes,
                     *("doubt: " + doubt for doubt in capture.doubts)]
    return capture


def look_for_rings(kernel: Kernel, family: Family, evidence: Evidence) -> None:
    """Whether a ring of io_uring acts for a member."""
    evidence.establish(RINGS, "no member has a descriptor, memory or a thread of a ring of io_uring")
    for text in rings.doubts(kernel.proc, sorted(family.threads), "now"):
        evidence.doubt(RINGS, text)


def limits(world: worlds.World) -> None:
    """Fails where a world can't have so many rows (docs/FORMATS.md, "World")."""
    counts = (len(world.processes), MOST_PROCESSES, "threads"), (len(world.files), program_rows.MOST, "files")
    for count, most, word in counts:
        if count > most:
            raise Failure(f"there are {count} {word}, and a world has at most {most}",
                          "--merge declares equal ones once")
