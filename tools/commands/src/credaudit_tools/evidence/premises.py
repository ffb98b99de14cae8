"""What must be so for a right to be gone: one table of premises, a row for each. docs/PREMISES.md is made from it.

The program's `yes` is about a world and a log. That these are what the machine was, and that nothing acts beside them,
are the premises. Each is established by evidence (evidence.py), or isn't; a right is called gone only where each that
touches it is.
"""
from dataclasses import dataclass
from typing import TYPE_CHECKING

if TYPE_CHECKING:
    from ..formats.rights import Right

BIRTHS, ANSWERS, CREDENTIALS, MAPS, FILTERS, SECUREBITS, FS_IDS, GROUPS, POWER, RINGS = (
    "births", "answers", "credentials", "maps", "filters", "securebits", "fs-ids", "groups", "power", "rings")
SCAN, MOUNTS, FILES, BINFMT, KERNEL, RECORDING = "scan", "mounts", "files", "binfmt", "kernel", "recording"
OF_FILES = (SCAN, MOUNTS, FILES, BINFMT)        # what programs may give, and not the family's own calls


@dataclass(frozen=True)
class Premise:
    """A row. `holds` is what must be so, `by` what establishes it, `lost` what takes it away, in words. It touches the
    rights of `kinds`: user ids, group ids, capabilities."""
    name: str
    holds: str
    by: str
    lost: str
    kinds: tuple[str, ...] = ("uid", "gid", "cap")

    def touches(self, right: "Right") -> bool:
        """Whether a right can be there after all where this isn't so."""
        return right.kind in self.kinds

    def of_files(self) -> bool:
        """Whether it is about programs, so that it tells nothing of the family's own calls."""
        return self.name in OF_FILES


TABLE = (
    Premise(BIRTHS, "each process of the family is in the log from its birth to its end",
            "the recorder: all that descends from the processes at the start was traced until it ended, or until it was"
            " looked at; at the end the same processes live for the kernel as in the replay",
            "a process that wasn't traced, a birth or an end that isn't told, strace's lines cut or stopped, strace"
            " that was ended before all had stopped"),
    Premise(ANSWERS, "the answers in the log are the kernel's",
            "the recorder: the kernel shows the log's filters of all that lived at the end, none of which can answer a"
            " call of the log in its place; where it doesn't, as many stand as the log tells",
            "a filter that can answer success without making the call, one that was exchanged as it was read, or one"
            " that can't be read; another process that has the pipe of strace's lines"),
    Premise(CREDENTIALS, "at the end each member is for the kernel what it is in the replay",
            "the comparison of the replay with /proc/PID/status of each thread that lives at the end",
            "a difference, no process that could be compared, or one that couldn't be stopped while it was looked at"),
    Premise(MAPS, "user namespaces, their owners and their maps are as in the replay",
            "the comparison of the replay with the namespaces of all that lives at the end",
            "a difference, a map whose writing couldn't be told"),
    Premise(FILTERS, "what [filter] of the world declares holds for every member, and what an install of the log"
            " excludes for the process that makes it",
            "the world declares none, and the log installs none that a member has; or the kernel showed as many filters"
            " for each member of the family that is asked about",
            "members with different filters, a declared one that the kernel doesn't show, or an install in the log of a"
            " recording"),
    Premise(SECUREBITS, "no member has securebits by which it keeps more than in the replay",
            "the recorder: read before the start, or counted as 0, by which a member can get more; what a call set was"
            " shown by a later one, or no filter of its process could answer it",
            "securebits that a call set and nothing confirms"),
    Premise(FS_IDS, "the fs ids of each member are among its effective ones",
            "the end of the replay",
            "a member with another one, which can make itself a set-id file of that id: audits with such files tell"
            " which rights they give"),
    Premise(GROUPS, "supplementary groups were seen of each member, so that a forgotten setgroups shows",
            "of each member groups with which it, or a forebear of it, began, or a call of setgroups, its own or one of"
            " a forebear before its birth",
            "a member of which none of both was seen", ("gid",)),
    Premise(POWER, "no member can have a capability over the initial namespace that acts without a listed call",
            "audits of the family at the end: no member ever has CAP_CHOWN, CAP_DAC_OVERRIDE, CAP_FOWNER, CAP_FSETID,"
            " CAP_SETFCAP, CAP_MKNOD, CAP_SYS_ADMIN, CAP_SYS_MODULE, CAP_SYS_PTRACE, CAP_SYS_RAWIO, CAP_SYS_BOOT or"
            " CAP_BPF",
            "one of these that can be had: the reason says what it does"),
    Premise(RINGS, "nothing acts for a member through io_uring",
            "the recorder: no call of io_uring that succeeded, and no descriptor, memory or thread of a ring",
            "a ring"),
    Premise(SCAN, "all programs with set-id bits or capabilities were looked for",
            "credaudit-capture, which looked at each mount of the family",
            "a place that couldn't be looked at, or that was left out"),
    Premise(MOUNTS, "each member stands in a mount namespace that was looked at",
            "the mount namespaces of the members at the end are those of the scan, with the same mounts, since the same"
            " start of the machine",
            "a change of mounts while it was recorded, after which no scan was made; a member in a mount namespace that"
            " the scan didn't look at"),
    Premise(FILES, "nothing that the scan saw changed after it",
            "the recorder looked at each call that can change set-id bits, owners, attributes or names of such files,"
            " or the scan began after the last of them",
            "such a call, and no scan after it"),
    Premise(BINFMT, "no other rule than those of ELF files and scripts gives a program its credentials",
            "the entries of binfmt_misc",
            "an entry with the flag C or F"),
    Premise(KERNEL, "no row of docs/KERNEL.md touches the right",
            "the rows of docs/KERNEL.md, against the log and the family at its end",
            "a row that touches it"),
    Premise(RECORDING, "the files are as they were written",
            "the sums in recording.toml, and its own last line",
            "a file that was altered"),
)
BY_NAME = {each.name: each for each in TABLE}
