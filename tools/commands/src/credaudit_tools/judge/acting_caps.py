"""What a family may do without any call that the rules know: by capabilities that act on files, on devices, on other
processes or on the kernel itself (capabilities(7)).

Over the initial namespace each of these gives, by one way or another, ids and capabilities that no bounds hold. So no
right is gone of a family that can have one of them. Whether it can is for the program to say: it is asked, whoever
holds the capability now.
"""
from collections.abc import Sequence

from ..evidence.evidence import Evidence
from ..evidence.premises import POWER
from ..formats.kernel_names import CAPABILITIES, NUMBERS
from ..formats.rights import Right
from ..formats.verdicts import YES
from ..formats.worlds import INITIAL
from .program_questions import Answer

# What each does, by capabilities(7), and what that can give.
ACTS = {
    "CAP_CHOWN": "gives any file to any owner and group",
    "CAP_DAC_OVERRIDE": "reads, writes and executes any file, whatever its mode",
    "CAP_FOWNER": "sets the mode of any file, its set-id bits too, as its owner may",
    "CAP_FSETID": "keeps set-id bits of a file that is written to, and sets the set-group-ID bit for any group",
    "CAP_SETFCAP": "puts any capabilities on a file",
    "CAP_MKNOD": "makes device files, by which disks and memory are written",
    "CAP_SYS_ADMIN": "mounts filesystems, and much else",
    "CAP_SYS_MODULE": "loads code into the kernel",
    "CAP_SYS_PTRACE": "changes the memory of any process",
    "CAP_SYS_RAWIO": "writes to input and output ports, and to memory by devices",
    "CAP_SYS_BOOT": "loads another kernel",
    "CAP_BPF": "loads programs of its own into the kernel",
}
RIGHTS = tuple(Right("cap", NUMBERS[name], INITIAL) for name in ACTS)


def tell(evidence: Evidence, answers: Sequence[Answer]) -> None:
    """The program's answers on RIGHTS, in their order, as evidence: each that isn't known to be gone is a doubt."""
    evidence.establish(POWER, f"audits of {len(RIGHTS)} capabilities over the initial namespace: none can be had")
    for right, told in zip(RIGHTS, answers, strict=True):
        if told.verdict.word != YES:
            name = f"CAP_{CAPABILITIES[right.number]}"
            evidence.doubt(POWER, f"{name} over the initial namespace can be had, which {ACTS[name]} (capabilities(7))")
