"""What a trap is: a program and its case, the danger that it shows, how it is spelled there, and what must tell it."""
from dataclasses import dataclass, replace

LAUNCHED, ATTACHED, CAPTURED = "launched", "attached", "captured"
NONE, ALL = "none", "all"


@dataclass(frozen=True)
class Trap:
    """A case of a program of this folder. `told` has what must be seen, each a text of tools/traps/judging.py; `gone`
    which rights may be called gone: none, all, or a regular expression. `options` are those of credaudit-trace, which
    must end within `limit` seconds. `go` is when SIGUSR1 is sent, in seconds from where the service is traced. `asked`
    says whether rights are asked about, which takes a scan and a summary. `altered` names a change of the files after
    the recording (tools/traps/altering.py)."""
    program: str
    case: str
    danger: str
    spelling: str
    told: tuple[str, ...]
    gone: str = NONE
    how: str = LAUNCHED
    options: tuple[str, ...] = ("--for", "2")
    limit: float = 60.0
    asked: bool = True
    go: float | None = None
    altered: str = ""

    @property
    def name(self) -> str:
        """The word that names the case."""
        return f"{self.program}/{self.case}{f'-{self.altered}' if self.altered else ''}"


def slowed(trap: Trap, times: float) -> Trap:
    """A case with so many times its time, for a machine whose processors others have too."""
    options = [f"{times * float(word):g}" if before == "--for" else word
               for before, word in zip(("", *trap.options), trap.options)]
    go = None if trap.go is None else times * trap.go
    return replace(trap, options=tuple(options), limit=times * trap.limit, go=go)
