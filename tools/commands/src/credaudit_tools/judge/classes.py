"""The classes of rights after a log: what can be said of each, in a word and in a sentence. Each comes from the
program's verdicts and runs; a `yes` is called gone only where nothing that is known stands against it.
"""
from collections.abc import Iterator
from dataclasses import dataclass

from ..command_line.printable import few
from ..formats.rights import Right

HELD, OWN_CALLS, PROGRAM = "held", "own-calls", "program"
GONE, GONE_BY_OWN_CALLS, DOUBTED, OPEN = "gone", "gone-by-own-calls", "doubted", "open"
TO_BE_HAD = (OWN_CALLS, PROGRAM, OPEN)
IS_GONE = (GONE, GONE_BY_OWN_CALLS, DOUBTED)        # the program says yes; what that rests on is for the evidence
SHORT = {GONE: "gone", GONE_BY_OWN_CALLS: "gone by its own calls"}
MOST_HOLDERS = 3        # that are told in a line
CLASSES = {
    HELD: "a member has it",
    OWN_CALLS: "the family gets it back by its own calls",
    PROGRAM: "the family gets it back through a declared program",
    GONE: "gone for good; no program that a scan of all files found, and no call, gives it back",
    GONE_BY_OWN_CALLS: "gone by the family's own calls; no scan of all files made the world, so programs may give it"
                       " back",
    DOUBTED: "gone by the rules, but a row of docs/KERNEL.md, or a doubt of the world or of the recording, touches it",
    OPEN: "neither known to be gone nor how to get it back"}


@dataclass(frozen=True)
class Outcome:
    """What is known of a right: its class; the run of the program that gets it, and who holds it then; the programs
    that the run executes; the rule and the row of an open one, in words; who holds one that is held, and by what, and
    why one is doubted; the text of the certificate."""
    right: Right
    kind: str
    run: tuple[bytes, ...] = ()
    holder: int | None = None
    programs: tuple[str, ...] = ()
    rule: str | None = None
    row: str | None = None
    lets: str = ""
    advice: str = ""
    reasons: tuple[str, ...] = ()
    certificate: bytes | None = None

    def calls(self) -> list[str]:
        """The run for the eye."""
        return [line.decode("ascii", "backslashreplace") for line in self.run]


def row_words(row: str) -> str:
    """Whom a row of bounds speaks of, by its name in a report."""
    later = row.removeprefix("fresh(").removesuffix(")")
    return f"in {row}" if later == row else f"in user namespaces that are made later in {later}"


def words(outcome: Outcome, folder: str | None = None, run: str | None = None) -> str:
    """What is known of a right, in one sentence; `folder` is where its certificate was put, `run` its run in words."""
    calls = "; ".join(outcome.calls()) if run is None else run
    where = f" (certificate in {folder})" if folder is not None else ""
    return {HELD: f"held by {few(list(outcome.reasons), MOST_HOLDERS) or f'process {outcome.holder}'}",
            OWN_CALLS: f"regained by its own calls: {calls}",
            PROGRAM: f"regained through {few(list(outcome.programs))}: {calls}",
            GONE: f"{SHORT[GONE]}{where}",
            GONE_BY_OWN_CALLS: f"{SHORT[GONE_BY_OWN_CALLS]}{where}",
            DOUBTED: f"not called gone{where}: {'; '.join(outcome.reasons)}",
            OPEN: f"open: {outcome.lets} lets it in, {row_words(outcome.row or '')} (rule {outcome.rule}, row"
                  f" {outcome.row}): {outcome.advice}",
            }[outcome.kind]


def counted(outcomes: list[Outcome]) -> Iterator[tuple[str, int]]:
    """How many rights are of each class, in the order of the classes."""
    for kind in CLASSES:
        yield kind, sum(each.kind == kind for each in outcomes)


# ---- JSON ------------------------------------------------------------------------------------------------------------

SCHEMA: dict[str, object] = {
    "right": "text", "class": "text", "run": ["text"], "holder": "number or null", "programs": ["text"],
    "rule": "text or null", "row": "text or null", "advice": "text or null", "reasons": ["text"],
    "certificate": "text or null"}


def document(outcome: Outcome, kept: str | None) -> dict[str, object]:
    """What is known of a right, for other programs."""
    return {"right": outcome.right.text(), "class": outcome.kind, "run": outcome.calls(), "holder": outcome.holder,
            "programs": list(outcome.programs), "rule": outcome.rule, "row": outcome.row,
            "advice": outcome.advice or None, "reasons": list(outcome.reasons), "certificate": kept}
