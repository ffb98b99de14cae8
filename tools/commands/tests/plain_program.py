"""Stands for credaudit in tests: plain Python works out what it answers (plain/report.py, plain/bounds.py). A `no`
comes from the member that holds the right, or from the plans of one process in the initial namespace (plain/plans.py);
where no plan gives it the answer stays `undecided`.
"""
from pathlib import Path

from credaudit_tools.replay.program import Program
from plain import bounds as plain_bounds, plans as live_plans
from plain.bounds import NO, UNDECIDED, Asked, Ends
from plain.reader import CALLS
from plain.report import report
from plain.rules import MINUS_ONE, Call, Rules


def call_text(call: Call) -> str:
    """The name and the arguments of a call that a plan makes, as a line of a run has them."""
    words = [call.name]
    for each in call.arguments:
        if isinstance(each, bytes):
            words.append(each.decode())
        elif call.name == "capset":
            words.append(f"{each:016x}")
        else:
            words.append("-1" if each == MINUS_ONE else str(each))
    return " ".join(words)


def run_of(query: Asked) -> list[str] | None:
    """The calls of the first plan that ends with a holder; None where there is none, or more than one process."""
    pid, right = min(query.members), query.right
    if len(query.members) > 1 or query.state.processes[pid][0] != 0 or right.space != 0:
        return None
    wanted = live_plans.Right(right.kind, right.of.bit_length() - 1 if right.kind == "cap" else right.of)
    permitted = frozenset(name.decode() for name in CALLS) - query.excluded
    for walk in live_plans.plans(Rules(query.world.files), permitted, query.state.processes[pid][1], wanted):
        if wanted.is_held(walk.cred):
            return [f"{pid} {call_text(call)} = {result}" for call, result in walk.made]
    return None


def verdict(query: Asked) -> Ends:
    """What an audit answers."""
    holder = next((pid for pid in sorted(query.members) if plain_bounds.has_right(query.state, pid, query.right)), None)
    if holder is not None:
        return Ends(NO, "no 0", f"holder {holder}")
    ends = plain_bounds.verdict(query)
    run = run_of(query) if ends.status == UNDECIDED else None
    return ends if run is None else Ends(NO, f"no {len(run)}", *run, f"holder {min(query.members)}")


def audited(world: bytes, log: bytes, pid: bytes, right: bytes) -> Ends:
    """The report of an audit from its line `end N` on; nobody looks at the number."""
    try:
        ends = verdict(plain_bounds.asked(world, log, pid, right))
    except Ends as refused:
        ends = refused
    return Ends(ends.status, "end 0", *ends.lines)


class Plain(Program):
    """The program, as plain Python has it."""

    def __init__(self) -> None:
        super().__init__("plain Python")

    def answer(self, *words: str) -> tuple[str, int]:
        """A replay."""
        told = report(*(Path(name).read_bytes() for name in words[1:3]))
        return told.text.decode("ascii", "backslashreplace"), told.status

    def tail(self, *words: str) -> tuple[bytes, int]:
        """An audit, a check or a confirmation."""
        command, world, log, pid, right, *third = words
        query = Path(world).read_bytes(), Path(log).read_bytes(), pid.encode(), right.encode()
        if command == "audit":
            ends = audited(*query)
        else:
            ends = plain_bounds.answer(command, *query, Path(third[0]).read_bytes())
        return "".join(line + "\n" for line in ends.lines).encode(), ends.status
