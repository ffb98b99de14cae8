"""Whether groups were seen: a member that begins without supplementary groups, and for which setgroups(2) never
succeeds, would keep those that it has in earnest, and nothing shows it.

So each member of a family is judged by itself: by the groups with which its forebear began, and by the calls of its own
and of its forebears before it was born.
"""
from collections.abc import Iterable

from ..command_line.printable import few
from ..evidence.evidence import Evidence
from ..evidence.premises import GROUPS
from ..formats.report import BIRTHS, Report

WHY = "began without supplementary groups, and setgroups was never called: a forgotten one isn't seen"
ADVICE = "record it with the groups that it has in earnest (setpriv --groups)"
SEEN = "each member, or a forebear of it, began with groups or called setgroups"


def unseen(report: Report, family: Iterable[int]) -> list[int]:
    """The members whose groups weren't seen in an accepted replay, by ascending pid."""
    seen = {one.pid for one in report.start if one.credential.groups}
    for event in report.events:
        if event.call == "setgroups" and event.result == "0":
            seen.add(event.pid)
        elif event.call in BIRTHS and event.result.isdigit():
            (seen.add if event.pid in seen else seen.discard)(int(event.result))
    return sorted(set(family) - seen)


def note(pids: list[int]) -> str:
    """What is to be said of these members."""
    return f"process {few([str(pid) for pid in pids])} {WHY}; {ADVICE}"


def tell(evidence: Evidence, report: Report, family: Iterable[int]) -> list[int]:
    """Adds whether the groups of a family were seen; the members of which they weren't. Where it is known already, as
    of a family that was captured while it lived, that stays."""
    if evidence.holds(GROUPS):
        return []
    found = unseen(report, family)
    if found:
        evidence.doubt(GROUPS, note(found))
    else:
        evidence.establish(GROUPS, SEEN)
    return found
