"""Whether a scan of all programs goes with a recording: each member stands in a mount namespace that the scan looked
at, whose mounts are the same, and nothing of what it saw changed after it.

Both tell in their evidence when and where they looked: `boot`, `began`, `ended`, of a scan `mounts N` for each mount
namespace, of a recording `mounts PID` for each thread at its end, and `changed`, when its last call was read that
changes programs or mounts.
"""
from collections.abc import Iterable, Mapping, Sequence

from ..evidence.evidence import Evidence
from ..evidence.premises import BINFMT, FILES, MOUNTS, SCAN
from ..system.mount_namespaces import MountSpace, boot, of_text

BOOT, BEGAN, ENDED, CHANGED, SPACE, LEFT = "boot", "began", "ended", "changed", "mounts ", "left "
NEVER = "never"


def seconds(moment: float) -> str:
    """A moment as it is written."""
    return f"{moment:.3f}"


def spaces(seen: dict[str, str]) -> dict[str, MountSpace]:
    """The mount namespaces that were seen, by the word behind `mounts`."""
    return {key.removeprefix(SPACE): of_text(told) for key, told in seen.items() if key.startswith(SPACE)}


def renumbered(seen: Mapping[str, str], numbers: Mapping[int, int]) -> dict[str, str]:
    """The same of threads with other numbers."""
    found = dict[str, str]()
    for key, told in seen.items():
        front = next((front for front in (SPACE, LEFT) if key.startswith(front)), None)
        tid = -1 if front is None else int(key.removeprefix(front))
        found[f"{front}{numbers.get(tid, tid)}" if front is not None else key] = told
    return found


def later(scan: Evidence, recorded: Evidence) -> bool:
    """Whether a scan began after the recording's last change of programs and mounts."""
    changed, began = recorded.seen.get(CHANGED), scan.seen.get(BEGAN)
    if changed is None or began is None:
        return False
    return changed == NEVER or float(began) > float(changed)


def tell_scan(evidence: Evidence, looked_at: Sequence[MountSpace], began: float, ended: float) -> None:
    """Where and when a scan looked, as evidence of the world that it made: for the family as it was then."""
    evidence.seen |= {BOOT: boot(), BEGAN: seconds(began), ENDED: seconds(ended),
                      **{f"{SPACE}{number}": each.text() for number, each in enumerate(looked_at, 1)}}
    evidence.establish(MOUNTS, "the mount namespaces of the family were looked at")
    evidence.establish(FILES, "the family is as it was when the programs were looked for")


def tell_end(evidence: Evidence, stands: Mapping[int, MountSpace], left: Mapping[int, int], changed: float | None,
             now: float) -> None:
    """Where the threads of a recording stand at its end, after which line of the log some left the mount namespace of
    the start, and when programs or mounts were changed, as evidence."""
    evidence.seen |= {BOOT: boot(), ENDED: seconds(now), CHANGED: NEVER if changed is None else seconds(changed),
                      **{f"{SPACE}{tid}": each.text() for tid, each in stands.items()},
                      **{f"{LEFT}{tid}": str(line) for tid, line in left.items()}}
    evidence.establish(FILES, "each call was looked at that can change set-id bits, owners, attributes or names")


def tell(evidence: Evidence, recorded: Evidence, scan: Evidence, pids: Iterable[int]) -> None:
    """Takes a scan beside the evidence of a recording, for the members with these pids at its end."""
    evidence.add(scan, (SCAN,))
    for each in scan.doubts:
        if each.premise == BINFMT:
            evidence.doubt(each.premise, each.why)
    if later(scan, recorded) and recorded.seen[CHANGED] != NEVER:
        evidence.doubts = [each for each in evidence.doubts
                           if each.premise not in (FILES, MOUNTS) or each not in recorded.doubts]
        evidence.establish(FILES, "the scan began after the last call that changes programs")
    tell_spaces(evidence, recorded, scan, pids)


def tell_spaces(evidence: Evidence, recorded: Evidence, scan: Evidence, pids: Iterable[int]) -> None:
    """Holds the members' mount namespaces against those of the scan."""
    looked_at, own = list(spaces(scan.seen).values()), spaces(recorded.seen)
    if not looked_at or not own:
        return
    if recorded.seen.get(BOOT) != scan.seen.get(BOOT):
        evidence.doubt(MOUNTS, "the machine was started anew between the scan and the recording")
        return
    for pid in pids:
        space = own.get(str(pid))
        same = [each for each in looked_at if space is not None and each.is_same(space)]
        if space is None:
            evidence.doubt(MOUNTS, f"the mount namespace of process {pid} wasn't seen")
        elif not same:
            line = recorded.seen.get(f"{LEFT}{pid}")
            since = "" if line is None else f" since line {line} of the log"
            evidence.doubt(MOUNTS, f"process {pid} stands in the mount namespace mnt:[{space.number}]{since}, which the"
                                   " scan didn't look at")
        elif all(each.mounts != space.mounts for each in same):
            evidence.doubt(MOUNTS, f"process {pid} has other mounts than those that the scan looked at")
    evidence.establish(MOUNTS, "the mount namespaces of the members are those of the scan, with the same mounts")
