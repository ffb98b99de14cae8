"""What was seen of a trap, and whether that is what must be seen.

What must be seen is said in these words, several with " or " between them where one of them is enough:

  right               the recorder ended with 0, and found no difference
  doubt NAME          a doubt of the premise NAME stands in the recording, or against a right
  difference          the recording isn't what the kernel showed
  stopped, refused    the recording stopped at a line; the recorder did nothing (status 3), and said why
  told                anything of these but `right`
  altered             the summary says which file isn't as it was
  no secret           no file of the recording, and nothing that was said, has the word SECRET
  no change           with no_new_privs, an empty bounding set or a filter no right is said to be gone either
  RIGHT CLASS         the summary calls this right so, of some process
"""
import re
from dataclasses import dataclass, field

from .row import ALL, NONE, Trap


@dataclass
class Seen:
    """What came of a case. `shown` is what the kernel answered without a recorder, and `danger` whether it was the
    danger. `left` has the processes that stood still or were traced once the recorder had ended."""
    danger: bool = False
    shown: str = ""
    ended: bool = False
    seconds: float = 0.0
    status: int | None = None
    said: str = ""
    end: str = ""
    doubts: list[str] = field(default_factory=list)
    classes: dict[str, list[str]] = field(default_factory=dict)
    what_ifs: list[tuple[str, int, int]] = field(default_factory=list)
    broken: str = ""                # why the summary tells no rights
    left: list[str] = field(default_factory=list)
    secret: bool = False

    def gone(self) -> list[str]:
        """The rights that are called gone, of some process."""
        return sorted(right for right, classes in self.classes.items() if "gone" in classes)

    def difference(self) -> bool:
        """Whether the replay isn't what the kernel showed."""
        return "isn't true" in self.broken or bool(re.search(r": [1-9]\d* differences?$", self.said, re.MULTILINE))

    def stopped(self) -> bool:
        """Whether the recording ended at a line that can't be told truly."""
        return self.end == "stopped"

    def told(self) -> bool:
        """Whether anything at all was told."""
        return bool(self.doubts) or self.difference() or self.stopped() or self.status == 3

    def has(self, word: str) -> bool:
        """Whether one thing was seen (above)."""
        if word == "right":
            return self.status == 0 and not self.difference()
        if word.startswith("doubt "):
            return word.removeprefix("doubt ") in self.doubts
        plain = {"difference": self.difference(), "stopped": self.stopped(), "refused": self.status == 3,
                 "told": self.told(), "altered": "isn't as it was" in self.broken, "no secret": not self.secret,
                 "no change": not any(count for _, count, _ in self.what_ifs)}
        if word in plain:
            return plain[word]
        right, _, kind = word.partition(" ")
        return kind in self.classes.get(right, [])


def faults(trap: Trap, seen: Seen) -> list[str]:
    """What is wrong with what was seen of a trap; nothing where it is as it must be."""
    found = [] if seen.danger else [f"its danger doesn't happen: {seen.shown or 'nothing was shown'}"]
    if not seen.ended:
        return [*found, f"the recorder didn't end within {trap.limit:g} s"]
    found += [f"{each} after the end" for each in seen.left]
    for each in trap.told:
        if not any(seen.has(word) for word in each.split(" or ")):
            found.append(f"not seen: {each}")
    gone = [right for right in seen.gone() if trap.gone == NONE or trap.gone != ALL and not re.fullmatch(
        trap.gone, right)]
    if gone:
        found.append(f"called gone: {', '.join(gone[:3])}{f' and {len(gone) - 3} more' if len(gone) > 3 else ''}")
    return found


def words(seen: Seen) -> str:
    """What was seen, in a few words."""
    if not seen.ended:
        return f"no end after {seen.seconds:.0f} s"
    parts = [f"status {seen.status}"]
    parts += [f"stopped ({seen.said.strip().splitlines()[0][:80]})"] if seen.stopped() else []
    parts += ["a difference"] if seen.difference() else []
    parts += [f"doubts: {', '.join(sorted(set(seen.doubts)))}"] if seen.doubts else []
    counts = dict[str, int]()
    for classes in seen.classes.values():
        for kind in set(classes):
            counts[kind] = counts.get(kind, 0) + 1
    parts += [", ".join(f"{count} {kind}" for kind, count in counts.items())] if counts else []
    return "; ".join(parts)
